//! The operations on semaphores: Make, Drop, Pend, Abort, Post and Post from interrupt.

use crate::kernel::{done_with, Kernel, Reply, Wait, DONE};
use crate::names::{code, outcome, FULL_COUNT, SEMAPHORES};

impl Kernel {
    /// "Make: −5 if number is above 99." −6 comes before it: "semaphore number above 7, or [...]
    /// in use".
    pub fn make(&mut self, object: u8, number: u32) -> Reply {
        let s = usize::from(object);
        if s >= SEMAPHORES || self.semaphores[s].is_some() {
            return Err(code::SEMAPHORE);
        }
        if number > u32::from(FULL_COUNT) {
            return Err(code::OPERATION);
        }
        self.semaphores[s] = Some(number as u8);
        DONE
    }

    /// "Drop: its waiters end with −5 in line order." The record becomes free.
    pub fn drop_semaphore(&mut self, object: u8) -> Reply {
        let (s, _) = self.semaphore_in_use(object)?;
        for waiter in self.waiters[s].clone() {
            self.end_wait(waiter, outcome::FAILED, 0);
        }
        self.semaphores[s] = None;
        DONE
    }

    /// "Pend: with count above 0 takes one and the value is what is left; else must wait."
    pub fn pend(&mut self, object: u8, number: u32) -> Reply {
        let (s, count) = self.semaphore_in_use(object)?;
        if count == 0 {
            return self.must_wait(Wait::Semaphore(s), number, 0);
        }
        self.semaphores[s] = Some(count - 1);
        done_with(u32::from(count - 1))
    }

    /// "Cancel, Abort: the wait ends with −5." −4: "not waiting on a semaphore".
    pub fn abort(&mut self, object: u8) -> Reply {
        let i = self.thread_in_use(object)?;
        if !matches!(self.thread(i).wait, Wait::Semaphore(_)) {
            return Err(code::STATE);
        }
        self.end_wait(i, outcome::FAILED, 0);
        DONE
    }

    /// Order 4: "From now on Post, from threads and interrupts, answers −5 for number 0 or when the
    /// count plus the units left over after the waiters are served is above 99." Document 01: "from
    /// an interrupt also under lock." The waiters are served before what is left over is looked at:
    /// after a refusal the state is thrown away.
    pub fn post(&mut self, object: u8, number: u32, from_interrupt: bool) -> Reply {
        let (s, count) = self.semaphore_in_use(object)?;
        if number == 0 || (from_interrupt && self.locked()) {
            return Err(code::OPERATION);
        }
        let left_over = self.serve(s, number);
        let sum = u64::from(count) + u64::from(left_over);
        if sum > u64::from(FULL_COUNT) {
            return Err(code::OPERATION);
        }
        self.semaphores[s] = Some(sum as u8);
        DONE
    }

    /// "Units go to waiters in line order, priority notwithstanding (001); each such wait ends
    /// with 0; the rest is added to the count." Gives the rest, which is what order 4 calls left
    /// over. A suspended waiter stands in the line and takes its unit.
    fn serve(&mut self, s: usize, units: u32) -> u32 {
        let mut rest = units;
        while rest > 0 {
            let Some(&first) = self.waiters[s].front() else {
                break;
            };
            self.end_wait(first, outcome::DONE, 0);
            rest -= 1;
        }
        rest
    }
}
