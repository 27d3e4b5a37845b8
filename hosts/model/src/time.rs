//! The operations Lock, Unlock, Tick, Outcome, Ticks and Nearest.

use crate::kernel::{done_with, Answer, Kernel, Reply, Wait, DONE};
use crate::names::{code, outcome, DEEPEST_LOCK, THREADS};
use crate::threads::check_turn;

impl Kernel {
    /// "Lock −5 at 255."
    pub fn lock(&mut self) -> Reply {
        if self.lock == DEEPEST_LOCK {
            return Err(code::OPERATION);
        }
        self.lock += 1;
        DONE
    }

    /// "Unlock −5 at 0."
    pub fn unlock(&mut self) -> Reply {
        if self.lock == 0 {
            return Err(code::OPERATION);
        }
        self.lock -= 1;
        DONE
    }

    /// "Tick: first, with lock 0, the running thread is charged [...] Then, by thread number,
    /// each wait with counter above 0 counts down"
    pub fn tick(&mut self) -> Reply {
        if !self.locked() {
            self.charge();
        }
        for i in 0..THREADS {
            self.count_down(i);
        }
        DONE
    }

    /// Order 7: "Operation 21 takes a number from 1 to 99,999 and does that many ticks: table and
    /// answer equal those of that many single ones." A single one is a step of its own, after which
    /// the running thread is chosen.
    pub fn ticks(&mut self, number: u32) -> Reply {
        check_turn(number)?;
        for _ in 0..number {
            self.tick()?;
            self.choose_running();
        }
        DONE
    }

    /// Order 7: "Operation 22 gives as value the least number of ticks after which, if only ticks
    /// come, some timed wait ends, and 0 if there is none." A timed wait has a counter above 0, and
    /// goes on while its thread is suspended.
    pub fn nearest(&self) -> Reply {
        let waits = self.threads.iter().flatten();
        let waits = waits.filter(|thread| thread.wait != Wait::Nothing);
        let timed = waits.map(|thread| thread.counter).filter(|&left| left > 0);
        done_with(timed.min().unwrap_or(0))
    }

    /// "the running thread is charged: counter less 1 and, if that gives 0, tail of its line with
    /// a full counter."
    fn charge(&mut self) {
        let running = self.running;
        self.thread_mut(running).counter -= 1;
        if self.thread(running).counter == 0 {
            self.go_to_tail(running);
        }
    }

    /// "each wait with counter above 0 counts down, and at 0 ends: a delay with 0, others with
    /// −5."
    fn count_down(&mut self, i: usize) {
        let Some(thread) = &mut self.threads[i] else {
            return;
        };
        if thread.wait == Wait::Nothing || thread.counter == 0 {
            return;
        }
        thread.counter -= 1;
        if thread.counter == 0 {
            let outcome = match thread.wait {
                Wait::Delay => outcome::DONE,
                _ => outcome::FAILED,
            };
            self.end_wait(i, outcome, 0);
        }
    }

    /// "Outcome: code is the outcome, value the parcel if that is 0, else 0; an outcome stays
    /// until its thread next waits."
    pub fn outcome(&self, object: u8) -> Reply {
        let thread = self.thread(self.thread_in_use(object)?);
        let done = thread.outcome == outcome::DONE;
        Ok(Answer {
            code: i32::from(thread.outcome),
            value: if done { thread.parcel } else { 0 },
        })
    }
}
