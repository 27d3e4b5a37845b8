//! The operations on threads: Yield, Create, Delete, Suspend, Resume, Delay, Cancel, Set priority
//! and Set turn.

use crate::kernel::{Kernel, Reply, Thread, Wait, DONE};
use crate::names::{code, outcome, INIT, LONGEST, PRIORITIES, THREADS};

/// −2: "priority above 31"
fn check_priority(priority: u8) -> Result<(), i32> {
    if usize::from(priority) >= PRIORITIES {
        return Err(code::PRIORITY);
    }
    Ok(())
}

/// −3: "turn or delay 0 or above 99,999", and order 7: "for 21 with 0 or above 99,999"
pub(crate) fn check_turn(number: u32) -> Result<(), i32> {
    if number == 0 || number > LONGEST {
        return Err(code::TURN);
    }
    Ok(())
}

impl Kernel {
    /// "Yield: tail of its line, counter = turn; under lock, nothing."
    pub fn yield_turn(&mut self) -> Reply {
        if !self.locked() {
            self.go_to_tail(self.running);
        }
        DONE
    }

    /// "Create: not suspended, no wait, empty mailbox, outcome 1, ready."
    /// Refused in the order −2, −3, −1, which here is "thread number above 15, or [...] in use".
    pub fn create(&mut self, object: u8, priority: u8, turn: u32) -> Reply {
        check_priority(priority)?;
        check_turn(turn)?;
        let i = usize::from(object);
        if i >= THREADS || self.threads[i].is_some() {
            return Err(code::THREAD);
        }
        self.threads[i] = Some(Thread {
            priority,
            suspended: false,
            wait: Wait::Nothing,
            mailbox: None,
            outcome: outcome::NONE_YET,
            turn,
            counter: 0,
            parcel: 0,
        });
        self.enter_ready(i);
        DONE
    }

    /// "Delete: −5 for Init, or the running thread under lock. Senders waiting on it end with −5
    /// in line order; its record becomes free."
    pub fn delete(&mut self, object: u8) -> Reply {
        let i = self.thread_in_use(object)?;
        if i == INIT || self.is_running_under_lock(i) {
            return Err(code::OPERATION);
        }
        for sender in self.senders[i].clone() {
            self.end_wait(sender, outcome::FAILED, 0);
        }
        self.leave_line(i);
        self.threads[i] = None;
        DONE
    }

    /// "Suspend: −5 for Init, or the running thread under lock; a ready thread leaves its line
    /// with counter 0." −4 comes before it: "already suspended".
    pub fn suspend(&mut self, object: u8) -> Reply {
        let i = self.thread_in_use(object)?;
        if self.thread(i).suspended {
            return Err(code::STATE);
        }
        if i == INIT || self.is_running_under_lock(i) {
            return Err(code::OPERATION);
        }
        if self.is_ready(i) {
            self.leave_line(i);
            self.thread_mut(i).counter = 0;
        }
        self.thread_mut(i).suspended = true;
        DONE
    }

    /// "Resume: ready if not waiting." −4: not suspended.
    pub fn resume(&mut self, object: u8) -> Reply {
        let i = self.thread_in_use(object)?;
        if !self.thread(i).suspended {
            return Err(code::STATE);
        }
        self.thread_mut(i).suspended = false;
        if self.is_ready(i) {
            self.enter_ready(i);
        }
        DONE
    }

    /// "Delay: −5 for Init or under lock; else it waits as above."
    pub fn delay(&mut self, number: u32) -> Reply {
        check_turn(number)?;
        self.must_wait(Wait::Delay, number, 0)
    }

    /// "Cancel, Abort: the wait ends with −5." −4: "not in a delay".
    pub fn cancel(&mut self, object: u8) -> Reply {
        let i = self.thread_in_use(object)?;
        if self.thread(i).wait != Wait::Delay {
            return Err(code::STATE);
        }
        self.end_wait(i, outcome::FAILED, 0);
        DONE
    }

    /// Order 8: "operation 23 sets the priority (a ready thread whose priority differs goes to the
    /// new tail with a full counter; the same priority changes nothing)". A thread that is not ready
    /// stays where it waits and keeps its counter.
    pub fn set_priority(&mut self, object: u8, priority: u8) -> Reply {
        check_priority(priority)?;
        let i = self.thread_to_set(object)?;
        if !self.is_ready(i) {
            self.thread_mut(i).priority = priority;
        } else if self.thread(i).priority != priority {
            self.leave_line(i);
            self.thread_mut(i).priority = priority;
            self.enter_ready(i);
        }
        DONE
    }

    /// Order 8: "operation 24 sets the turn (a ready thread takes a full counter and keeps its place;
    /// otherwise only the turn changes)."
    pub fn set_turn(&mut self, object: u8, turn: u32) -> Reply {
        check_turn(turn)?;
        let i = self.thread_to_set(object)?;
        self.thread_mut(i).turn = turn;
        if self.is_ready(i) {
            self.thread_mut(i).counter = turn;
        }
        DONE
    }

    /// The object as a thread whose priority or turn is set. Order 8: "−1, −5; Init gets −5 in both".
    fn thread_to_set(&self, object: u8) -> Result<usize, i32> {
        match self.thread_in_use(object)? {
            INIT => Err(code::OPERATION),
            i => Ok(i),
        }
    }

    /// Whether `i` is "the running thread under lock".
    fn is_running_under_lock(&self, i: usize) -> bool {
        i == self.running && self.locked()
    }
}
