//! The state of the kernel and what lines and waits mean in it. A line is a queue of thread
//! numbers, its first member at the front; nothing here knows of places.

use std::collections::VecDeque;

use crate::names::{code, outcome, FOREVER, INIT, PRIORITIES, SEMAPHORES, THREADS};

/// "A thread has one wait at a time, of one kind."
#[derive(Clone, Copy, Debug, PartialEq, Eq)]
pub(crate) enum Wait {
    Nothing,
    Delay,
    Receive,
    /// The thread waits until its data fits into this thread's mailbox.
    Send(usize),
    /// The thread waits for a unit of this semaphore.
    Semaphore(usize),
}

/// A thread that is in use.
#[derive(Clone, Debug, PartialEq, Eq)]
pub(crate) struct Thread {
    pub priority: u8,
    pub suspended: bool,
    pub wait: Wait,
    /// The mailbox's value, if it is full.
    pub mailbox: Option<u32>,
    pub outcome: i8,
    pub turn: u32,
    pub counter: u32,
    pub parcel: u32,
}

/// "There is a ready line per priority, a line per semaphore, and a line of senders per receiving
/// thread."
#[derive(Clone, Copy, Debug, PartialEq, Eq)]
pub(crate) enum Line {
    Ready(usize),
    Waiters(usize),
    Senders(usize),
}

/// The whole state: threads and semaphores (`None` where free), the lines, the running thread and
/// the lock count.
#[derive(Clone, Debug, PartialEq, Eq)]
pub(crate) struct Kernel {
    pub threads: [Option<Thread>; THREADS],
    pub semaphores: [Option<u8>; SEMAPHORES],
    pub ready: [VecDeque<usize>; PRIORITIES],
    pub waiters: [VecDeque<usize>; SEMAPHORES],
    pub senders: [VecDeque<usize>; THREADS],
    pub running: usize,
    pub lock: u8,
}

/// "An answer is a code and a value."
#[derive(Clone, Copy, Debug, PartialEq, Eq)]
pub(crate) struct Answer {
    pub code: i32,
    pub value: u32,
}

/// An answer, or the number of a refusal.
pub(crate) type Reply = Result<Answer, i32>;

/// "Otherwise code 0 is done and 1 is blocked; value is 0 unless named."
pub(crate) const DONE: Reply = Ok(Answer {
    code: code::DONE,
    value: 0,
});

/// Code 0 with a value that the operation names.
pub(crate) fn done_with(value: u32) -> Reply {
    Ok(Answer {
        code: code::DONE,
        value,
    })
}

impl Kernel {
    /// The state without any thread, semaphore or line member.
    pub fn empty() -> Kernel {
        Kernel {
            threads: Default::default(),
            semaphores: Default::default(),
            ready: Default::default(),
            waiters: Default::default(),
            senders: Default::default(),
            running: INIT,
            lock: 0,
        }
    }

    /// Thread `i`, which is in use.
    pub fn thread(&self, i: usize) -> &Thread {
        self.threads[i].as_ref().expect("the thread is in use")
    }

    /// Thread `i`, which is in use, to be changed.
    pub fn thread_mut(&mut self, i: usize) -> &mut Thread {
        self.threads[i].as_mut().expect("the thread is in use")
    }

    /// The lock is on when its count is above 0.
    pub fn locked(&self) -> bool {
        self.lock > 0
    }

    /// "A thread is ready when in use, not suspended, not waiting; the running thread is ready
    /// too."
    pub fn is_ready(&self, i: usize) -> bool {
        let thread = self.thread(i);
        !thread.suspended && thread.wait == Wait::Nothing
    }

    /// The line in which thread `i` stands. "A suspended thread that waits on a semaphore or a
    /// send stays in that line." A delay or receive has no line, nor has a thread that is
    /// suspended and waits for nothing.
    fn line_of(&self, i: usize) -> Option<Line> {
        match self.thread(i).wait {
            Wait::Nothing if self.is_ready(i) => {
                Some(Line::Ready(usize::from(self.thread(i).priority)))
            }
            Wait::Nothing | Wait::Delay | Wait::Receive => None,
            Wait::Send(to) => Some(Line::Senders(to)),
            Wait::Semaphore(s) => Some(Line::Waiters(s)),
        }
    }

    fn line_mut(&mut self, line: Line) -> &mut VecDeque<usize> {
        match line {
            Line::Ready(priority) => &mut self.ready[priority],
            Line::Waiters(s) => &mut self.waiters[s],
            Line::Senders(to) => &mut self.senders[to],
        }
    }

    /// "Leaving any line closes the gap." The state of thread `i` still says which line that is.
    pub fn leave_line(&mut self, i: usize) {
        if let Some(line) = self.line_of(i) {
            self.line_mut(line).retain(|&member| member != i);
        }
    }

    /// Thread `i` joins the tail of the line that its state says, if it says one. Gives "the number
    /// of threads already in that line" (order 1); 0 where there is none.
    pub fn join_line(&mut self, i: usize) -> usize {
        let Some(line) = self.line_of(i) else {
            return 0;
        };
        let members = self.line_mut(line);
        let already = members.len();
        members.push_back(i);
        already
    }

    /// "Entering the ready line is at the tail with counter = turn."
    pub fn enter_ready(&mut self, i: usize) {
        let thread = self.thread_mut(i);
        thread.counter = thread.turn;
        self.join_line(i);
    }

    /// The tail of its own ready line, with a full counter: what Yield and a used-up turn mean.
    pub fn go_to_tail(&mut self, i: usize) {
        self.leave_line(i);
        self.enter_ready(i);
    }

    /// "After every step, with lock 0, the running thread is the first of the highest non-empty
    /// line; with lock above 0 it doesn't change."
    pub fn choose_running(&mut self) {
        if self.locked() {
            return;
        }
        let highest = self.ready.iter().rev().find_map(|line| line.front());
        self.running = *highest.expect("Init is always ready");
    }

    /// "A call that must wait answers −5 if its number is 0, the caller is Init or the lock is
    /// on. Otherwise it leaves its ready line, joins its line's tail (a delay or receive has
    /// none), counter becomes the number (forever 0), outcome 1, parcel 0 (for a send, the data),
    /// answer 1." Order 1: "A Send or Pend that answers 1 now gives as its value the number of
    /// threads already in that line. [..] Delay and Receive keep value 0."
    pub fn must_wait(&mut self, wait: Wait, number: u32, parcel: u32) -> Reply {
        let caller = self.running;
        if number == 0 || caller == INIT || self.locked() {
            return Err(code::OPERATION);
        }
        self.leave_line(caller);
        let thread = self.thread_mut(caller);
        thread.wait = wait;
        thread.counter = if number >= FOREVER { 0 } else { number };
        thread.outcome = outcome::NONE_YET;
        thread.parcel = parcel;
        let already = self.join_line(caller);
        Ok(Answer {
            code: code::BLOCKED,
            value: already as u32,
        })
    }

    /// "When a wait ends the thread leaves its line, its wait kind, object and counter become 0,
    /// the outcome is 0 or −5 and the parcel is 0, or the data for a receive that succeeded; then
    /// the thread enters its ready line if not suspended."
    pub fn end_wait(&mut self, i: usize, outcome: i8, parcel: u32) {
        self.leave_line(i);
        let thread = self.thread_mut(i);
        thread.wait = Wait::Nothing;
        thread.counter = 0;
        thread.outcome = outcome;
        thread.parcel = parcel;
        if !thread.suspended {
            self.enter_ready(i);
        }
    }

    /// The object as a thread that is in use; −1 "thread number above 15, or free".
    pub fn thread_in_use(&self, object: u8) -> Result<usize, i32> {
        match self.threads.get(usize::from(object)) {
            Some(Some(_)) => Ok(usize::from(object)),
            _ => Err(code::THREAD),
        }
    }

    /// The object as a semaphore that is in use and its count; −6 "semaphore number above 7, or
    /// free".
    pub fn semaphore_in_use(&self, object: u8) -> Result<(usize, u8), i32> {
        match self.semaphores.get(usize::from(object)) {
            Some(Some(count)) => Ok((usize::from(object), *count)),
            _ => Err(code::SEMAPHORE),
        }
    }
}
