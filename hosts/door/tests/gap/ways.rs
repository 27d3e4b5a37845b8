//! The ways to take threads out of a line, and the calls that leave it alone, as document 01's rules
//! have them.

use model::{operation as op, FOREVER, INIT};

use crate::boards::{beside, TOP};
use crate::cases::{Case, Lock};
use crate::lines::Kind;

/// Where in a line a way is accepted.
#[derive(Clone, Copy)]
pub enum Accepted {
    /// At every place.
    Every,
    /// At the first place, if the caller runs.
    First,
    /// At none: it is refused with this code.
    Never(i32),
    /// It would be the call of another thread.
    Unasked,
}

use Accepted::{Every, First, Never, Unasked};

/// With lock 0, under the caller's lock, and under another's.
type ByLock = [Accepted; 3];

const ALWAYS: ByLock = [Every, Every, Every];
const ON_CALLER: ByLock = [Every, Never(-5), Every];
const BY_CALLER: ByLock = [First, Never(-5), Unasked];
const SERVED: ByLock = [First, First, Unasked];
/// Under lock these are accepted, and move nobody.
const TO_TAIL: ByLock = [First, Every, Every];
const UNLOCKED: ByLock = [Every, Never(-5), Never(-5)];
const NEVER_4: ByLock = [Never(-4); 3];
const NEVER_5: ByLock = [Never(-5); 3];

/// A request by its operation, object, priority, number and data.
pub type Asked = (u8, usize, u8, u32, u32);

const YIELD: Asked = (op::YIELD, 0, 0, 0, 0);
const TICK: Asked = (op::TICK, 0, 0, 0, 0);

/// A request that is about one thread of a line.
pub struct Way {
    pub name: &'static str,
    pub asked: Asked,
    /// The threads that leave their lines, whichever these are, where it is accepted. Before a tick
    /// each of these has one tick left.
    pub gone: Vec<usize>,
    by_lock: ByLock,
}

impl Way {
    /// Where it is accepted in lines of its kind.
    pub fn accepted(&self, lock: Lock) -> Accepted {
        self.by_lock[lock as usize]
    }

    /// What comes of it for the thread of the case. One that has mail does not wait to receive.
    pub fn accepted_for(&self, case: &Case) -> Accepted {
        let in_ready_line = case.line.kind == Kind::Ready;
        let runs = case.caller() == Some(case.view().running());
        match self.accepted(case.lock) {
            First if !runs || case.place > 1 => Unasked,
            _ if in_ready_line && self.asked.0 == op::RECEIVE && case.has_mail() => Unasked,
            Every | First if self.is_refused_to_init(case) => Never(-5),
            accepted => accepted,
        }
    }

    /// "−5 for Init", and a call that must wait is −5 if "the caller is Init".
    fn is_refused_to_init(&self, case: &Case) -> bool {
        let (operation, object, ..) = self.asked;
        match operation {
            op::DELETE | op::SUSPEND => object == INIT,
            op::SET_PRIORITY | op::SET_TURN => object == INIT,
            op::DELAY | op::SEND | op::RECEIVE | op::PEND => case.it() == INIT,
            _ => false,
        }
    }
}

/// The ways for a thread.
struct Ways(Vec<Way>);

impl Ways {
    fn add(&mut self, by_lock: ByLock, name: &'static str, asked: Asked, gone: &[usize]) {
        self.0.push(Way {
            name,
            asked,
            gone: gone.to_vec(),
            by_lock,
        });
    }
}

/// A request on a thread or a semaphore that has no other field.
fn on(operation: u8, object: usize) -> Asked {
    (operation, object, 0, 0, 0)
}

fn set_priority(thread: usize, priority: u8) -> Asked {
    (op::SET_PRIORITY, thread, priority, 0, 0)
}

fn set_turn(thread: usize) -> Asked {
    (op::SET_TURN, thread, 0, 9, 0)
}

/// The ways for the thread of the case. Their names, and where they are accepted, are the same for
/// all threads of all lines of its kind.
pub fn ways(case: &Case) -> Vec<Way> {
    let mut ways = Ways(Vec::new());
    match case.line.kind {
        Kind::Ready => ready_ways(&mut ways, case),
        Kind::Waiters => waiters_ways(&mut ways, case),
        Kind::Senders => senders_ways(&mut ways, case),
    }
    ways.0
}

/// The head goes to the tail, where the lock is off.
fn ready_ways(ways: &mut Ways, case: &Case) {
    let (it, rank, [beside, _]) = (case.it(), case.line.number, beside(case.line));
    let head = &case.members[..usize::from(case.lock == Lock::Off)];
    let head_and_waits = [head, &case.waiting()].concat();
    let (s, ended) = (beside.into(), case.with_senders(it));
    ways.add(ON_CALLER, "Delete", on(op::DELETE, it), &ended);
    ways.add(ON_CALLER, "Suspend", on(op::SUSPEND, it), &[it]);
    ways.add(ALWAYS, "Set to the top", set_priority(it, TOP), &[it]);
    ways.add(ALWAYS, "Set beside", set_priority(it, beside), &[it]);
    ways.add(ALWAYS, "Set in its line", set_priority(it, rank), &[]);
    ways.add(ALWAYS, "Set turn", set_turn(it), &[]);
    ways.add(BY_CALLER, "Delay", (op::DELAY, 0, 0, 9, 0), &[it]);
    ways.add(BY_CALLER, "Send", (op::SEND, INIT, 0, 9, 77), &[it]);
    ways.add(BY_CALLER, "Receive", (op::RECEIVE, 0, 0, 9, 0), &[it]);
    ways.add(BY_CALLER, "Pend", (op::PEND, s, 0, FOREVER, 0), &[it]);
    ways.add(TO_TAIL, "Yield", YIELD, head);
    ways.add(TO_TAIL, "Tick", TICK, head);
    ways.add(TO_TAIL, "Tick that ends every wait", TICK, &head_and_waits);
    ways.add(NEVER_4, "Resume", on(op::RESUME, it), &[]);
    ways.add(NEVER_4, "Cancel", on(op::CANCEL, it), &[]);
    ways.add(NEVER_4, "Abort", on(op::ABORT, it), &[]);
}

/// As many units as reach the thread, and more than all take.
fn waiters_ways(ways: &mut Ways, case: &Case) {
    let (it, s, all) = (case.it(), case.line.number.into(), case.members);
    let first = &all[..case.place];
    let (units, more) = (first.len() as u32, all.len() as u32 + 3);
    let post = |units| (op::POST, s, 0, units, 0);
    let interrupt = |units| (op::POST_FROM_INTERRUPT, s, 0, units, 0);
    ways.add(ALWAYS, "Delete", on(op::DELETE, it), &case.with_senders(it));
    ways.add(ALWAYS, "Abort", on(op::ABORT, it), &[it]);
    ways.add(ALWAYS, "Drop", on(op::DROP, s), all);
    ways.add(ALWAYS, "Post", post(units), first);
    ways.add(ALWAYS, "Post to all", post(more), all);
    ways.add(UNLOCKED, "Post from interrupt", interrupt(units), first);
    ways.add(UNLOCKED, "Post from interrupt to all", interrupt(more), all);
    ways.add(NEVER_5, "Post of no unit", post(0), &[]);
    ways.add(NEVER_5, "Post of no unit from interrupt", interrupt(0), &[]);
    ways.add(NEVER_4, "Cancel", on(op::CANCEL, it), &[]);
    waiting_ways(ways, case);
}

fn senders_ways(ways: &mut Ways, case: &Case) {
    let (it, r, all) = (case.it(), case.line.number.into(), case.members);
    let (full, ended) = ((op::SEND_FROM_INTERRUPT, r, 0, 0, 77), case.with_senders(r));
    ways.add(ALWAYS, "Delete", on(op::DELETE, it), &case.with_senders(it));
    ways.add(SERVED, "Receive", on(op::RECEIVE, 0), &all[..1]);
    ways.add(ON_CALLER, "Delete the receiver", on(op::DELETE, r), &ended);
    ways.add(ON_CALLER, "Suspend the receiver", on(op::SUSPEND, r), &[r]);
    ways.add(ALWAYS, "Set the receiver", set_priority(r, TOP), &[r]);
    ways.add(NEVER_5, "Send from interrupt", full, &[]);
    ways.add(NEVER_4, "Cancel", on(op::CANCEL, it), &[]);
    ways.add(NEVER_4, "Abort", on(op::ABORT, it), &[]);
    waiting_ways(ways, case);
}

/// The ways that both kinds of lines have in which threads wait. "A suspended thread that waits on a
/// semaphore or a send stays in that line."
fn waiting_ways(ways: &mut Ways, case: &Case) {
    let (it, all) = (case.it(), case.members);
    let from_it = all[case.place - 1..].iter().copied();
    let second: Vec<usize> = from_it.step_by(2).collect();
    let others: Vec<usize> = all.iter().copied().filter(|&i| i != it).collect();
    let (change, again) = match case.view().suspended(it) {
        true => (op::RESUME, op::SUSPEND),
        false => (op::SUSPEND, op::RESUME),
    };
    ways.add(ALWAYS, "Tick that ends its wait", TICK, &[it]);
    ways.add(ALWAYS, "Tick that ends every second wait", TICK, &second);
    ways.add(ALWAYS, "Tick that ends all but its wait", TICK, &others);
    ways.add(ALWAYS, "Tick that ends every wait", TICK, &case.waiting());
    ways.add(ALWAYS, "Set priority", set_priority(it, TOP), &[]);
    ways.add(ALWAYS, "Set turn", set_turn(it), &[]);
    ways.add(ALWAYS, "Suspend or Resume", on(change, it), &[]);
    ways.add(NEVER_4, "Suspend or Resume again", on(again, it), &[]);
}
