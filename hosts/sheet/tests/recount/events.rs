//! A recording, expanded into events: every request is put to the door, and an accepted operation 21 as its single ticks, one by one. What
//! crates/fairness/specs/Run.antt says of an event is read off the bytes of its two tables.

use std::rc::Rc;

use model::{
    at, code, door, fresh, operation as op, record, wait, word, AREA, RECORD, TABLE, THREADS,
};
use picture::doors::Board;
use picture::incident::Rule;
use sheet::ending::Deed;

pub type Table = [u8; TABLE];

/// "a step of a run: the state before it, what was asked, the code that was answered, and the state after it"
pub struct Event {
    /// The request's number in the recording, which the single ticks of an operation 21 share.
    pub number: usize,
    pub asked: [u8; RECORD],
    pub code: i32,
    pub before: Rc<Table>,
    pub after: Rc<Table>,
}

/// The events of a recording from a fresh table on, by this rule.
pub fn events(recording: &[u8], rule: Rule) -> Vec<Event> {
    let table = fresh();
    let mut board = Board { table, rule };
    let mut before = Rc::new(table);
    let mut events = Vec::new();
    for (number, asked) in recording.chunks_exact(RECORD).enumerate() {
        let asked: [u8; RECORD] = asked.try_into().expect("a whole record");
        for asked in singles(&board.table, asked) {
            let (code, _) = board.ask(&asked);
            let after = Rc::new(board.table);
            events.push(Event {
                number,
                asked,
                code,
                before: std::mem::replace(&mut before, Rc::clone(&after)),
                after,
            });
        }
    }
    events
}

/// "Demand 3 counts an accepted operation 21 as its single ticks". Any other request is one event.
fn singles(table: &Table, asked: [u8; RECORD]) -> Vec<[u8; RECORD]> {
    let is_done = || door(&mut table.clone(), &asked, &mut [0; AREA]) == code::DONE;
    match asked[0] == op::TICKS && is_done() {
        true => vec![record(op::TICK, 0, 0, 0, 0); word(&asked, 4) as usize],
        false => vec![asked],
    }
}

pub fn byte(table: &Table, i: usize, field: usize) -> u8 {
    table[at::thread(i) + field]
}

pub fn rank(table: &Table, i: usize) -> usize {
    usize::from(byte(table, i, at::PRIORITY))
}

pub fn turn(table: &Table, i: usize) -> u64 {
    word(table, at::thread(i) + at::TURN).into()
}

pub fn running(table: &Table) -> usize {
    usize::from(table[at::RUNNING])
}

/// "A thread is ready when in use, not suspended, not waiting".
pub fn is_ready(table: &Table, i: usize) -> bool {
    let (used, suspended) = (byte(table, i, at::IN_USE), byte(table, i, at::SUSPENDED));
    used == 1 && suspended == 0 && byte(table, i, at::WAIT_KIND) == wait::NONE
}

/// `ready_at`: is the thread ready at this rank?
pub fn ready_at(rank: usize, table: &Table, i: usize) -> bool {
    is_ready(table, i) && usize::from(byte(table, i, at::PRIORITY)) == rank
}

/// "one rank's set of ready threads", by number.
pub fn ready_set(rank: usize, table: &Table) -> [bool; THREADS] {
    std::array::from_fn(|i| ready_at(rank, table, i))
}

impl Event {
    /// "accepted": a tick, a yield and a change of settings answer 0 unless they are refused.
    fn is_accepted(&self, operation: u8) -> bool {
        self.asked[0] == operation && self.code == code::DONE
    }

    /// The refusals of an Outcome are −1 and those of every request; any other code of it is the outcome.
    pub fn is_refused(&self) -> bool {
        match self.asked[0] {
            op::OUTCOME => [code::THREAD, code::UNSOUND, code::MALFORMED].contains(&self.code),
            _ => self.code < 0,
        }
    }

    pub fn is_tick(&self) -> bool {
        self.is_accepted(op::TICK)
    }

    pub fn is_locked(&self) -> bool {
        self.before[at::LOCK] > 0
    }

    /// "An accepted tick is charged to the thread that was running, to nobody while the lock is on; a refused one to nobody."
    pub fn charged(&self) -> Option<usize> {
        (self.is_tick() && !self.is_locked()).then(|| running(&self.before))
    }

    /// The thread that an accepted Create creates.
    pub fn created(&self) -> Option<usize> {
        let is_created = self.is_accepted(op::CREATE);
        is_created.then(|| usize::from(self.asked[1]))
    }

    /// `broken_off`: the thread that was running "is still ready, and outranked by the one that runs now".
    pub fn broken_off(&self) -> Option<usize> {
        let (was, is) = (running(&self.before), running(&self.after));
        let is_outranked = rank(&self.after, was) < rank(&self.after, is);
        (is_ready(&self.after, was) && is_outranked).then_some(was)
    }

    /// `same_set` and `undisturbed`: the rank's ready set "is the same after" it, and none of them "yields" or "is named in an accepted
    /// change of settings".
    pub fn keeps(&self, rank: usize) -> bool {
        let is_same = ready_set(rank, &self.before) == ready_set(rank, &self.after);
        is_same && (0..THREADS).all(|i| self.disturbs(rank, i).is_none())
    }

    /// What the thread of this rank does or is named in, that no stretch of the rank has.
    fn disturbs(&self, rank: usize, i: usize) -> Option<Deed> {
        let is_named = usize::from(self.asked[1]) == i;
        let deed = match self.asked[0] {
            op::YIELD if running(&self.before) == i => Deed::Yielded,
            op::SET_PRIORITY if is_named => Deed::PrioritySet(self.asked[2]),
            op::SET_TURN if is_named => Deed::TurnSet(word(&self.asked, 4)),
            _ => return None,
        };
        let is_done = self.code == code::DONE && ready_at(rank, &self.before, i);
        is_done.then_some(deed)
    }

    /// What each thread did that ends a stretch of this rank, told by what was asked.
    pub fn deeds(&self, rank: usize) -> Vec<(usize, Deed)> {
        let deed = |i: usize| {
            let was = ready_at(rank, &self.before, i);
            let is = ready_at(rank, &self.after, i);
            let deed = self.disturbs(rank, i);
            let deed = deed.or_else(|| (was && !is).then(|| self.leaves()));
            deed.or_else(|| (is && !was).then(|| self.joins(i)))
        };
        let each = (0..THREADS).filter_map(|i| Some((i, deed(i)?)));
        each.collect()
    }

    fn leaves(&self) -> Deed {
        match self.asked[0] {
            op::DELETE => Deed::Deleted,
            op::SUSPEND => Deed::Suspended,
            op::DELAY => Deed::Delayed,
            op::RECEIVE => Deed::Received,
            op::SEND => Deed::Sent(self.asked[1]),
            op::PEND => Deed::Pended(self.asked[1]),
            other => panic!("operation {other} takes nobody out of a ready line"),
        }
    }

    fn joins(&self, i: usize) -> Deed {
        let is_named = usize::from(self.asked[1]) == i;
        match self.asked[0] {
            op::CREATE if is_named => Deed::Created,
            op::RESUME if is_named => Deed::Resumed,
            op::SET_PRIORITY if is_named => Deed::Came(rank(&self.before, i)),
            _ => Deed::WaitEnded,
        }
    }
}
