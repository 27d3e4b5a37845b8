//! Order 3: "Close the gap without a second set. No answer and no table byte differs." At every
//! place of a line of every length, a thread is taken out by every way there is, and the calls that
//! leave the line alone are put too. Each call is held to the model and, apart from the model, to
//! the rule: those that are left keep their order, and stand at places 1 to n.

mod boards;
mod cases;
mod lines;
mod ways;

use std::collections::BTreeSet;

use boards::{boards, Board};
use cases::{Case, Lock, LOCKS};
use door::{Hold, View};
use lines::{check_gaps, Kind, Line};
use model::{at, operation as op, record, show, Rng, AREA};
use ways::{ways, Accepted, Way};

/// A call that is accepted: the line's length, the thread's place, whose lock is on, whether the
/// thread is suspended, and the way.
type Combination = (usize, usize, Lock, bool, &'static str);

/// The calls on the threads of one line.
struct Trial {
    line: Line,
    rng: Rng,
    hold: Hold,
    /// The combinations that there are by the rules, and those that were met.
    wanted: BTreeSet<Combination>,
    met: BTreeSet<Combination>,
}

impl Trial {
    fn new(line: Line) -> Trial {
        let seed = 61;
        Trial {
            line,
            rng: Rng::new(seed),
            hold: Hold::new(&format!("gaps of {line:?}, seed {seed}")),
            wanted: BTreeSet::new(),
            met: BTreeSet::new(),
        }
    }

    /// All boards on which the line has this length.
    fn take_from_length(&mut self, length: usize) {
        let boards = boards(self.line, length, &mut self.rng);
        for (number, board) in boards.iter().enumerate() {
            self.take_from_board(board, number);
        }
        let case = Case::new(&boards[0], 1, Lock::Off, false).expect("with lock 0 somebody runs");
        let wanted = ways(&case).into_iter();
        let wanted = wanted.flat_map(|way| combinations(self.line, length, &way));
        self.wanted.extend(wanted);
    }

    /// Every place of the line. Every second thread that waits is suspended when it is taken, from
    /// the first on or from the second on.
    fn take_from_board(&mut self, board: &Board, number: usize) {
        let places = 1..=board.members.len();
        let cases = places.flat_map(|place| {
            let suspended = (number + place) % 2 == 1;
            LOCKS.map(|lock| Case::new(board, place, lock, suspended))
        });
        for case in cases.flatten() {
            self.take(&case);
        }
    }

    /// Every way to take this thread.
    fn take(&mut self, case: &Case) {
        for way in ways(case) {
            if self.put(case, &way) {
                let suspended = case.view().suspended(case.it());
                let (length, place, lock) = (case.members.len(), case.place, case.lock);
                self.met.insert((length, place, lock, suspended, way.name));
            }
        }
    }

    /// Puts one call, and gives whether it is accepted.
    fn put(&mut self, case: &Case, way: &Way) -> bool {
        let accepted = way.accepted_for(case);
        if let Accepted::Unasked = accepted {
            return false;
        }
        let (operation, object, priority, number, data) = way.asked;
        let record = record(operation, object as u8, priority, number, data);
        let table = before(case, way);
        let answered = self.hold.call(&table, &record, &[0xA5; AREA]);
        let told = || format!("{}, {:?}, {}", way.name, case.lock, show(&table));
        if let Accepted::Never(code) = accepted {
            assert_eq!(answered.code, code, "{}", told());
            assert!(answered.table == table, "{}", told());
            return false;
        }
        assert!(answered.code >= 0, "{}", told());
        let (before, after) = (View(&table), View(&answered.table));
        let to_tail = [op::YIELD, op::TICK].contains(&operation);
        check_gaps(before, after, &way.gone, |&i| to_tail && before.ready(i));
        true
    }
}

/// The table before a call: a tick finds one tick left to those who then go.
fn before(case: &Case, way: &Way) -> Vec<u8> {
    let mut table = case.table.to_vec();
    if way.asked.0 == op::TICK {
        for &i in &way.gone {
            let counter = at::thread(i) + at::COUNTER;
            table[counter..counter + 4].copy_from_slice(&1u32.to_le_bytes());
        }
    }
    table
}

/// Whether the lock can be had on a board: waiters have no caller, and where all others send to
/// Init, nobody else can run.
fn can_lock(line: Line, length: usize, lock: Lock) -> bool {
    match (line.kind, lock) {
        (Kind::Waiters, Lock::Callers) => false,
        (Kind::Senders, Lock::Others) => line.number > 0 || length < line.longest(),
        _ => true,
    }
}

/// Whether a way can only be asked of Init and is then refused: alone in line 0 it goes nowhere but
/// to the tail, and as a receiver it is not to be touched.
fn is_only_inits(line: Line, length: usize, name: &str) -> bool {
    match (line.kind, line.number) {
        (Kind::Ready, 0) => length == 1 && !name.starts_with("Yield") && !name.starts_with("Tick"),
        (Kind::Senders, 0) => name.ends_with("the receiver"),
        _ => false,
    }
}

/// Whether the rules accept a way in this combination.
fn is_accepted(line: Line, way: &Way, combination: &Combination) -> bool {
    let &(length, place, lock, suspended, name) = combination;
    let at_place = match way.accepted(lock) {
        Accepted::Every => true,
        Accepted::First => place == 1,
        Accepted::Never(_) | Accepted::Unasked => false,
    };
    let can_be = can_lock(line, length, lock) && !(suspended && line.kind == Kind::Ready);
    at_place && can_be && !is_only_inits(line, length, name)
}

/// The combinations in which a way is accepted in lines of this length.
fn combinations(line: Line, length: usize, way: &Way) -> Vec<Combination> {
    let places = (1..=length).flat_map(|place| LOCKS.map(|lock| (place, lock)));
    let all = places.flat_map(|(place, lock)| {
        [false, true].map(|suspended| (length, place, lock, suspended, way.name))
    });
    all.filter(|combination| is_accepted(line, way, combination))
        .collect()
}

/// Takes threads from a line of every length up to the longest. So many combinations there are:
/// places by ways by locks, twice where the thread may be suspended.
fn take_from(kind: Kind, number: u8, longest: usize, count: usize) {
    let mut trial = Trial::new(Line { kind, number });
    for length in 1..=longest {
        trial.take_from_length(length);
    }
    trial.hold.finish();
    let differ: Vec<_> = trial.met.symmetric_difference(&trial.wanted).collect();
    assert!(differ.is_empty(), "met or wanted, not both: {differ:?}");
    assert_eq!(trial.met.len(), count);
    assert_eq!(trial.line.longest(), longest);
}

#[test]
fn the_ready_line_with_init() {
    let others = 135 * (2 * 2 + 4 * 3) + 15 * 4;
    take_from(Kind::Ready, 0, 16, others + (16 + 136 * 2) * 3);
}

#[test]
fn another_ready_line() {
    let count = 120 * (2 * 2 + 4 * 3) + 15 * 4 + (15 + 120 * 2) * 3;
    take_from(Kind::Ready, 5, 15, count);
}

#[test]
fn the_waiters_of_semaphore_0() {
    take_from(Kind::Waiters, 0, 15, 2 * 120 * (12 * 2 + 2));
}

#[test]
fn the_waiters_of_another_semaphore() {
    take_from(Kind::Waiters, 5, 15, 2 * 120 * (12 * 2 + 2));
}

#[test]
fn the_senders_to_init() {
    take_from(Kind::Senders, 0, 15, 2 * ((120 * 3 - 15) * 8 + 15 * 2));
}

#[test]
fn the_senders_to_another_thread() {
    take_from(Kind::Senders, 5, 14, 2 * (105 * (9 * 3 + 2 * 2) + 14 * 2));
}
