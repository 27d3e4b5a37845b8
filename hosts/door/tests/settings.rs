//! Order 8 over the compiled door: Set priority and Set turn, operations 23 and 24, are held to the
//! model on random tables, and to Set as it was, whose operation 3 is gone.

#[path = "../../model/tests/common/former.rs"]
mod former;

use std::collections::BTreeMap;

use door::boards::{after, busy, deepest, init_runs, locked};
use door::{door, Hold, View};
use model::{fresh, operation as op, random_sound, record, show, wait, Rng};
use model::{AREA, INIT, LONGEST, RECORD, TABLE, THREADS};

const UNWRITTEN: [u8; AREA] = [0x5A; AREA];

fn set_priority(i: u8, priority: u8) -> [u8; RECORD] {
    record(op::SET_PRIORITY, i, priority, 0, 0)
}

fn set_turn(i: u8, turn: u32) -> [u8; RECORD] {
    record(op::SET_TURN, i, 0, turn, 0)
}

/// What a thread in use does.
fn doing(view: View, i: usize) -> &'static str {
    let runs = i == view.running();
    match view.wait(i).0 {
        wait::NONE if runs && view.lock() > 0 => "runs under lock",
        wait::NONE if runs => "runs",
        wait::NONE if view.ready(i) && view.place(i) == 1 => "is first",
        wait::NONE if view.ready(i) => "stands behind others",
        wait::NONE => "is suspended",
        wait::DELAY => "delays",
        wait::RECEIVE => "receives",
        _ if view.suspended(i) => "waits in a line, suspended",
        _ => "waits in a line",
    }
}

/// How often a thread that does this got that.
#[derive(Default)]
struct Met(BTreeMap<(&'static str, &'static str), u32>);

impl Met {
    fn see(&mut self, table: &[u8], i: usize, got: &'static str) {
        *self.0.entry((doing(View(table), i), got)).or_insert(0) += 1;
    }

    /// Whatever a thread does, it got each of so many things so many times.
    fn expect(&self, things: usize, times: u32) {
        assert_eq!(self.0.len(), 9 * things, "{:?}", self.0);
        assert!(self.0.values().all(|&met| met > times), "{:?}", self.0);
    }
}

/// A thread of a table gets other priorities and its own, and other turns and its own.
fn set(hold: &mut Hold, rng: &mut Rng, table: &[u8; TABLE], i: usize, met: &mut Met) {
    let view = View(table);
    let (own, neighbour) = (view.priority(i), view.priority(rng.below(THREADS)));
    for priority in [own, neighbour, own ^ 1] {
        let asked = set_priority(i as u8, priority);
        if hold.call(table, &asked, &UNWRITTEN).code == 0 {
            let got = ["another priority", "its own"][usize::from(priority == own)];
            met.see(table, i, got);
        }
    }
    let (turn, left) = (view.turn(i), view.counter(i));
    for (turn, got) in [
        (turn, "its turn"),
        (left.max(2) - 1, "less"),
        (left + 1, "more"),
    ] {
        if hold.call(table, &set_turn(i as u8, turn), &UNWRITTEN).code == 0 {
            met.see(table, i, got);
        }
    }
}

/// Every thread of many random tables, Init and free ones among them.
#[test]
fn the_door_sets_as_the_model_does() {
    let mut hold = Hold::new("settings on random tables, seed 88000");
    let (mut rng, mut met) = (Rng::new(88_000), Met::default());
    for _ in 0..1_000 {
        let table = random_sound(&mut rng);
        for i in 0..THREADS {
            set(&mut hold, &mut rng, &table, i, &mut met);
        }
    }
    assert_eq!(hold.finish(), 1_000 * THREADS * 6);
    met.expect(5, 50);
}

/// The code of the door's answer, and the table that it leaves.
fn put(before: &[u8; TABLE], record: &[u8]) -> (i32, [u8; TABLE]) {
    let mut table = *before;
    let code = door(&mut table, record, &mut [0; AREA]);
    (code, table)
}

/// Set as it was is 24 and then 23, and 23 and then 24, wherever it was accepted: by the door itself,
/// byte for byte. Where it was refused, one of the two is refused for the same reason, and leaves the
/// table alone. Gives whether it was accepted.
fn set_was_both(table: &[u8; TABLE], i: u8, priority: u8, turn: u32) -> bool {
    let (code, wanted) = former::set(table, i, priority, turn);
    let (rank, length) = (set_priority(i, priority), set_turn(i, turn));
    let case = || format!("{i} {priority} {turn}\n{}", show(table));
    if code != 0 {
        let answers = [rank, length].map(|half| put(table, &half));
        assert!(answers.contains(&(code, *table)), "{}", case());
        return false;
    }
    for [first, second] in [[length, rank], [rank, length]] {
        let (one, between) = put(table, &first);
        let (other, last) = put(&between, &second);
        assert!((one, other, last) == (0, 0, wanted), "{}", case());
    }
    true
}

#[test]
fn set_as_it_was_is_24_and_then_23() {
    let (mut rng, mut met) = (Rng::new(88_100), Met::default());
    for _ in 0..6_000 {
        let table = random_sound(&mut rng);
        let (i, priority, turn) = former::random_fields(&mut rng, &table);
        if set_was_both(&table, i, priority, turn) {
            let same = View(&table).priority(i.into()) == priority;
            let got = ["another priority", "its own"][usize::from(same)];
            met.see(&table, i.into(), got);
        }
    }
    met.expect(2, 20);
}

/// The boards on which refusals are tried.
fn boards() -> Vec<[u8; TABLE]> {
    let mut rng = Rng::new(88_200);
    let random = (0..40).map(|_| random_sound(&mut rng));
    let made = [fresh(), busy(), locked(), deepest(), init_runs()];
    random.chain(made).collect()
}

/// The first refusal that holds, or 0: this code where the setting is bad, and then those of the thread.
fn refusal(board: &[u8], object: u8, bad: bool, code: i32) -> i32 {
    let i = usize::from(object);
    match View(board) {
        _ if bad => code,
        view if i >= THREADS || !view.in_use(i) => -1,
        _ if i == INIT => -5,
        _ => 0,
    }
}

/// "23: −2, −1, −5; 24: −3, −1, −5; Init gets −5 in both": on every object, and around every limit.
#[test]
fn the_refusals_in_their_order() {
    let mut hold = Hold::new("the refusals of 23 and 24, seed 88200");
    for board in boards() {
        for object in (0..=17).chain([128, 255]) {
            for priority in [0, 1, 30, 31, 32, 33, 64, 128, 255] {
                let code = refusal(&board, object, priority > 31, -2);
                hold.expect(&board, &set_priority(object, priority), &UNWRITTEN, code);
            }
            for turn in [
                0,
                1,
                LONGEST - 1,
                LONGEST,
                LONGEST + 1,
                1 << 17 | 1,
                u32::MAX,
            ] {
                let code = refusal(&board, object, turn == 0 || turn > LONGEST, -3);
                hold.expect(&board, &set_turn(object, turn), &UNWRITTEN, code);
            }
        }
    }
    hold.finish();
}

/// "−8 for 3 and above 24", whatever the fields say.
#[test]
fn operation_3_is_gone_and_there_is_none_above_24() {
    let mut hold = Hold::new("operation 3 and those above 24, seed 88200");
    let fields = [(0, 0, 0), (1, 5, 3), (1, 5, 0), (1, 0, 3), (16, 32, 0)];
    for board in boards() {
        for operation in [3].into_iter().chain(25..=255) {
            for (object, priority, turn) in fields {
                let record = record(operation, object, priority, turn, 0);
                hold.expect(&board, &record, &UNWRITTEN, -8);
            }
        }
    }
    hold.finish();
}

/// "a stale priority" sent along with a turn is refused, and so is a turn sent along with a priority.
#[test]
fn a_setting_that_is_sent_along_is_refused() {
    let mut hold = Hold::new("a setting sent along, seed 88200");
    for board in boards() {
        for object in 0..=16 {
            for along in [1, 5, 32, 255] {
                let stale = record(op::SET_TURN, object, along, 3, 0);
                hold.expect(&board, &stale, &UNWRITTEN, -8);
                let stale = record(op::SET_PRIORITY, object, 5, along.into(), 0);
                hold.expect(&board, &stale, &UNWRITTEN, -8);
            }
            for operation in [op::SET_PRIORITY, op::SET_TURN] {
                hold.expect(&board, &record(operation, object, 0, 0, 1), &UNWRITTEN, -8);
            }
        }
    }
    hold.finish();
}

/// How many of five ticks the lanes of turns 3 and 2 are charged, with this record after the first.
fn shares_around(asked: [u8; RECORD]) -> [u32; 2] {
    let create = |i, turn| (record(op::CREATE, i, 5, turn, 0), 0);
    let mut table = after(fresh(), &[create(1, 3), create(2, 2)]);
    let tick = record(op::TICK, 0, 0, 0, 0);
    let mut charged = [0; THREADS];
    for record in [tick, asked, tick, tick, tick, tick] {
        charged[View(&table).running()] += u32::from(record == tick);
        assert_eq!(door(&mut table, &record, &mut [0; AREA]), 0);
    }
    [charged[1], charged[2]]
}

/// 24 with the turn that a lane has fills its counter, and the lane has a tick more than its share; 23
/// with the priority that it has changes nothing.
#[test]
fn the_turn_that_stands_breaks_the_shares_and_the_priority_that_stands_does_not() {
    assert_eq!(shares_around(set_turn(1, 3)), [4, 1]);
    assert_eq!(shares_around(set_priority(1, 5)), [3, 2]);
    assert_eq!(shares_around(set_priority(2, 5)), [3, 2]);
}
