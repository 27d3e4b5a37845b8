//! Order 6: "Keep a 32-bit word in kernel bytes 2 to 5, bit p set exactly when ready line p has a
//! member". After each step of the compiled door alone its word is what a look at every thread
//! says. What each operation does to the bits is counted, and each that can move one has to.

use std::collections::BTreeMap;

use door::{door, View};
use model::{at, fresh, operation as op, random_record, random_sound, record, show, show_record};
use model::{wait, Rng, AREA, TABLE};

/// Whether a step of a kind can set a bit, and whether it can clear one.
type Moves = (bool, bool);

const NOTHING: Moves = (false, false);
const SETS: Moves = (true, false);
const CLEARS: Moves = (false, true);
const BOTH: Moves = (true, true);

/// Every kind of accepted step, by the rules. A caller that waits leaves its ready line, and whose
/// wait ends enters it, if not suspended.
const KINDS: &[(&str, Moves)] = &[
    ("Yield", NOTHING),
    ("Create", SETS),
    ("Delete", BOTH),
    ("Suspend", CLEARS),
    ("Resume", SETS),
    ("Delay", CLEARS),
    ("Cancel", SETS),
    ("Send that blocks", CLEARS),
    ("Send that ends a receive", SETS),
    ("Send into a mailbox", NOTHING),
    ("Send from interrupt that ends a receive", SETS),
    ("Send from interrupt into a mailbox", NOTHING),
    ("Receive that blocks", CLEARS),
    ("Receive that ends a send", SETS),
    ("Receive with no sender", NOTHING),
    ("Make", NOTHING),
    ("Drop", SETS),
    ("Pend that blocks", CLEARS),
    ("Pend that takes a unit", NOTHING),
    ("Abort", SETS),
    ("Post to waiters", SETS),
    ("Post with no waiter", NOTHING),
    ("Post from interrupt to waiters", SETS),
    ("Post from interrupt with no waiter", NOTHING),
    ("Lock", NOTHING),
    ("Unlock", NOTHING),
    ("Tick", SETS),
    ("Outcome", NOTHING),
    ("Ticks", SETS),
    ("Nearest", NOTHING),
    ("Set priority", BOTH),
    ("Set turn", NOTHING),
];

/// The kind of an accepted step.
fn kind(before: View, record: &[u8], code: i32) -> &'static str {
    let (object, running) = (record[1], before.running() as u8);
    let receives = || before.wait(object.into()).0 == wait::RECEIVE;
    let waiters = || before.waiting((wait::SEMAPHORE, object)) > 0;
    match record[0] {
        op::YIELD => "Yield",
        op::CREATE => "Create",
        op::DELETE => "Delete",
        op::SUSPEND => "Suspend",
        op::RESUME => "Resume",
        op::DELAY => "Delay",
        op::CANCEL => "Cancel",
        op::SEND if code == 1 => "Send that blocks",
        op::SEND if receives() => "Send that ends a receive",
        op::SEND => "Send into a mailbox",
        op::SEND_FROM_INTERRUPT if receives() => "Send from interrupt that ends a receive",
        op::SEND_FROM_INTERRUPT => "Send from interrupt into a mailbox",
        op::RECEIVE if code == 1 => "Receive that blocks",
        op::RECEIVE if before.waiting((wait::SEND, running)) > 0 => "Receive that ends a send",
        op::RECEIVE => "Receive with no sender",
        op::MAKE => "Make",
        op::DROP => "Drop",
        op::PEND if code == 1 => "Pend that blocks",
        op::PEND => "Pend that takes a unit",
        op::ABORT => "Abort",
        op::POST if waiters() => "Post to waiters",
        op::POST => "Post with no waiter",
        op::POST_FROM_INTERRUPT if waiters() => "Post from interrupt to waiters",
        op::POST_FROM_INTERRUPT => "Post from interrupt with no waiter",
        op::LOCK => "Lock",
        op::UNLOCK => "Unlock",
        op::TICK => "Tick",
        op::TICKS => "Ticks",
        op::NEAREST => "Nearest",
        op::SET_PRIORITY => "Set priority",
        op::SET_TURN => "Set turn",
        _ => "Outcome",
    }
}

/// The word that the threads' bytes ask for: is some thread of this priority in use, not suspended
/// and without a wait?
fn looked_at(table: &[u8]) -> u32 {
    let mut word = 0;
    for priority in 0..32 {
        for thread in table[..16 * 24].chunks(24) {
            if thread[0] == 1 && thread[1] == priority && thread[2] == 0 && thread[3] == 0 {
                word |= 1 << priority;
            }
        }
    }
    word
}

/// The word is right, with lock 0 its leading zeros give the running thread's line, and the bytes
/// behind it are zero.
fn check_word(table: &[u8], case: &dyn Fn() -> String) {
    let (view, word) = (View(table), View(table).ready_word());
    assert_eq!(word, looked_at(table), "{}", case());
    let top = 31 - word.leading_zeros();
    let is_top = top == view.priority(view.running()).into();
    assert!(view.lock() > 0 || is_top, "{}", case());
    let behind = &table[at::READY_WORD + 4..];
    assert!(behind.iter().all(|&byte| byte == 0), "{}", case());
}

/// How many bits the steps of a kind set and cleared, and how many of these steps left the word as
/// it was.
#[derive(Default, Debug)]
struct Moved {
    set: u32,
    cleared: u32,
    kept: u32,
}

/// The steps that were met.
#[derive(Default)]
struct Met {
    accepted: u32,
    refused: u32,
    moved: BTreeMap<&'static str, Moved>,
}

impl Met {
    /// One step of the compiled door; the table becomes the next one.
    fn step(&mut self, table: &mut [u8; TABLE], record: &[u8]) {
        let before = *table;
        let code = door(table, record, &mut [0xA5; AREA]);
        let case = || {
            let (before, after) = (show(&before), show(&table[..]));
            let record = show_record(record);
            format!("code {code}, {record}\nbefore: {before}after: {after}")
        };
        if code >= 0 || (record[0] == op::OUTCOME && code == -5) {
            check_word(&table[..], &case);
            self.count(View(&before), record, code, View(&table[..]));
        } else {
            assert!(code != -7 && *table == before, "{}", case());
            self.refused += 1;
        }
    }

    /// Counts what an accepted step did to the bits.
    fn count(&mut self, before: View, record: &[u8], code: i32, after: View) {
        let (old, new) = (before.ready_word(), after.ready_word());
        let moved = self.moved.entry(kind(before, record, code)).or_default();
        moved.set += (new & !old).count_ones();
        moved.cleared += (old & !new).count_ones();
        moved.kept += u32::from(old == new);
        self.accepted += 1;
    }

    /// Random steps; under lock every fourth is an Unlock, so that the lock does not stay on.
    fn run(&mut self, rng: &mut Rng, table: &mut [u8; TABLE], steps: usize) {
        for _ in 0..steps {
            let record = match View(&table[..]).lock() {
                lock if lock > 0 && rng.one_in(4) => record(op::UNLOCK, 0, 0, 0, 0),
                _ => random_record(rng, &table[..]),
            };
            self.step(table, &record);
        }
    }
}

/// How often at the least a kind moves a bit that it can move, and leaves the word.
const TIMES: u32 = 20;

#[test]
fn the_word_is_what_a_look_at_every_thread_says() {
    let mut met = Met::default();
    for seed in 9_000..9_060 {
        met.run(&mut Rng::new(seed), &mut fresh(), 400);
    }
    let mut rng = Rng::new(9_100);
    for _ in 0..6_000 {
        let mut table = random_sound(&mut rng);
        met.run(&mut rng, &mut table, 8);
    }
    assert!(met.accepted >= 20_000 && met.refused >= 20_000);
    for (kind, (can_set, can_clear)) in KINDS {
        let moved = met.moved.remove(kind).unwrap_or_default();
        let as_it_can = |bits: u32, can: bool| if can { bits >= TIMES } else { bits == 0 };
        assert!(
            as_it_can(moved.set, *can_set)
                && as_it_can(moved.cleared, *can_clear)
                && moved.kept >= TIMES,
            "{kind}: {moved:?}"
        );
    }
    assert!(met.moved.is_empty(), "{:?}", met.moved);
}
