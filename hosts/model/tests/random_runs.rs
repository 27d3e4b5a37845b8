//! Random runs from fresh and from random sound tables. After every step the table is sound
//! again, the running thread is the rule's, a refusal changes nothing (the board checks that),
//! and each operation gives exactly the codes that document 01 lists for it.

mod common;

use std::collections::BTreeSet;

use common::*;
use model::{at, operation, random_record, random_sound, wait, word, Rng};

/// The codes of each operation in document 01's order, done and blocked included, and those of orders
/// 7 and 8: "Operation 3 is gone."
const CODES: [&[i32]; 25] = [
    &[0],
    &[0, -2, -3, -1],
    &[0, -1, -5],
    &[],
    &[0, -1, -4, -5],
    &[0, -1, -4],
    &[1, -3, -5],
    &[0, -1, -4],
    &[0, 1, -1, -5],
    &[0, -1, -5],
    &[0, 1, -5],
    &[0, -6, -5],
    &[0, -6],
    &[0, 1, -6, -5],
    &[0, -1, -4],
    &[0, -6, -5],
    &[0, -6, -5],
    &[0, -5],
    &[0, -5],
    &[0],
    &[1, 0, -5, -1],
    &[0, -3],
    &[0],
    &[0, -2, -1, -5],
    &[0, -3, -1, -5],
];

/// The pairs of operation and code that occur.
type Pairs = BTreeSet<(u8, i32)>;

fn wanted() -> Pairs {
    let rows = CODES.iter().zip(0u8..);
    let pairs = rows.flat_map(|(codes, op)| codes.iter().map(move |&code| (op, code)));
    pairs.chain((0..=24).map(|op| (op, -8))).collect()
}

/// The first of the highest non-empty ready line, read off the bytes.
fn first_of_the_highest(board: &Board) -> usize {
    let ready = (0..16).filter(|&i| {
        let record = board.record(i);
        record[0] == 1 && record[2] == 0 && record[3] == 0 && record[5] == 1
    });
    ready
        .max_by_key(|&i| board.record(i)[1])
        .expect("Init is ready")
}

/// Order 1's "number of threads already in that line", read off the bytes.
fn already_waiting(board: &Board, kind: u8, object: u8) -> u32 {
    let waits = |i: &usize| board.record(*i)[3..5] == [kind, object];
    (0..16).filter(waits).count() as u32
}

/// Order 7's least number of ticks after which a timed wait ends, read off the bytes.
fn left_of_the_nearest(board: &Board) -> u32 {
    let waits = (0..16).filter(|&i| board.record(i)[3] != 0);
    let left = waits.map(|i| word(board.record(i), 12));
    left.filter(|&left| left > 0).min().unwrap_or(0)
}

/// One step and what holds after it.
fn step(board: &mut Board, record: &[u8; 12], pairs: &mut Pairs) {
    let before = board.clone();
    let (code, value) = board.ask(record);
    let results = format!("got {code} {value}, running {}", board.running());
    let case = || case(&before.table, record, &board.table, &results);
    let running = match board.lock() {
        0 => first_of_the_highest(board),
        _ => before.running(),
    };
    assert_eq!(
        board.running(),
        running,
        "the running thread is the rule's\n{}",
        case()
    );
    let named = match (record[0], code) {
        (8, 1) => already_waiting(&before, wait::SEND, record[1]),
        (13, 1) => already_waiting(&before, wait::SEMAPHORE, record[1]),
        (10 | 13 | 20, 0) => value,
        (22, 0) => left_of_the_nearest(&before),
        _ => 0,
    };
    assert_eq!(value, named, "the value is 0 unless named\n{}", case());
    check_changes(&before, board, record, code, &case);
    if record[0] <= 24 {
        pairs.insert((record[0], code));
    } else {
        assert_eq!(code, -8, "{}", case());
    }
}

/// What an accepted step may change, seen from outside: which records are taken or freed, the
/// lock, and settings.
fn check_changes(
    before: &Board,
    after: &Board,
    record: &[u8; 12],
    code: i32,
    case: &dyn Fn() -> String,
) {
    let accepted = code >= 0;
    let (operation, object) = (record[0], usize::from(record[1]));
    for index in 0..24 {
        let (was, is) = (!before.is_free(index), !after.is_free(index));
        let named = accepted
            && match operation {
                1 | 2 => index == object,
                11 | 12 => index == 16 + object,
                _ => false,
            };
        assert_eq!(
            was != is,
            named,
            "record {index} taken or freed\n{}",
            case()
        );
    }
    let lock = i32::from(after.lock()) - i32::from(before.lock());
    let want = match operation {
        17 if accepted => 1,
        18 if accepted => -1,
        _ => 0,
    };
    assert_eq!(lock, want, "the lock count\n{}", case());
    for i in (0..16).filter(|&i| !before.is_free(i) && !after.is_free(i)) {
        let named = accepted && i == object;
        let settings = |board: &Board| (board.seen(i).priority, board.seen(i).turn);
        let (priority, turn) = settings(before);
        let wanted = match operation {
            23 if named => (record[2], turn),
            24 if named => (priority, word(record, 4)),
            _ => (priority, turn),
        };
        assert_eq!(settings(after), wanted, "settings of {i}\n{}", case());
        let suspended = match operation {
            4 if named => true,
            5 if named => false,
            _ => before.seen(i).suspended,
        };
        assert_eq!(
            after.seen(i).suspended,
            suspended,
            "suspended {i}\n{}",
            case()
        );
    }
}

/// A run of random records. At times the lock is let go, so that it does not stay on.
fn run(rng: &mut Rng, board: &mut Board, steps: usize, pairs: &mut Pairs) {
    for _ in 0..steps {
        let record = match board.table[at::LOCK] {
            0 => random_record(rng, &board.table),
            _ if rng.one_in(4) => unlock(),
            _ => random_record(rng, &board.table),
        };
        step(board, &record, pairs);
    }
}

#[test]
fn runs_from_fresh() {
    let mut pairs = Pairs::new();
    for seed in 0..400 {
        run(&mut Rng::new(seed), &mut Board::fresh(), 1_000, &mut pairs);
    }
    let mut want = wanted();
    // From fresh, runs of this length do not reach the deepest lock.
    want.remove(&(17, -5));
    pairs.remove(&(17, -5));
    assert_eq!(pairs, want);
}

#[test]
fn runs_from_random_sound_tables() {
    let mut pairs = Pairs::new();
    for seed in 0..40_000 {
        let mut rng = Rng::new(1_000_000 + seed);
        let table = random_sound(&mut rng);
        run(&mut rng, &mut Board { table }, 10, &mut pairs);
    }
    assert_eq!(pairs, wanted());
}

/// Every operation is asked about equally often, and few records are malformed.
#[test]
fn random_records_are_well_mixed() {
    let mut rng = Rng::new(3);
    let (mut asked, mut refused, mut malformed) = ([0; 256], 0, 0);
    for _ in 0..50_000 {
        let mut board = Board {
            table: random_sound(&mut rng),
        };
        let record = random_record(&mut rng, &board.table);
        let (code, _) = board.ask(&record);
        asked[usize::from(record[0])] += 1;
        refused += u32::from(code < 0);
        malformed += u32::from(code == -8);
    }
    for operation in operation::EACH {
        let times = asked[usize::from(operation)];
        assert!(times > 1_500, "operation {operation}: {times} times");
    }
    assert!((500..3_000).contains(&malformed), "{malformed} malformed");
    assert!((10_000..30_000).contains(&refused), "{refused} refused");
}
