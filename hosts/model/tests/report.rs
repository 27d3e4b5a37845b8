//! The report program: which threads have a line, and which ticks are charged to whom. The figures are
//! worked out by hand; those of a lag are written as order 5 has it: charged ticks × sum of the
//! rank's turns − own turn × all ticks charged to the rank's ready threads.

mod common;

use common::case::Case;
use common::*;
use model::{code, operation as op, record};

#[test]
fn empty_input_gives_inits_line() {
    Case::fresh().gives(&["0 0 0"]);
}

#[test]
fn left_over_bytes_are_not_served_and_not_printed() {
    for rest in 0..12 {
        let mut case = Case::fresh().ticks(2);
        case.trace.extend(&tick()[..rest]);
        case.gives(&["0 2 0"]);
        let trace = vec![255; rest];
        let board = Board::fresh();
        Case { board, trace }.gives(&["0 0 0"]);
    }
}

/// The turn of 1 is used up by the tick and the other lane runs after it: 1 × 2 − 1 × 1 = 1, and
/// 0 × 2 − 1 × 1 = −1.
#[test]
fn a_tick_is_charged_to_the_thread_that_was_running_before_it() {
    let case = Case::lanes(&[1, 1]).ticks(1);
    assert_eq!(case.board.running(), 2);
    case.gives(&["0 0 0", "1 1 1", "2 0 -1"]);
    // the tick ends the delay of a thread that outranks Init, and is Init's
    let case = Case::fresh().done(create(1, 5, 3)).put(delay(1), 1);
    let case = case.ticks(1);
    assert_eq!(case.board.running(), 1);
    case.gives(&["0 1 0", "1 0 0"]);
}

/// Of 8 ticks the 5 under lock are nobody's. The turns are 6 and 6: 3 × 12 − 6 × 3 = 18, and
/// 0 × 12 − 6 × 3 = −18.
#[test]
fn a_tick_under_lock_is_charged_to_nobody() {
    let case = Case::lanes(&[6, 6]).ticks(1);
    let case = case.done(lock()).ticks(2).done(lock()).ticks(2);
    let case = case.gives(&["0 0 0", "1 1 6", "2 0 -6"]);
    // one Unlock of two leaves the lock on
    let case = case.done(unlock()).ticks(1);
    let case = case.gives(&["0 0 0", "1 1 6", "2 0 -6"]);
    let case = case.done(unlock()).ticks(2);
    case.gives(&["0 0 0", "1 3 18", "2 0 -18"]);
}

/// Order 7: "Demand 3 counts an accepted operation 21 as its single ticks". The turns are 2 and 3: of
/// 4 ticks at once 2 × 5 − 2 × 4 = 2, and 2 × 5 − 3 × 4 = −2; those under lock are nobody's.
#[test]
fn ticks_at_once_are_charged_one_by_one() {
    let case = Case::lanes(&[2, 3]).done(ticks(4));
    let case = case.gives(&["0 0 0", "1 2 2", "2 2 -2"]);
    let case = case.done(lock()).done(ticks(99_999)).done(unlock());
    let case = case.gives(&["0 0 0", "1 2 2", "2 2 -2"]);
    let case = case.done(ticks(1)).gives(&["0 0 0", "1 2 0", "2 3 0"]);
    // 19,999 rounds and 4 ticks more
    let case = case.done(ticks(99_999));
    case.gives(&["0 0 0", "1 40002 2", "2 60002 -2"]);
    // the ticks to the end of a delay are Init's, and the others the thread's that wakes
    let case = Case::fresh().done(create(1, 5, 3)).put(delay(4), 1);
    case.done(ticks(10)).gives(&["0 4 0", "1 6 0"]);
}

#[test]
fn refused_ticks_at_once_are_charged_to_nobody() {
    let mut case = Case::lanes(&[6, 6]).done(ticks(3));
    for number in [0, 100_000, u32::MAX] {
        case = case.put(ticks(number), code::TURN);
    }
    case = case.put(record(op::TICKS, 1, 0, 3, 0), code::MALFORMED);
    case.gives(&["0 0 0", "1 3 18", "2 0 -18"]);
}

#[test]
fn a_refused_tick_is_charged_to_nobody() {
    let mut case = Case::lanes(&[6, 6]).ticks(3);
    for byte in 1..12 {
        let mut bent = tick();
        bent[byte] = 1;
        case = case.put(bent, code::MALFORMED);
    }
    case = case.put(record(op::LAST + 1, 0, 0, 0, 0), code::MALFORMED);
    case.gives(&["0 0 0", "1 3 18", "2 0 -18"]);
}

/// The turns are 3 and 2. Of 4 ticks lane 2 has 1; it is suspended and resumed, or waits and comes
/// back, and its tick counts on: 3 × 5 − 3 × 4 = 3, and 1 × 5 − 2 × 4 = −3.
#[test]
fn charges_survive_a_suspension_and_a_wait() {
    let lanes = Case::lanes(&[3, 2]).ticks(4);
    let case = lanes.clone().done(suspend(2)).done(resume(2));
    case.gives(&["0 0 0", "1 3 3", "2 1 -3"]);
    let case = lanes.put(delay(9), 1).done(cancel(2));
    case.gives(&["0 0 0", "1 3 3", "2 1 -3"]);
}

#[test]
fn a_deleted_thread_has_no_line_and_does_not_count_in_its_rank() {
    // lane 1 has 2 of 3 ticks and goes; of lane 2 alone 1 × 2 − 2 × 1 = 0
    let case = Case::lanes_and_a_lower_one().done(delete(1));
    let case = case.gives(&["0 0 0", "2 1 0", "3 0 0"]);
    let case = case.done(delete(2)).gives(&["0 0 0", "3 0 0"]);
    case.done(delete(3)).gives(&["0 0 0"]);
}

/// Lane 1 had 2 ticks in its first life. In its second, of turn 2, it has none at first:
/// 0 × 4 − 2 × 1 = −2, and of lane 2 1 × 4 − 2 × 1 = 2.
#[test]
fn a_thread_created_again_begins_anew() {
    let case = Case::lanes_and_a_lower_one()
        .done(delete(1))
        .done(create(1, 5, 2));
    let case = case.gives(&["0 0 0", "1 0 -2", "2 1 2", "3 0 0"]);
    // lane 2 uses up its turn and lane 1 runs: 1 × 4 − 2 × 3 = −2, and 2 × 4 − 2 × 3 = 2
    let case = case.ticks(2).gives(&["0 0 0", "1 1 -2", "2 2 2", "3 0 0"]);
    // a third life, in which it has 3 ticks of another rank: 3 × 9 − 9 × 3 = 0
    let case = case.done(delete(1)).done(create(1, 9, 9)).ticks(3);
    case.gives(&["0 0 0", "1 3 0", "2 2 0", "3 0 0"]);
}

#[test]
fn a_refused_create_begins_no_life() {
    let case = Case::lanes_and_a_lower_one();
    let case = case.put(create(1, 5, 2), code::THREAD);
    let case = case.put(create(1, 32, 2), code::PRIORITY);
    let case = case.put(create(2, 5, 0), code::TURN);
    let case = case.put(create(0, 5, 2), code::THREAD);
    let case = case.put(create(255, 5, 2), code::THREAD);
    case.gives(&["0 0 0", "1 2 2", "2 1 -2", "3 0 0"]);
}
