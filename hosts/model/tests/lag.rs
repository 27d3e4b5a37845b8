//! The lags of a report: order 5's sentences on cases whose figures are worked out by hand. A figure is
//! written as the order has it: charged ticks × sum of the rank's turns − own turn × all ticks
//! charged to the rank's ready threads.

mod common;

use common::case::Case;
use common::*;
use model::code;

/// Its rank has no turn and no charge but its own: n × 10 − 10 × n = 0.
#[test]
fn init_alone_has_lag_0() {
    for charged in 0..=25 {
        let line = format!("0 {charged} 0");
        Case::fresh().ticks(charged).gives(&[&line]);
    }
}

/// The turns are 6 and 6, which is 12 in all.
#[test]
fn two_lanes_of_equal_turns() {
    let lanes = Case::lanes(&[6, 6]);
    let after = |ticks| lanes.clone().ticks(ticks);
    after(0).gives(&["0 0 0", "1 0 0", "2 0 0"]);
    // 3 × 12 − 6 × 3 = 18, and 0 × 12 − 6 × 3 = −18
    after(3).gives(&["0 0 0", "1 3 18", "2 0 -18"]);
    // half a round: 6 × 12 − 6 × 6 = 36, and 0 × 12 − 6 × 6 = −36
    after(6).gives(&["0 0 0", "1 6 36", "2 0 -36"]);
    // 6 × 12 − 6 × 9 = 18, and 3 × 12 − 6 × 9 = −18
    after(9).gives(&["0 0 0", "1 6 18", "2 3 -18"]);
    // a round: 6 × 12 − 6 × 12 = 0 for each
    after(12).gives(&["0 0 0", "1 6 0", "2 6 0"]);
    // three rounds: 18 × 12 − 6 × 36 = 0 for each
    after(36).gives(&["0 0 0", "1 18 0", "2 18 0"]);
    // and half a round more: 24 × 12 − 6 × 42 = 36, and 18 × 12 − 6 × 42 = −36
    after(42).gives(&["0 0 0", "1 24 36", "2 18 -36"]);
}

/// The turns are 2 and 3, which is 5 in all.
#[test]
fn two_lanes_of_unequal_turns() {
    let lanes = Case::lanes(&[2, 3]);
    let after = |ticks| lanes.clone().ticks(ticks);
    // 1 × 5 − 2 × 1 = 3, and 0 × 5 − 3 × 1 = −3
    after(1).gives(&["0 0 0", "1 1 3", "2 0 -3"]);
    // 2 × 5 − 2 × 2 = 6, and 0 × 5 − 3 × 2 = −6
    after(2).gives(&["0 0 0", "1 2 6", "2 0 -6"]);
    // 2 × 5 − 2 × 3 = 4, and 1 × 5 − 3 × 3 = −4
    after(3).gives(&["0 0 0", "1 2 4", "2 1 -4"]);
    // 2 × 5 − 2 × 4 = 2, and 2 × 5 − 3 × 4 = −2
    after(4).gives(&["0 0 0", "1 2 2", "2 2 -2"]);
    // 2 × 5 − 2 × 5 = 0, and 3 × 5 − 3 × 5 = 0
    after(5).gives(&["0 0 0", "1 2 0", "2 3 0"]);
    // seven rounds: 14 × 5 − 2 × 35 = 0, and 21 × 5 − 3 × 35 = 0
    after(35).gives(&["0 0 0", "1 14 0", "2 21 0"]);
}

/// The turns are 1, 2 and 3, which is 6 in all. Of 4 ticks the third lane has 1:
/// 1 × 6 − 1 × 4 = 2, 2 × 6 − 2 × 4 = 4, and 1 × 6 − 3 × 4 = −6.
#[test]
fn three_lanes() {
    let lanes = Case::lanes(&[1, 2, 3]);
    lanes.ticks(4).gives(&["0 0 0", "1 1 2", "2 2 4", "3 1 -6"]);
}

/// Thread 1 joins Init's rank with turn 5, and Init has 10: 15 in all. Init is charged 10 ticks and
/// thread 1 then 2: 10 × 15 − 10 × 12 = 30, and 2 × 15 − 5 × 12 = −30.
#[test]
fn init_shares_its_rank() {
    let case = Case::fresh().done(create(1, 0, 5));
    case.ticks(12).gives(&["0 10 30", "1 2 -30"]);
}

/// Init has been charged 4 ticks before thread 1 comes into its rank, and they count:
/// 4 × 15 − 10 × 4 = 20, and 0 × 15 − 5 × 4 = −20.
#[test]
fn charges_from_before_another_was_created_count() {
    let case = Case::fresh().ticks(4).done(create(1, 0, 5));
    case.gives(&["0 4 20", "1 0 -20"]);
}

/// The cutter breaks into lane 1's turn of 6 for 5 ticks. These are its own: 5 × 4 − 4 × 5 = 0, and
/// the lanes have what they had after 3 ticks. Each rank is worked out by itself.
#[test]
fn another_ranks_charges_do_not_count() {
    let case = Case::lanes(&[6, 6]).ticks(3).done(create(3, 9, 4)).ticks(5);
    let case = case.gives(&["0 0 0", "1 3 18", "2 0 -18", "3 5 0"]);
    // a second cutter of turn 1: 5 × 5 − 4 × 5 = 5, and 0 × 5 − 1 × 5 = −5
    let case = case.done(create(4, 9, 1));
    case.gives(&["0 0 0", "1 3 18", "2 0 -18", "3 5 5", "4 0 -5"]);
}

/// All 16 threads stand in rank 0, and Init has had 3 ticks. The turns are 10 and 15 times 99,999,
/// which is 1,499,995 in all: 3 × 1,499,995 − 10 × 3 = 4,499,955, and 0 − 99,999 × 3 = −299,997.
#[test]
fn all_threads_in_one_rank() {
    let case = |case: Case, i| case.done(create(i, 0, 99_999));
    let case = (1..16).fold(Case::fresh().ticks(3), case);
    let others = (1..16).map(|i| format!("{i} 0 -299997"));
    let lines: Vec<String> = [String::from("0 3 4499955")]
        .into_iter()
        .chain(others)
        .collect();
    case.gives(&lines.iter().map(String::as_str).collect::<Vec<_>>());
}

/// The turns are 3, 2 and 4. Of 4 ticks lane 1 has 3 and lane 2 has 1. Then lane 2, which runs, is no
/// longer ready, in each way that there is: its lag is 0, and its turn and its tick don't count in
/// its rank. 3 × 7 − 3 × 3 = 12, and 0 × 7 − 4 × 3 = −12.
#[test]
fn a_thread_not_ready_keeps_its_charges_and_has_lag_0() {
    let full = Case::fresh().done(make(0, 0)).done(interrupt_send(0, 7));
    let lane = |case: Case, (turn, i)| case.done(create(i, 5, turn));
    let lanes = [(3, 1), (2, 2), (4, 3)].into_iter().fold(full, lane);
    let lanes = lanes.ticks(4);
    assert_eq!(lanes.board.running(), 2);
    for (leaves, code) in [
        (delay(9), 1),
        (receive(100_000), 1),
        (send(0, 9, 8), 1),
        (pend(0, 100_000), 1),
        (suspend(2), 0),
    ] {
        let case = lanes.clone().put(leaves, code);
        let case = case.gives(&["0 0 0", "1 3 12", "2 1 0", "3 0 -12"]);
        if code == 1 {
            let case = case.done(suspend(2));
            case.gives(&["0 0 0", "1 3 12", "2 1 0", "3 0 -12"]);
        }
    }
}

/// Lane 1 goes to priority 4 and takes its 2 ticks along: 2 × 5 − 2 × 2 = 6, and of thread 3
/// 0 × 5 − 3 × 2 = −6. Lane 2 is alone: 1 × 2 − 2 × 1 = 0. With turn 5 lane 1 has
/// 2 × 8 − 5 × 2 = 6, and thread 3 0 × 8 − 3 × 2 = −6.
#[test]
fn a_change_of_priority_keeps_the_charges_and_moves_them_to_the_new_rank() {
    // before it: 2 × 4 − 2 × 3 = 2, and 1 × 4 − 2 × 3 = −2
    let case = Case::lanes_and_a_lower_one().gives(&["0 0 0", "1 2 2", "2 1 -2", "3 0 0"]);
    let case = case.done(set_priority(1, 4));
    let case = case.gives(&["0 0 0", "1 2 6", "2 1 0", "3 0 -6"]);
    let case = case.done(set_turn(1, 5));
    case.gives(&["0 0 0", "1 2 6", "2 1 0", "3 0 -6"]);
}

/// Lane 1 stays with turn 7: 2 × 9 − 7 × 3 = −3, and of lane 2 1 × 9 − 2 × 3 = 3.
#[test]
fn the_turn_is_the_one_at_the_end() {
    let case = Case::lanes_and_a_lower_one().done(set_turn(1, 7));
    case.gives(&["0 0 0", "1 2 -3", "2 1 3", "3 0 0"]);
}

/// Lane 1 is suspended and then gets priority 4 and turn 5: it stays out of every rank until it is
/// resumed, and stands in the new one then.
#[test]
fn a_suspended_thread_is_set() {
    let case = Case::lanes_and_a_lower_one()
        .done(suspend(1))
        .done(set_priority(1, 4))
        .done(set_turn(1, 5));
    let case = case.gives(&["0 0 0", "1 2 0", "2 1 0", "3 0 0"]);
    let case = case.done(resume(1));
    case.gives(&["0 0 0", "1 2 6", "2 1 0", "3 0 -6"]);
}

/// A change that is refused moves nothing: the figures are those before it.
#[test]
fn a_refused_change_of_settings_changes_nothing() {
    let case = Case::lanes_and_a_lower_one();
    let case = case.put(set_priority(1, 32), code::PRIORITY);
    let case = case.put(set_turn(1, 0), code::TURN);
    let case = case.put(set_priority(0, 5), code::OPERATION);
    let case = case.put(set_turn(0, 5), code::OPERATION);
    let case = case.put(former_set(1, 4, 5), code::MALFORMED);
    case.gives(&["0 0 0", "1 2 2", "2 1 -2", "3 0 0"]);
}
