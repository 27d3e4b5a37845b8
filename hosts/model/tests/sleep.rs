//! Order 7: Ticks and Nearest, operations 21 and 22. "The battery printer stops its timer between
//! tickets."

mod common;

use common::*;
use model::{random_sound, Rng};

/// The board after so many single ticks.
fn after_single(board: &Board, number: u32) -> Board {
    let mut single = board.clone();
    single.ticks(number as usize);
    single
}

/// Operation 21 by this number is done, with value 0, and leaves the table of as many single ticks.
fn equals_single(board: &Board, number: u32) {
    let (at_once, single) = (board.after(ticks(number)), after_single(board, number));
    let results = format!("{number} ticks at once, and single ones before");
    let case = || case(&single.table, &ticks(number), &at_once.table, &results);
    assert!(at_once.table == single.table, "{}", case());
}

/// The threads that are in a timed wait.
fn timed(board: &Board) -> Vec<usize> {
    let used = (0..16).filter(|&i| !board.is_free(i));
    let timed = used.filter(|&i| board.seen(i).wait.0 != 0 && board.seen(i).counter > 0);
    timed.collect()
}

/// Operation 22 gives this number and changes nothing. After one tick less every timed wait goes
/// on, and after as many one has ended; 0 stands for no timed wait.
fn nearest_is(board: &Board, number: u32) {
    let mut after = board.clone();
    after.expect(nearest(), (0, number));
    assert!(after.table == board.table, "22 changes no byte");
    let before = timed(board);
    if number == 0 {
        assert_eq!(before, []);
        return;
    }
    let almost = after_single(board, number - 1);
    assert_eq!(timed(&almost), before, "in {} ticks", number - 1);
    let then = timed(&after_single(&almost, 1));
    assert!(then.len() < before.len(), "in {number} ticks");
}

/// Threads 1, 2 and so on, of priority 5, with these turns.
fn lanes(turns: &[u32]) -> Board {
    let lane = |board: Board, (&turn, i): (&u32, u8)| board.after(create(i, 5, turn));
    turns.iter().zip(1..).fold(Board::fresh(), lane)
}

#[test]
fn a_delay_of_3_ends_after_2_ticks_and_1() {
    let mut board = Board::fresh().after(create(1, 5, 4));
    board.blocked(delay(3));
    nearest_is(&board, 3);
    board.done(ticks(2));
    assert_eq!((board.running(), board.seen(1).counter), (0, 1));
    nearest_is(&board, 1);
    board.done(ticks(1));
    assert_eq!((board.running(), board.seen(1).counter), (1, 4));
    board.expect(outcome_of(1), (0, 0));
    nearest_is(&board, 0);
}

/// The turns are 2 and 3: 5 ticks are a round, after which all is as before; 7 end in the turn of
/// the second, and 99,999 are 19,999 rounds and 4.
#[test]
fn two_lanes_with_turns_2_and_3() {
    let board = lanes(&[2, 3]);
    assert!(board.after(ticks(5)).table == board.table);
    assert!(board.after(ticks(99_995)).table == board.table);
    assert_eq!(board.after(ticks(7)).running(), 2);
    let after = board.after(ticks(99_999));
    assert!(after.table == board.after(ticks(4)).table);
    assert_eq!((after.running(), after.seen(2).counter), (2, 1));
    for number in [1, 2, 3, 4, 5, 6, 7, 99_999] {
        equals_single(&board, number);
    }
}

/// Nobody is charged under lock; waits count down, and one that ends leaves the running thread.
#[test]
fn ticks_under_lock_only_count_waits_down() {
    let before = busy_locked();
    nearest_is(&before, 50);
    let board = before.after(ticks(49));
    board.only_changed(&before, &[4]);
    assert_eq!(board.seen(4).counter, 1);
    let board = before.after(ticks(99_999));
    board.only_changed(&before, &[4, 24]);
    assert_eq!((board.running(), board.lock()), (1, 1));
    assert_eq!((board.seen(4).wait, board.seen(4).counter), ((0, 0), 7));
    for number in [1, 49, 50, 51, 400] {
        equals_single(&before, number);
    }
    let init = Board::fresh().after(lock());
    assert!(init.after(ticks(99_999)).table == init.table);
}

#[test]
fn nearest_with_nobody_and_with_a_wait_forever_is_0() {
    nearest_is(&Board::fresh(), 0);
    nearest_is(&lanes(&[2, 3]), 0);
    nearest_is(&waiters(15, &[1, 7]), 0);
    let mut board = lanes(&[2]);
    board.blocked(receive(100_000));
    nearest_is(&board, 0);
    nearest_is(&board.after(lock()), 0);
}

/// A wait goes on while its thread is suspended, and counts; it ends and the thread does not run.
#[test]
fn nearest_counts_a_suspended_delay() {
    let mut board = lanes(&[2]);
    board.blocked(delay(7));
    board.done(create(2, 6, 2));
    board.blocked(receive(9));
    nearest_is(&board, 7);
    board.done(suspend(1));
    nearest_is(&board, 7);
    board.done(ticks(7));
    assert_eq!((board.running(), board.seen(1).suspended), (0, true));
    board.expect(outcome_of(1), (0, 0));
    nearest_is(&board, 2);
    nearest_is(&board.after(lock()), 2);
}

/// Every kind of wait is timed, and the least counter is the nearest whoever has it.
#[test]
fn nearest_is_the_least_of_all_kinds_of_waits() {
    for least in 0..4 {
        let left = |kind: u32| if kind == least { 3 } else { 40 + kind };
        let mut board = Board::fresh().after(make(0, 0));
        board.done(interrupt_send(0, 5));
        let calls = [delay(left(0)), receive(left(1)), send(0, left(2), 1)];
        for (call, i) in calls.into_iter().chain([pend(0, left(3))]).zip(1..) {
            board.done(create(i, 9, 4));
            board.blocked(call);
        }
        nearest_is(&board, 3);
        equals_single(&board, 50);
    }
}

/// The cutter outranks both lanes and wakes in the third of the ticks: the first two are charged to
/// lanes, so is the third, and the others to the cutter, which is alone in its rank.
#[test]
fn ticks_across_the_end_of_a_higher_threads_wait() {
    let mut board = Board::fresh().after(create(9, 7, 4));
    board.blocked(delay(3));
    for record in [create(1, 5, 2), create(2, 5, 3)] {
        board.done(record);
    }
    let after = board.after(ticks(5));
    assert_eq!((after.running(), after.seen(9).counter), (9, 2));
    assert_eq!((after.seen(1).counter, after.seen(2).counter), (2, 2));
    for number in 1..=20 {
        equals_single(&board, number);
    }
}

/// 15 waits end one after the other, each in the rank of those before it.
#[test]
fn many_waits_end_inside() {
    let mut board = Board::fresh();
    for i in 1..16 {
        board.done(create(i, 9, u32::from(i % 4) + 1));
        board.blocked(delay(u32::from(i) * 11));
    }
    nearest_is(&board, 11);
    for number in [10, 11, 12, 33, 165, 166, 400, 99_999] {
        equals_single(&board, number);
    }
}

#[test]
fn the_longest_and_the_shortest_turn() {
    let board = lanes(&[99_999, 1]);
    for number in [99_998, 99_999] {
        equals_single(&board, number);
    }
    let after = board.after(ticks(99_999));
    assert_eq!((after.running(), after.seen(1).place), (2, 2));
    assert!(after.after(ticks(1)).table == board.table);
}

/// "table and answer equal those of that many single ones"
#[test]
fn ticks_at_once_equal_single_ones_on_random_tables() {
    let mut rng = Rng::new(70);
    for _ in 0..3_000 {
        let table = random_sound(&mut rng);
        let few = rng.between(1, 400);
        equals_single(&Board { table }, rng.pick(&[1, 2, few, few]));
    }
}

/// "the least number of ticks after which, if only ticks come, some timed wait ends": the wait's own
/// time where it is short.
#[test]
fn nearest_is_the_time_of_the_next_end_on_random_tables() {
    let mut rng = Rng::new(71);
    let (mut none, mut some) = (0, 0);
    while none < 200 || some < 1_000 {
        let board = Board {
            table: random_sound(&mut rng),
        };
        let (_, value) = board.clone().ask(&nearest());
        none += usize::from(value == 0);
        some += usize::from((1..=400).contains(&value));
        if value <= 400 {
            nearest_is(&board, value);
        }
    }
}
