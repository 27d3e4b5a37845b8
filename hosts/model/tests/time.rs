//! Lock, Unlock, Tick and Outcome.

mod common;

use common::*;

#[test]
fn lock_and_unlock_count() {
    let before = busy();
    let mut board = before.clone();
    for count in 1..=255 {
        board.done(lock());
        assert_eq!(board.lock(), count);
    }
    board.only_changed(&before, &[24]);
    for count in (0..255).rev() {
        board.done(unlock());
        assert_eq!(board.lock(), count);
    }
    assert!(board.table == before.table);
}

/// "first, with lock 0, the running thread is charged: counter less 1 and, if that gives 0, tail
/// of its line with a full counter"
#[test]
fn a_tick_charges_the_running_thread_only() {
    let mut board = Board::fresh();
    board.done(create(1, 5, 2));
    board.done(create(2, 5, 3));
    let runs = [1, 1, 2, 2, 2, 1, 1, 2, 2, 2, 1];
    for (step, running) in runs.into_iter().enumerate() {
        assert_eq!(board.running(), running, "after {step} ticks");
        let before = board.clone();
        board.ticks(1);
        let used_up = before.seen(running).counter == 1;
        let counter = match used_up {
            true => before.seen(running).turn,
            false => before.seen(running).counter - 1,
        };
        assert_eq!(board.seen(running).counter, counter);
        assert_eq!(board.seen(running).place, if used_up { 2 } else { 1 });
        let other = 3 - running;
        assert_eq!(board.seen(other).counter, before.seen(other).counter);
        assert_eq!(board.seen(0), before.seen(0));
    }
}

#[test]
fn a_thread_alone_in_its_line_takes_turn_after_turn() {
    let mut board = Board::fresh();
    board.ticks(9);
    assert_eq!((board.running(), board.seen(0).counter), (0, 1));
    board.ticks(1);
    assert_eq!((board.running(), board.seen(0).counter), (0, 10));
    board.done(create(1, 5, 1));
    board.ticks(4);
    assert_eq!((board.running(), board.seen(1).counter), (1, 1));
    assert_eq!(board.seen(0).counter, 10);
}

/// Under lock only the charge stops; waits count down and may end.
#[test]
fn a_tick_under_lock_charges_nobody() {
    let mut board = busy_locked();
    let before = board.clone();
    board.ticks(49);
    board.only_changed(&before, &[4]);
    assert_eq!(board.seen(4).counter, 1);
    board.ticks(1);
    board.only_changed(&before, &[4, 24]);
    assert_eq!(board.ready_word(), before.ready_word() | 1 << 20);
    let kernel = (board.running(), board.lock());
    assert_eq!((kernel, board.seen(4).place), ((1, 1), 1));
    board.expect(outcome_of(4), (0, 0));
    board.done(unlock());
    assert_eq!(board.running(), 4);
}

/// "by thread number, each wait with counter above 0 counts down, and at 0 ends: a delay with 0,
/// others with −5"
#[test]
fn waits_that_end_at_one_tick_end_by_thread_number() {
    let mut board = Board::fresh();
    board.done(make(0, 0));
    board.done(create(8, 1, 3));
    board.done(interrupt_send(8, 1));
    let calls = [
        (9, delay(2), 0),
        (3, receive(2), 0),
        (6, send(8, 2, 66), 0),
        (4, pend(0, 2), 0),
        (7, pend(0, 2), 1),
        (5, pend(0, 3), 2),
    ];
    for (i, call, ahead) in calls {
        board.done(create(i, 7, 9));
        board.behind(call, ahead);
    }
    board.done(suspend(7));
    board.ticks(2);
    assert_eq!(board.places([3, 4, 6, 9]), [1, 2, 3, 4]);
    assert_eq!((board.running(), board.seen(7).place), (3, 0));
    for i in [3, 4, 6, 7] {
        board.expect(outcome_of(i), (-5, 0));
    }
    board.expect(outcome_of(9), (0, 0));
    board.expect(outcome_of(5), (1, 0));
    assert_eq!((board.seen(5).counter, board.seen(5).place), (1, 1));
    assert_eq!(board.seen(3).counter, 9);
}

/// The charge comes first: a thread that wakes in the rank of one whose turn is used up stands
/// behind it.
#[test]
fn a_thread_that_wakes_stands_behind_the_rotated_one() {
    let mut board = Board::fresh();
    board.done(create(1, 5, 2));
    board.blocked(delay(2));
    board.done(create(2, 5, 2));
    board.ticks(2);
    assert_eq!((board.running(), board.places([2, 1])), (2, [1, 2]));
    assert_eq!((board.seen(2).counter, board.seen(1).counter), (2, 2));
}

/// The tick that wakes an outranking thread is charged to the one that was running.
#[test]
fn the_tick_is_charged_before_a_thread_wakes() {
    let mut board = Board::fresh();
    board.done(create(1, 9, 2));
    board.blocked(delay(1));
    board.done(create(2, 5, 2));
    board.ticks(1);
    assert_eq!(board.running(), 1);
    assert_eq!((board.seen(2).counter, board.seen(1).counter), (1, 2));
}

/// "Outcome: code is the outcome, value the parcel if that is 0, else 0"
#[test]
fn outcome_gives_the_parcel_only_when_done() {
    let mut board = busy();
    let before = board.clone();
    board.expect(outcome_of(6), (1, 0));
    assert_eq!(board.seen(6).parcel, 66);
    board.expect(outcome_of(0), (1, 0));
    assert!(board.table == before.table);
    board.done(send(5, 0, u32::MAX));
    let before = board.clone();
    board.expect(outcome_of(5), (0, u32::MAX));
    board.expect(outcome_of(5), (0, u32::MAX));
    assert!(board.table == before.table);
    board.done(cancel(4));
    board.expect(outcome_of(4), (-5, 0));
}
