//! Lines and the running thread: entering at the tail, closing gaps, being outranked, the lock.

mod common;

use common::*;

/// Threads 1, 2 and 3 of priority 5 with turns 3, 4 and 5, in this order; 1 runs.
fn three() -> Board {
    let mut board = Board::fresh();
    board.done(create(1, 5, 3));
    board.done(create(2, 5, 4));
    board.done(create(3, 5, 5));
    assert_eq!((board.running(), board.places([1, 2, 3])), (1, [1, 2, 3]));
    board
}

#[test]
fn entering_the_ready_line_is_at_the_tail_with_a_full_counter() {
    let mut board = three();
    board.ticks(2);
    board.done(suspend(1));
    assert_eq!((board.seen(1).counter, board.seen(1).place), (0, 0));
    board.done(resume(1));
    assert_eq!(
        (board.seen(1).counter, board.places([2, 3, 1])),
        (3, [1, 2, 3])
    );
}

#[test]
fn leaving_a_ready_line_closes_the_gap() {
    for gone in [1, 2, 3] {
        let left = [1, 2, 3].into_iter().filter(|&i| i != gone);
        let left: Vec<u8> = left.collect();
        for leave in [
            suspend(gone),
            delete(gone),
            set_priority(gone, 6),
            set_priority(gone, 4),
        ] {
            let board = three().after(leave);
            let places = left.iter().map(|&i| board.seen(usize::from(i)).place);
            assert_eq!(places.collect::<Vec<u8>>(), [1, 2], "without {gone}");
        }
    }
}

/// Four waiters 2, 3, 4, 5 on semaphore 0, in this order; Init runs.
fn four_waiters() -> Board {
    let mut board = Board::fresh();
    board.done(make(0, 0));
    for (ahead, number) in (0u8..).zip([2, 100_000, 1, 9]) {
        board.done(create(2 + ahead, 5, 3));
        board.behind(pend(0, number), ahead.into());
    }
    assert_eq!(board.places([2, 3, 4, 5]), [1, 2, 3, 4]);
    board
}

#[test]
fn leaving_a_semaphore_line_closes_the_gap() {
    let by_abort = four_waiters().after(abort(3));
    assert_eq!(by_abort.places([2, 4, 5]), [1, 2, 3]);
    let by_delete = four_waiters().after(delete(2));
    assert_eq!(by_delete.places([3, 4, 5]), [1, 2, 3]);
    let mut by_time = four_waiters();
    by_time.ticks(1);
    assert_eq!(by_time.places([2, 3, 5]), [1, 2, 3]);
    by_time.ticks(1);
    assert_eq!(by_time.places([3, 5]), [1, 2]);
    by_time.done(post(0, 1));
    by_time.expect(outcome_of(3), (0, 0));
    assert_eq!((by_time.seen(5).place, by_time.count(0)), (1, 0));
}

#[test]
fn a_suspended_waiter_keeps_its_place() {
    let mut board = four_waiters();
    board.done(suspend(3));
    assert_eq!(board.places([2, 3, 4, 5]), [1, 2, 3, 4]);
    board.done(resume(3));
    assert_eq!(board.places([2, 3, 4, 5]), [1, 2, 3, 4]);
    board.done(suspend(2));
    board.done(post(0, 2));
    board.expect(outcome_of(2), (0, 0));
    board.expect(outcome_of(3), (0, 0));
    assert_eq!(board.places([2, 3, 4, 5]), [0, 1, 1, 2]);
}

/// "A thread outranked by another keeps its place and counter."
#[test]
fn an_outranked_thread_keeps_its_place_and_counter() {
    let mut board = three();
    board.ticks(1);
    let before = board.clone();
    board.done(create(9, 31, 1));
    assert_eq!(board.running(), 9);
    board.ticks(7);
    board.only_changed(&before, &[9, 24]);
    board.blocked(delay(1));
    assert_eq!(board.running(), 1);
    board.ticks(1);
    assert_eq!(board.running(), 9);
    assert_eq!(
        (board.seen(1).counter, board.places([1, 2, 3])),
        (1, [1, 2, 3])
    );
    board.blocked(delay(99));
    board.ticks(1);
    assert_eq!((board.running(), board.places([2, 3, 1])), (2, [1, 2, 3]));
}

#[test]
fn an_equal_priority_does_not_outrank() {
    let board = three().after(create(4, 5, 1));
    assert_eq!((board.running(), board.seen(4).place), (1, 4));
    assert_eq!(three().after(create(4, 6, 1)).running(), 4);
    assert_eq!(three().after(create(4, 4, 1)).running(), 1);
}

/// "with lock above 0 it doesn't change"
#[test]
fn under_lock_the_running_thread_does_not_change() {
    let mut board = three().after(lock());
    board.done(create(9, 31, 1));
    board.done(set_priority(1, 1));
    board.ticks(3);
    board.done(yield_turn());
    assert_eq!((board.running(), board.seen(1).priority), (1, 1));
    board.done(unlock());
    assert_eq!(board.running(), 9);
}

/// Under lock, a running thread can stand behind others of its own line.
#[test]
fn a_running_thread_may_stand_behind_others_under_lock() {
    let mut board = three().after(lock());
    board.done(set_priority(1, 4));
    board.done(set_priority(1, 5));
    assert_eq!((board.running(), board.places([2, 3, 1])), (1, [1, 2, 3]));
    let before = board.clone();
    board.ticks(2);
    board.done(yield_turn());
    assert!(board.table == before.table);
    board.done(unlock());
    board.only_changed(&before, &[24]);
    assert_eq!(board.running(), 2);
}

#[test]
fn unlock_to_0_lets_the_outranking_thread_run_and_keeps_the_counter() {
    let mut board = three();
    board.ticks(2);
    board.done(lock());
    board.done(create(9, 6, 1));
    let before = board.clone();
    board.done(unlock());
    board.only_changed(&before, &[24]);
    assert_eq!((board.running(), board.seen(1).counter), (9, 1));
}

#[test]
fn init_runs_when_no_other_thread_is_ready_and_shares_its_line() {
    let mut board = Board::fresh();
    board.done(create(1, 0, 2));
    assert_eq!((board.running(), board.places([0, 1])), (0, [1, 2]));
    board.ticks(10);
    assert_eq!((board.running(), board.places([1, 0])), (1, [1, 2]));
    assert_eq!(board.seen(0).counter, 10);
    board.ticks(2);
    assert_eq!((board.running(), board.places([0, 1])), (0, [1, 2]));
}
