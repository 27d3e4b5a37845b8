//! The twelve proved cases of document 01: "From a fresh table, after the accepted requests that
//! a case needs for its threads and semaphores", with both sides of each boundary.

mod common;

use common::*;
use model::wait;

#[test]
fn case_1_priority_31_accepted_32_refused() {
    let mut board = Board::fresh();
    board.done(create(1, 31, 1));
    assert_eq!(board.seen(1).priority, 31);
    board.refused(create(2, 32, 1), -2);
    board.done(set_priority(1, 30));
    board.done(set_priority(1, 31));
    board.refused(set_priority(1, 32), -2);
    board.done(set_priority(1, 0));
}

#[test]
fn case_2_turn_1_and_99_999_accepted_0_and_100_000_refused() {
    let mut board = Board::fresh();
    board.refused(create(1, 5, 0), -3);
    board.done(create(1, 5, 1));
    board.done(create(2, 5, 99_999));
    board.refused(create(3, 5, 100_000), -3);
    assert_eq!((board.seen(1).turn, board.seen(2).turn), (1, 99_999));
    board.refused(set_turn(1, 0), -3);
    board.done(set_turn(1, 99_999));
    board.done(set_turn(1, 1));
    board.refused(set_turn(1, 100_000), -3);
}

#[test]
fn case_3_priority_before_turn_before_thread() {
    let mut board = Board::fresh();
    board.refused(create(0, 32, 0), -2);
    board.refused(create(0, 31, 0), -3);
    board.refused(create(0, 31, 1), -1);
    board.refused(set_priority(0, 32), -2);
    board.refused(set_priority(0, 31), -5);
    board.refused(set_turn(0, 0), -3);
    board.refused(set_turn(0, 1), -5);
}

#[test]
fn case_4_delay_1_ends_at_the_next_tick_with_0() {
    let mut board = Board::fresh();
    board.done(create(1, 5, 3));
    board.blocked(delay(1));
    board.expect(outcome_of(1), (1, 0));
    board.ticks(1);
    assert_eq!((board.running(), board.seen(1).wait), (1, (0, 0)));
    board.expect(outcome_of(1), (0, 0));

    board.blocked(delay(2));
    board.ticks(1);
    board.expect(outcome_of(1), (1, 0));
    board.ticks(1);
    board.expect(outcome_of(1), (0, 0));
}

#[test]
fn case_5_pend_for_99_999_leaves_it_for_100_000_leaves_0() {
    for (number, counter) in [
        (1, 1),
        (99_998, 99_998),
        (99_999, 99_999),
        (100_000, 0),
        (100_001, 0),
        (u32::MAX, 0),
    ] {
        let mut board = Board::fresh();
        board.done(make(0, 0));
        board.done(create(1, 5, 3));
        board.blocked(pend(0, number));
        assert_eq!(board.seen(1).counter, counter, "Pend for {number}");
        assert_eq!(board.seen(1).wait, (wait::SEMAPHORE, 0));
    }
}

#[test]
fn case_6_the_count_goes_to_99() {
    let mut board = Board::fresh();
    board.done(make(0, 0));
    board.refused(post(0, 100), -5);
    board.done(post(0, 99));
    assert_eq!(board.count(0), 99);
    board.refused(post(0, 1), -5);
    board.expect(pend(0, 0), (0, 98));
    board.refused(post(0, 2), -5);
    board.done(post(0, 1));
    assert_eq!(board.count(0), 99);
}

#[test]
fn case_7_the_first_waiter_is_served_first() {
    for (first, second) in [(3, 9), (9, 3)] {
        let mut board = Board::fresh();
        board.done(make(0, 0));
        board.done(create(1, first, 3));
        board.blocked(pend(0, 100_000));
        board.done(create(2, second, 3));
        board.behind(pend(0, 100_000), 1);
        board.done(post(0, 1));
        board.expect(outcome_of(1), (0, 0));
        board.expect(outcome_of(2), (1, 0));
        assert_eq!(board.running(), 1);
        assert_eq!(board.seen(2).place, 1);
    }
}

/// Receiver 1 has a full mailbox; threads 2 and 3 wait to send to it, 3 first.
fn two_senders() -> Board {
    let mut board = Board::fresh();
    board.done(create(1, 1, 3));
    board.done(create(2, 2, 3));
    board.done(send(1, 0, 11));
    board.done(create(3, 3, 3));
    board.blocked(send(1, 100_000, 33));
    board.behind(send(1, 7, 22), 1);
    assert_eq!((board.running(), board.places([3, 2])), (1, [1, 2]));
    board
}

#[test]
fn case_8_delete_fails_both_waiting_senders() {
    let mut board = two_senders();
    board.done(delete(1));
    board.expect(outcome_of(2), (-5, 0));
    board.expect(outcome_of(3), (-5, 0));
    assert!(board.is_free(1));
    assert_eq!(board.running(), 3);

    let mut board = two_senders();
    board.done(delete(3));
    board.expect(outcome_of(2), (1, 0));
    assert_eq!(board.seen(2).place, 1);
}

#[test]
fn case_9_post_serves_a_suspended_waiter_that_stays_suspended() {
    for suspended in [true, false] {
        let mut board = Board::fresh();
        board.done(make(0, 0));
        board.done(create(1, 5, 3));
        board.blocked(pend(0, 100_000));
        if suspended {
            board.done(suspend(1));
        }
        board.done(post(0, 1));
        board.expect(outcome_of(1), (0, 0));
        assert_eq!(board.count(0), 0);
        assert_eq!(board.seen(1).suspended, suspended);
        assert_eq!(board.seen(1).place, u8::from(!suspended));
        assert_eq!(board.running(), usize::from(!suspended));
    }
}

#[test]
fn case_10_a_broken_off_thread_keeps_what_is_left_of_its_turn() {
    for left in [1, 2, 3] {
        let mut board = Board::fresh();
        board.done(create(1, 5, 3));
        board.done(create(2, 5, 4));
        board.ticks(3 - left);
        board.done(create(3, 9, 2));
        board.ticks(5);
        assert_eq!(board.running(), 3);
        board.done(delete(3));
        for _ in 0..left {
            assert_eq!(board.running(), 1, "{left} left");
            board.ticks(1);
        }
        assert_eq!(board.running(), 2, "{left} left");
        assert_eq!(board.seen(2).counter, 4);
    }
}

#[test]
fn case_11_under_lock_the_outranking_thread_still_waits() {
    let mut board = Board::fresh();
    board.done(lock());
    board.done(lock());
    board.done(create(1, 5, 3));
    board.done(unlock());
    assert_eq!((board.running(), board.lock()), (0, 1));
    board.ticks(1);
    assert_eq!(board.running(), 0);
    board.done(unlock());
    assert_eq!((board.running(), board.lock()), (1, 0));
}

#[test]
fn case_12_delete_0_is_refused_delete_16_is_no_thread() {
    let mut board = Board::fresh();
    board.refused(delete(0), -5);
    board.refused(delete(16), -1);
    board.refused(delete(15), -1);
    board.done(create(15, 5, 3));
    board.done(delete(15));
    board.refused(delete(15), -1);
}
