//! Waiting: how each kind of wait begins, how it ends, and that it goes on while its thread is
//! suspended.

mod common;

use common::*;
use model::{operation, wait};

/// Thread 1 runs (priority 5, turn 3, 2 ticks left, mail of outcome 0 and a parcel from an
/// earlier receive); thread 2 has a full mailbox and a sender 3 in its line; semaphore 6 has
/// count 0 and a waiter 4.
fn about_to_wait() -> Board {
    let mut board = Board::fresh();
    board.done(make(6, 0));
    board.done(create(2, 1, 3));
    board.done(interrupt_send(2, 22));
    board.done(create(3, 9, 3));
    board.blocked(send(2, 100_000, 33));
    board.done(create(4, 9, 3));
    board.blocked(pend(6, 100_000));
    board.done(create(1, 5, 3));
    board.blocked(receive(100_000));
    board.done(interrupt_send(1, 4_321));
    board.ticks(1);
    board.expect(outcome_of(1), (0, 4_321));
    assert_eq!((board.running(), board.seen(1).counter), (1, 2));
    board
}

/// A call that waits: its record, wait kind and object, place, and parcel.
type Call = ([u8; 12], (u8, u8), u8, u32);

/// The call waits, a Send or a Pend behind the one that is there.
fn waits(board: &mut Board, record: [u8; 12]) {
    let ahead = u32::from(matches!(record[0], operation::SEND | operation::PEND));
    board.behind(record, ahead);
}

/// Each call that takes a wait number.
fn calls(number: u32) -> [Call; 3] {
    [
        (receive(number), (wait::RECEIVE, 0), 0, 0),
        (send(2, number, 77), (wait::SEND, 2), 2, 77),
        (pend(6, number), (wait::SEMAPHORE, 6), 2, 0),
    ]
}

#[test]
fn a_wait_begins_at_the_tail_with_its_number() {
    let numbers = [(1, 1), (99_999, 99_999), (100_000, 0), (u32::MAX, 0)];
    for (number, counter) in numbers {
        let delays = (number < 100_000).then_some((delay(number), (wait::DELAY, 0), 0, 0));
        for (record, wait, place, parcel) in calls(number).into_iter().chain(delays) {
            let mut board = about_to_wait();
            let before = board.clone();
            waits(&mut board, record);
            let want = Seen {
                wait,
                place,
                counter,
                parcel,
                outcome: 1,
                ..before.seen(1)
            };
            assert_eq!(board.seen(1), want, "{record:?}");
            board.only_changed(&before, &[1, 24]);
            assert_eq!(board.running(), 2);
        }
    }
}

/// "A call that must wait answers −5 if its number is 0, the caller is Init or the lock is on."
#[test]
fn a_call_that_must_not_wait_changes_nothing() {
    for (record, ..) in calls(0) {
        about_to_wait().refused(record, -5);
    }
    for (record, ..) in calls(5) {
        about_to_wait().after(lock()).refused(record, -5);
        let mut init = about_to_wait().after(suspend(2)).after(suspend(1));
        assert_eq!(init.running(), 0);
        init.refused(record, -5);
    }
}

/// A board on which thread 1 waits as the record says.
fn waiting(record: [u8; 12], suspended: bool) -> Board {
    let mut board = about_to_wait();
    waits(&mut board, record);
    if suspended {
        board.done(suspend(1));
    }
    board
}

/// After its wait ends, thread 1 has this outcome and parcel and, unless suspended, is ready at
/// the tail of its line with a full counter.
fn ended(board: &Board, suspended: bool, outcome: i8, parcel: u32) {
    let want = Seen {
        priority: 5,
        suspended,
        wait: (0, 0),
        place: u8::from(!suspended),
        mailbox: None,
        outcome,
        turn: 3,
        counter: if suspended { 0 } else { 3 },
        parcel,
    };
    assert_eq!(board.seen(1), want);
    assert_eq!(board.running() == 1, !suspended);
    let value = if outcome == 0 { parcel } else { 0 };
    board
        .clone()
        .expect(outcome_of(1), (i32::from(outcome), value));
}

#[test]
fn each_wait_ends_by_time_a_delay_with_0_others_with_failure() {
    for suspended in [false, true] {
        for left in [1, 2, 5] {
            let delays = [(delay(left), (0, 0), 0, 0)];
            for (record, ..) in calls(left).into_iter().chain(delays) {
                let mut board = waiting(record, suspended);
                board.ticks(left as usize - 1);
                assert_ne!(board.seen(1).wait, (0, 0));
                assert_eq!(board.seen(1).counter, 1);
                board.ticks(1);
                let outcome = if record == delay(left) { 0 } else { -5 };
                ended(&board, suspended, outcome, 0);
            }
        }
    }
}

#[test]
fn each_wait_ends_by_what_it_waits_for() {
    for suspended in [false, true] {
        let board = waiting(receive(9), suspended);
        ended(&board.after(interrupt_send(1, 88)), suspended, 0, 88);
        ended(&board.after(send(1, 0, 0)), suspended, 0, 0);

        let mut board = waiting(send(2, 9, 77), suspended);
        board.expect(receive(0), (0, 22));
        assert_eq!(board.seen(2).mailbox, Some(33));
        assert_eq!(board.seen(1).wait, (wait::SEND, 2));
        board.done(suspend(3));
        board.expect(receive(0), (0, 33));
        assert_eq!(board.seen(2).mailbox, Some(77));
        ended(&board, suspended, 0, 0);

        let board = waiting(pend(6, 9), suspended);
        ended(&board.after(suspend(4)).after(post(6, 2)), suspended, 0, 0);
    }
}

#[test]
fn each_wait_ends_by_failure() {
    for suspended in [false, true] {
        let board = waiting(delay(9), suspended);
        ended(&board.after(cancel(1)), suspended, -5, 0);
        let board = waiting(pend(6, 9), suspended).after(suspend(4));
        ended(&board.after(abort(1)), suspended, -5, 0);
        ended(&board.after(drop_semaphore(6)), suspended, -5, 0);
        let board = waiting(send(2, 9, 77), suspended).after(suspend(3));
        ended(&board.after(delete(2)), suspended, -5, 0);
    }
}

/// "A wait goes on while its thread is suspended (001)." Forever stays forever.
#[test]
fn waits_without_a_limit_do_not_count() {
    for suspended in [false, true] {
        for (record, wait, place, _) in calls(100_000) {
            let mut board = waiting(record, suspended);
            board.ticks(20);
            let seen = board.seen(1);
            assert_eq!((seen.wait, seen.place, seen.counter), (wait, place, 0));
        }
    }
}

#[test]
fn the_longest_limit_ends_after_99_999_ticks() {
    let mut board = waiting(pend(6, 99_999), false).after(suspend(2));
    board.ticks(99_998);
    assert_eq!(board.seen(1).counter, 1);
    board.ticks(1);
    board.expect(outcome_of(1), (-5, 0));
}

/// "an outcome stays until its thread next waits"
#[test]
fn an_outcome_stays_until_the_thread_next_waits() {
    let mut board = about_to_wait();
    board.done(yield_turn());
    board.ticks(9);
    board.done(set_priority(1, 6));
    board.done(set_turn(1, 3));
    board.done(suspend(1));
    board.done(resume(1));
    board.done(interrupt_send(1, 5));
    board.expect(receive(0), (0, 5));
    board.refused(receive(0), -5);
    board.done(post(6, 2));
    board.done(suspend(4));
    board.expect(pend(6, 9), (0, 0));
    board.expect(outcome_of(1), (0, 4_321));
    board.blocked(delay(3));
    board.expect(outcome_of(1), (1, 0));
}
