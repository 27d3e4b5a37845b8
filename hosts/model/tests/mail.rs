//! The operations on mailboxes: Send, Send from interrupt and Receive.

mod common;

use common::*;
use model::wait;

/// "To a thread waiting to receive, the data ends that wait with 0"
#[test]
fn a_send_to_a_receiver_ends_its_wait() {
    for record in [send(5, 0, 91), send(5, 9, 91), interrupt_send(5, 91)] {
        let before = busy();
        let board = before.after(record);
        let want = Seen {
            wait: (0, 0),
            place: 1,
            outcome: 0,
            counter: 7,
            parcel: 91,
            ..before.seen(5)
        };
        assert_eq!((board.seen(5), board.running()), (want, 5));
        board.only_changed(&before, &[5, 24]);
        board.clone().expect(outcome_of(5), (0, 91));
    }
    let mut locked = busy_locked();
    locked.done(send(5, 0, 91));
    assert_eq!((locked.running(), locked.seen(5).parcel), (1, 91));
}

#[test]
fn a_send_to_a_suspended_receiver_leaves_it_suspended() {
    for record in [send(5, 0, 0), interrupt_send(5, 0)] {
        let mut board = busy().after(suspend(5)).after(record);
        let seen = board.seen(5);
        assert_eq!((seen.suspended, seen.wait, seen.place), (true, (0, 0), 0));
        assert_eq!((seen.mailbox, seen.counter), (None, 0));
        board.expect(outcome_of(5), (0, 0));
        board.done(resume(5));
        assert_eq!((board.running(), board.seen(5).counter), (5, 7));
    }
}

/// "to an empty mailbox, it fills it"
#[test]
fn a_send_fills_an_empty_mailbox_in_every_state() {
    let before = busy().after(create(8, 4, 4));
    for to in [0, 3, 4, 6, 7, 8] {
        for data in [0, 7, u32::MAX] {
            for record in [
                send(to, 0, data),
                send(to, 5, data),
                interrupt_send(to, data),
            ] {
                let board = before.after(record);
                let to = usize::from(to);
                let want = Seen {
                    mailbox: Some(data),
                    ..before.seen(to)
                };
                assert_eq!(board.seen(to), want);
                board.only_changed(&before, &[to]);
            }
        }
    }
}

/// An interrupt may fill the running thread's own mailbox: it is no sending to oneself.
#[test]
fn an_interrupt_sends_to_the_running_thread() {
    let board = busy().after(interrupt_send(1, 4));
    assert_eq!(board.seen(1).mailbox, Some(4));
    let mut init = Board::fresh().after(interrupt_send(0, 4));
    init.refused(interrupt_send(0, 5), -5);
    init.expect(receive(0), (0, 4));
}

/// "to a full one, the sender must wait"
#[test]
fn a_send_to_a_full_mailbox_waits_at_the_tail() {
    let mut board = busy();
    board.behind(send(2, 5, 11), 1);
    let seen = board.seen(1);
    assert_eq!((seen.wait, seen.place), ((wait::SEND, 2), 2));
    assert_eq!((seen.counter, seen.parcel, seen.outcome), (5, 11, 1));
    assert_eq!(board.seen(2), busy().seen(2));
    // A thread that still sends answers 1 and 0, though its parcel holds data.
    board.expect(outcome_of(1), (1, 0));
}

/// "a full mailbox gives its data as value; then the first waiting sender's data moves in and
/// that wait ends with 0; with no sender the mailbox is empty"
#[test]
fn receive_takes_the_mail_and_lets_the_first_sender_in() {
    let mut board = busy();
    board.behind(send(2, 5, 11), 1);
    assert_eq!(board.running(), 2);
    let before = board.clone();
    board.done(lock());
    board.expect(receive(0), (0, 22));
    let want = Seen {
        wait: (0, 0),
        place: 1,
        outcome: 0,
        counter: 7,
        parcel: 0,
        ..before.seen(6)
    };
    assert_eq!(board.seen(6), want);
    assert_eq!(board.seen(2).mailbox, Some(66));
    assert_eq!(
        (board.seen(1).wait, board.seen(1).place),
        ((wait::SEND, 2), 1)
    );
    board.only_changed(&before, &[1, 2, 6, 24]);
    board.expect(receive(9), (0, 66));
    assert_eq!(board.seen(2).mailbox, Some(11));
    board.expect(outcome_of(1), (0, 0));
    board.expect(receive(u32::MAX), (0, 11));
    assert_eq!((board.seen(2).mailbox, board.seen(2).outcome), (None, 1));
    board.refused(receive(0), -5);
    assert_eq!(board.running(), 2);
    board.done(unlock());
    assert_eq!(board.running(), 6);
}

#[test]
fn receive_lets_a_suspended_sender_in() {
    let mut board = busy().after(suspend(6)).after(suspend(1));
    board.expect(receive(0), (0, 22));
    let seen = board.seen(6);
    assert_eq!((seen.suspended, seen.wait, seen.place), (true, (0, 0), 0));
    assert_eq!((seen.outcome, seen.parcel, seen.counter), (0, 0, 0));
    assert_eq!((board.running(), board.seen(2).mailbox), (2, Some(66)));
}

#[test]
fn a_sender_that_outranks_runs_as_soon_as_its_mail_is_in() {
    let mut board = busy().after(suspend(1));
    assert_eq!(board.running(), 2);
    board.expect(receive(0), (0, 22));
    assert_eq!(board.running(), 6);
}

/// "An empty one must wait."
#[test]
fn receive_from_an_empty_mailbox_waits() {
    let mut board = busy();
    board.blocked(receive(6));
    let seen = board.seen(1);
    assert_eq!(
        (seen.wait, seen.place, seen.counter),
        ((wait::RECEIVE, 0), 0, 6)
    );
    board.ticks(6);
    board.expect(outcome_of(1), (-5, 0));
}

#[test]
fn a_full_mailbox_of_value_0_is_full() {
    let mut board = busy().after(interrupt_send(1, 0));
    board.refused(interrupt_send(1, 1), -5);
    board.expect(receive(0), (0, 0));
    board.done(interrupt_send(1, 1));
}

/// A sender whose time runs out leaves the line: its data never comes.
#[test]
fn a_sender_that_times_out_is_passed_over() {
    let mut board = busy();
    board.behind(send(2, 1, 11), 1);
    board.done(set_priority(6, 31));
    board.ticks(1);
    board.expect(outcome_of(1), (-5, 0));
    assert_eq!(board.seen(1).parcel, 0);
    board.done(suspend(1));
    board.expect(receive(0), (0, 22));
    board.done(suspend(6));
    board.expect(receive(0), (0, 66));
    board.refused(receive(0), -5);
}

/// Two threads may wait to send to each other.
#[test]
fn threads_that_send_to_each_other() {
    let mut board = Board::fresh();
    board.done(create(1, 5, 3));
    board.done(create(2, 5, 3));
    board.done(interrupt_send(1, 10));
    board.done(interrupt_send(2, 20));
    board.blocked(send(2, 100_000, 12));
    board.blocked(send(1, 3, 21));
    assert_eq!((board.running(), board.places([1, 2])), (0, [1, 1]));
    let board = board.after(delete(1));
    assert!(board.is_free(1));
    assert_eq!((board.running(), board.seen(2).outcome), (2, -5));
    assert_eq!(board.seen(2).mailbox, Some(20));
}
