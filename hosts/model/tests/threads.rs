//! The operations on threads: Yield, Create, Delete, Suspend, Resume, Delay and Cancel. `settings.rs`
//! has Set priority and Set turn.

mod common;

use common::*;
use model::wait;

/// Threads 1, 2 and 3 of priority 5 with turns 3, 4 and 5; 1 runs and has 2 ticks left.
fn three() -> Board {
    let mut board = Board::fresh();
    board.done(create(1, 5, 3));
    board.done(create(2, 5, 4));
    board.done(create(3, 5, 5));
    board.ticks(1);
    assert_eq!((board.running(), board.seen(1).counter), (1, 2));
    board
}

/// "Yield: tail of its line, counter = turn; under lock, nothing."
#[test]
fn yield_goes_to_the_tail_with_a_full_counter() {
    let board = three().after(yield_turn());
    assert_eq!((board.running(), board.places([2, 3, 1])), (2, [1, 2, 3]));
    assert_eq!(board.seen(1).counter, 3);
    let alone = three().after(create(4, 9, 5)).after(tick());
    assert_eq!(alone.seen(4).counter, 4);
    let alone = alone.after(yield_turn());
    assert_eq!((alone.running(), alone.seen(4).counter), (4, 5));
    assert_eq!(alone.seen(1), three().seen(1));
}

#[test]
fn yield_under_lock_does_nothing() {
    let locked = three().after(lock());
    assert!(locked.after(yield_turn()).table == locked.table);
}

/// "Create: not suspended, no wait, empty mailbox, outcome 1, ready."
#[test]
fn create_makes_a_ready_thread() {
    for (priority, place, running) in [(4, 1, 1), (5, 4, 1), (6, 1, 15)] {
        let before = three();
        let board = before.after(create(15, priority, 8));
        let want = Seen {
            priority,
            suspended: false,
            wait: (0, 0),
            place,
            mailbox: None,
            outcome: 1,
            turn: 8,
            counter: 8,
            parcel: 0,
        };
        assert_eq!((board.seen(15), board.running()), (want, running));
        board.only_changed(&before, &[15, 24]);
    }
}

#[test]
fn a_thread_created_again_starts_anew() {
    let mut board = busy().after(delete(2));
    board.done(create(2, 4, 4));
    assert_eq!((board.seen(2).mailbox, board.seen(2).outcome), (None, 1));
}

/// "Senders waiting on it end with −5 in line order; its record becomes free."
#[test]
fn delete_ends_its_senders_in_line_order() {
    let mut board = Board::fresh();
    board.done(create(9, 1, 3));
    board.done(interrupt_send(9, 1));
    for (ahead, i) in (0..).zip([5, 2, 7, 3]) {
        board.done(create(i, 8, u32::from(i)));
        board.behind(send(9, 100_000, u32::from(i)), ahead);
    }
    board.done(suspend(7));
    assert_eq!(board.places([5, 2, 7, 3]), [1, 2, 3, 4]);
    board.done(delete(9));
    assert!(board.is_free(9));
    assert_eq!(
        (board.running(), board.places([5, 2, 3, 7])),
        (5, [1, 2, 3, 0])
    );
    for i in [5, 2, 7, 3] {
        board.expect(outcome_of(i), (-5, 0));
        assert_eq!(board.seen(usize::from(i)).wait, (0, 0));
    }
    assert_eq!((board.seen(2).counter, board.seen(7).counter), (2, 0));
}

#[test]
fn delete_frees_a_thread_in_every_state() {
    for i in 1..=7 {
        for before in [busy(), busy_locked()] {
            if usize::from(i) == before.running() && before.lock() > 0 {
                continue;
            }
            let board = before.after(delete(i));
            assert!(board.is_free(usize::from(i)));
            let touched: &[usize] = if i == 2 {
                &[2, 6, 24]
            } else {
                &[usize::from(i), 24]
            };
            board.only_changed(&before, touched);
        }
    }
    assert_eq!(busy().after(delete(1)).running(), 2);
    assert_eq!(busy().after(delete(2)).running(), 6);
    assert_eq!(busy_locked().after(delete(2)).running(), 1);
}

/// "Suspend: [...] a ready thread leaves its line with counter 0."
#[test]
fn suspend_takes_a_ready_thread_out_and_lets_a_wait_go_on() {
    for i in [1, 2] {
        let before = busy();
        let board = before.after(suspend(i));
        let i = usize::from(i);
        let want = Seen {
            suspended: true,
            place: 0,
            counter: 0,
            ..before.seen(i)
        };
        assert_eq!(board.seen(i), want);
        board.only_changed(&before, &[i, 24]);
    }
    for i in [4, 5, 6, 7] {
        let before = busy();
        let board = before.after(suspend(i));
        let i = usize::from(i);
        let want = Seen {
            suspended: true,
            ..before.seen(i)
        };
        assert_eq!(board.seen(i), want);
        board.only_changed(&before, &[i]);
    }
    assert_eq!(busy().after(suspend(1)).running(), 2);
}

/// "Resume: ready if not waiting."
#[test]
fn resume_makes_ready_if_not_waiting() {
    let before = busy();
    let board = before.after(resume(3));
    let want = Seen {
        suspended: false,
        place: 1,
        counter: 7,
        ..before.seen(3)
    };
    assert_eq!((board.seen(3), board.running()), (want, 3));
    board.only_changed(&before, &[3, 24]);
    for i in [4, 5, 6, 7] {
        let board = before.after(suspend(i)).after(resume(i));
        assert!(board.table == before.table);
    }
    let under_lock = busy_locked().after(resume(3));
    assert_eq!((under_lock.running(), under_lock.seen(3).place), (1, 1));
}

#[test]
fn delay_waits_for_its_number() {
    let mut board = three();
    board.blocked(delay(2));
    assert_eq!(board.seen(1).wait, (wait::DELAY, 0));
    assert_eq!((board.running(), board.places([2, 3])), (2, [1, 2]));
    board.ticks(2);
    board.expect(outcome_of(1), (0, 0));
    assert_eq!((board.running(), board.places([2, 3, 1])), (2, [1, 2, 3]));
    assert_eq!(board.seen(2).counter, 2);
}

/// "Cancel, Abort: the wait ends with −5."
#[test]
fn cancel_ends_a_delay_with_failure() {
    let before = busy();
    let board = before.after(cancel(4));
    let want = Seen {
        wait: (0, 0),
        place: 1,
        outcome: -5,
        counter: 7,
        ..before.seen(4)
    };
    assert_eq!((board.seen(4), board.running()), (want, 4));
    board.only_changed(&before, &[4, 24]);
    assert_eq!(busy_locked().after(cancel(4)).running(), 1);
}
