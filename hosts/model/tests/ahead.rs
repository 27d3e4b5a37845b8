//! Order 1: "A Send or Pend that answers 1 now gives as its value the number of threads already in
//! that line."

mod common;

use common::*;
use model::FOREVER;

/// A line of waiters or of senders: how its next member asks, and how its first is served.
struct Kind {
    board: fn() -> Board,
    ask: fn(u32) -> [u8; 12],
    serve: fn(&mut Board),
}

/// Waiters on semaphore 6; senders to thread 2, which has a full mailbox and runs after them.
const KINDS: [Kind; 2] = [
    Kind {
        board: || Board::fresh().after(make(6, 0)).after(create(2, 1, 3)),
        ask: |number| pend(6, number),
        serve: |board| board.done(post(6, 1)),
    },
    Kind {
        board: || {
            Board::fresh()
                .after(create(2, 1, 3))
                .after(interrupt_send(2, 0))
        },
        ask: |number| send(2, number, 0),
        serve: |board| board.expect(receive(0), (0, 0)),
    },
];

/// Threads 3, 4 and 5 wait in this order, and 4 is suspended.
fn three_waiting(kind: &Kind) -> Board {
    let mut board = (kind.board)();
    for (i, ahead) in [(3, 0), (4, 1), (5, 2)] {
        board.done(create(i, 9, 3));
        board.behind((kind.ask)(FOREVER), ahead);
    }
    board.done(suspend(4));
    board
}

#[test]
fn the_fourth_comer_has_3_ahead_and_the_next_after_one_is_served_has_3_again() {
    for kind in &KINDS {
        let mut board = three_waiting(kind);
        board.done(create(6, 9, 3));
        board.behind((kind.ask)(FOREVER), 3);
        assert_eq!(board.places([3, 4, 5, 6]), [1, 2, 3, 4]);
        (kind.serve)(&mut board);
        assert_eq!((board.running(), board.places([4, 5, 6])), (3, [1, 2, 3]));
        board.behind((kind.ask)(7), 3);
        assert_eq!(board.places([4, 5, 6, 3]), [1, 2, 3, 4]);
    }
}

/// The value is the place less 1, in a line of every length. Thread 2 is the fifteenth that waits
/// on the semaphore; it sends nothing to itself.
#[test]
fn a_line_of_every_length() {
    for (kind, last) in KINDS.iter().zip([(1, 14), (-5, 0)]) {
        let mut board = (kind.board)();
        for (ahead, i) in [1].into_iter().chain(3..16).enumerate() {
            board.done(create(i, 9, 3));
            board.behind((kind.ask)(FOREVER), ahead as u32);
            assert_eq!(usize::from(board.seen(i.into()).place), ahead + 1);
        }
        assert_eq!(board.running(), 2);
        board.expect((kind.ask)(FOREVER), last);
    }
}

/// A call's priority and time limit are nothing to the line, and Outcome's code 1 keeps value 0.
#[test]
fn neither_rank_nor_limit_bears_on_it() {
    for kind in &KINDS {
        for priority in [2, 9, 31] {
            for number in [1, 99_999, FOREVER, u32::MAX] {
                let mut board = three_waiting(kind);
                board.done(create(6, priority, 3));
                board.behind((kind.ask)(number), 3);
                for i in [3, 4, 5, 6] {
                    board.expect(outcome_of(i), (1, 0));
                }
            }
        }
    }
}

/// A thread that left the line before is not ahead, whatever took it out.
#[test]
fn whoever_left_is_not_counted() {
    for (kind, out) in [
        (&KINDS[0], abort(4)),
        (&KINDS[0], delete(4)),
        (&KINDS[1], delete(4)),
    ] {
        let mut board = three_waiting(kind).after(out);
        board.done(create(6, 9, 3));
        board.behind((kind.ask)(FOREVER), 2);
    }
    for kind in &KINDS {
        let mut board = three_waiting(kind);
        board.done(create(6, 9, 3));
        board.behind((kind.ask)(1), 3);
        board.ticks(1);
        assert_eq!(board.running(), 6);
        board.behind((kind.ask)(FOREVER), 3);
    }
}

/// Who waits for something else, delays, receives or is ready stands in another line or in none.
#[test]
fn other_lines_are_not_counted() {
    let mut board = busy();
    // Semaphore 3 and the senders to thread 3 are two lines; thread 7 waits on semaphore 0.
    board.done(make(3, 0));
    board.done(create(8, 20, 7));
    board.blocked(pend(3, FOREVER));
    board.done(interrupt_send(3, 33));
    board.done(create(9, 20, 7));
    board.blocked(send(3, FOREVER, 99));
    board.done(create(10, 20, 7));
    board.behind(pend(0, FOREVER), 1);
    board.done(create(11, 20, 7));
    board.behind(send(2, FOREVER, 0), 1);
}

/// "Delay and Receive keep value 0."
#[test]
fn delay_and_receive_keep_value_0() {
    for record in [delay(9), receive(9), receive(FOREVER)] {
        let mut board = Board::fresh();
        for i in 1..16 {
            board.done(create(i, 9, 3));
            board.blocked(record);
        }
    }
}

/// A call that is answered at once keeps its value, and a refused one has none.
#[test]
fn only_a_call_that_waits_says_it() {
    for kind in &KINDS {
        let mut board = three_waiting(kind);
        board.done(create(6, 9, 3));
        board.refused((kind.ask)(0), -5);
        board.done(lock());
        board.refused((kind.ask)(FOREVER), -5);
    }
    let mut board = three_waiting(&KINDS[0]).after(make(1, 9));
    board.expect(pend(1, FOREVER), (0, 8));
    let mut board = three_waiting(&KINDS[1]);
    board.done(create(6, 9, 3));
    board.done(create(7, 1, 3));
    board.done(send(7, FOREVER, 4));
}
