//! Conflicts between refusals: where two or more conditions hold at once, the first in document
//! 01's order, or in order 8's, is given. Pairs that no sound table tells apart are absent: Delete,
//! Set priority and Set turn −1/−5, Suspend −1/−4, −1/−5 and −4/−5, Resume, Cancel and Abort −1/−4,
//! Send to oneself −1/−5.

mod common;

use common::*;
use model::{operation as op, record};

/// A board, a request on which the conditions of all the codes hold, and those codes in order.
fn conflicts() -> Vec<(Board, [u8; 12], &'static [i32])> {
    vec![
        (busy(), create(16, 32, 0), &[-2, -3, -1]),
        (busy(), create(1, 255, u32::MAX), &[-2, -3, -1]),
        (busy(), create(8, 32, 0), &[-2, -3]),
        (busy(), create(0, 32, 1), &[-2, -1]),
        (busy(), create(255, 31, 100_000), &[-3, -1]),
        (busy(), set_priority(8, 32), &[-2, -1]),
        (busy(), set_priority(16, 255), &[-2, -1]),
        (busy(), set_priority(0, 32), &[-2, -5]),
        (busy_init(), set_priority(0, 255), &[-2, -5]),
        (busy_locked(), set_priority(255, 32), &[-2, -1]),
        (busy(), set_turn(8, 0), &[-3, -1]),
        (busy(), set_turn(16, 100_000), &[-3, -1]),
        (busy(), set_turn(0, 0), &[-3, -5]),
        (busy_init(), set_turn(0, u32::MAX), &[-3, -5]),
        (busy_locked(), set_turn(255, 0), &[-3, -1]),
        (busy_init(), delay(0), &[-3, -5]),
        (busy_init(), delay(100_000), &[-3, -5]),
        (busy_locked(), delay(0), &[-3, -5]),
        (busy_locked(), delay(u32::MAX), &[-3, -5]),
        (busy_locked(), interrupt_send(8, 1), &[-1, -5]),
        (busy_locked(), interrupt_send(16, 1), &[-1, -5]),
        (busy(), send(8, 0, 1), &[-1, -5]),
        (busy_init(), send(16, 5, 1), &[-1, -5]),
        (busy_locked(), send(255, 5, 1), &[-1, -5]),
        (busy(), make(0, 100), &[-6, -5]),
        (busy(), make(8, u32::MAX), &[-6, -5]),
        (busy(), pend(3, 0), &[-6, -5]),
        (busy_init(), pend(8, 5), &[-6, -5]),
        (busy_locked(), pend(3, 5), &[-6, -5]),
        (busy(), post(3, 0), &[-6, -5]),
        (busy(), post(8, 100), &[-6, -5]),
        (busy(), interrupt_post(3, 0), &[-6, -5]),
        (busy_locked(), interrupt_post(3, 1), &[-6, -5]),
        (busy_locked(), interrupt_post(255, u32::MAX), &[-6, -5]),
    ]
}

#[test]
fn the_first_condition_in_order_gives_the_code() {
    for (mut board, record, codes) in conflicts() {
        board.refused(record, codes[0]);
    }
}

/// A malformed record that would also be refused otherwise, and by the other refusal without the
/// byte that makes it malformed.
#[test]
fn malformed_is_tested_before_every_other_refusal_of_the_operation() {
    for (board, record, _) in conflicts() {
        let mut malformed = record;
        malformed[3] = 1;
        board.clone().refused(malformed, -8);
    }
    let mut board = busy();
    board.refused(record(op::CREATE, 16, 32, 0, 1), -8);
    board.refused(record(op::DELETE, 0, 1, 0, 0), -8);
    board.refused(record(op::DELAY, 1, 0, 0, 0), -8);
    board.refused(record(op::SEND, 8, 1, 0, 0), -8);
    board.refused(record(op::SEND_FROM_INTERRUPT, 8, 0, 1, 0), -8);
    board.refused(record(op::MAKE, 8, 0, 100, 1), -8);
    board.refused(record(op::UNLOCK, 0, 0, 0, 1), -8);
    board.refused(record(op::OUTCOME, 16, 0, 1, 0), -8);
    board.refused(record(op::TICKS, 1, 0, 0, 0), -8);
    board.refused(record(op::TICKS, 0, 0, 100_000, 1), -8);
    board.refused(record(op::NEAREST, 0, 0, 1, 0), -8);
    board.refused(record(op::SET_PRIORITY, 0, 32, 1, 0), -8);
    board.refused(record(op::SET_PRIORITY, 16, 31, 0, 1), -8);
    board.refused(record(op::SET_TURN, 0, 1, 0, 0), -8);
    board.refused(record(op::SET_TURN, 16, 0, 1, 1), -8);
    board.refused(former_set(16, 32, 0), -8);
}
