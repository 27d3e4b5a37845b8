//! Every refusal of document 01's table and of orders 7 and 8, by name and on its boundaries, and the
//! order of the refusals where two conditions hold at once.

use std::collections::BTreeSet;

use door::boards::{busy, deepest, init_runs, locked};
use door::{Hold, REFUSALS};
use model::{operation as op, record, TABLE};

const AREA: [u8; 8] = [0xA5; 8];

/// A request by its operation, object, priority, number and data.
type Asked = (u8, u8, u8, u32, u32);

/// The requests that a board refuses, each with its refusal.
const ON_BUSY: &[(Asked, i32)] = &[
    ((op::CREATE, 8, 32, 1, 0), -2),
    ((op::CREATE, 8, 255, 1, 0), -2),
    ((op::CREATE, 0, 32, 0, 0), -2),
    ((op::CREATE, 16, 32, 100_000, 0), -2),
    ((op::CREATE, 8, 31, 0, 0), -3),
    ((op::CREATE, 8, 31, 100_000, 0), -3),
    ((op::CREATE, 8, 31, u32::MAX, 0), -3),
    ((op::CREATE, 0, 31, 0, 0), -3),
    ((op::CREATE, 16, 0, 100_000, 0), -3),
    ((op::CREATE, 0, 31, 1, 0), -1),
    ((op::CREATE, 1, 5, 3, 0), -1),
    ((op::CREATE, 3, 5, 3, 0), -1),
    ((op::CREATE, 16, 31, 99_999, 0), -1),
    ((op::CREATE, 255, 31, 99_999, 0), -1),
    ((op::DELETE, 8, 0, 0, 0), -1),
    ((op::DELETE, 16, 0, 0, 0), -1),
    ((op::DELETE, 255, 0, 0, 0), -1),
    ((op::DELETE, 0, 0, 0, 0), -5),
    ((op::SUSPEND, 8, 0, 0, 0), -1),
    ((op::SUSPEND, 16, 0, 0, 0), -1),
    ((op::SUSPEND, 3, 0, 0, 0), -4),
    ((op::SUSPEND, 0, 0, 0, 0), -5),
    ((op::RESUME, 8, 0, 0, 0), -1),
    ((op::RESUME, 16, 0, 0, 0), -1),
    ((op::RESUME, 0, 0, 0, 0), -4),
    ((op::RESUME, 1, 0, 0, 0), -4),
    ((op::RESUME, 4, 0, 0, 0), -4),
    ((op::DELAY, 0, 0, 0, 0), -3),
    ((op::DELAY, 0, 0, 100_000, 0), -3),
    ((op::DELAY, 0, 0, u32::MAX, 0), -3),
    ((op::CANCEL, 8, 0, 0, 0), -1),
    ((op::CANCEL, 16, 0, 0, 0), -1),
    ((op::CANCEL, 0, 0, 0, 0), -4),
    ((op::CANCEL, 1, 0, 0, 0), -4),
    ((op::CANCEL, 3, 0, 0, 0), -4),
    ((op::CANCEL, 5, 0, 0, 0), -4),
    ((op::CANCEL, 6, 0, 0, 0), -4),
    ((op::CANCEL, 7, 0, 0, 0), -4),
    ((op::SEND, 8, 0, 5, 77), -1),
    ((op::SEND, 16, 0, 5, 77), -1),
    ((op::SEND, 1, 0, 5, 77), -5),
    ((op::SEND, 2, 0, 0, 77), -5),
    ((op::SEND_FROM_INTERRUPT, 8, 0, 0, 77), -1),
    ((op::SEND_FROM_INTERRUPT, 16, 0, 0, 77), -1),
    ((op::SEND_FROM_INTERRUPT, 2, 0, 0, 77), -5),
    ((op::RECEIVE, 0, 0, 0, 0), -5),
    ((op::MAKE, 0, 0, 0, 0), -6),
    ((op::MAKE, 0, 0, 100, 0), -6),
    ((op::MAKE, 8, 0, 0, 0), -6),
    ((op::MAKE, 255, 0, 100, 0), -6),
    ((op::MAKE, 3, 0, 100, 0), -5),
    ((op::MAKE, 3, 0, 256, 0), -5),
    ((op::MAKE, 3, 0, u32::MAX, 0), -5),
    ((op::DROP, 3, 0, 0, 0), -6),
    ((op::DROP, 8, 0, 0, 0), -6),
    ((op::DROP, 255, 0, 0, 0), -6),
    ((op::PEND, 3, 0, 0, 0), -6),
    ((op::PEND, 8, 0, 5, 0), -6),
    ((op::PEND, 0, 0, 0, 0), -5),
    ((op::ABORT, 8, 0, 0, 0), -1),
    ((op::ABORT, 16, 0, 0, 0), -1),
    ((op::ABORT, 0, 0, 0, 0), -4),
    ((op::ABORT, 3, 0, 0, 0), -4),
    ((op::ABORT, 4, 0, 0, 0), -4),
    ((op::ABORT, 5, 0, 0, 0), -4),
    ((op::ABORT, 6, 0, 0, 0), -4),
    ((op::UNLOCK, 0, 0, 0, 0), -5),
    ((op::OUTCOME, 8, 0, 0, 0), -1),
    ((op::OUTCOME, 16, 0, 0, 0), -1),
    ((op::OUTCOME, 255, 0, 0, 0), -1),
    ((op::TICKS, 0, 0, 0, 0), -3),
    ((op::TICKS, 0, 0, 100_000, 0), -3),
    ((op::TICKS, 0, 0, 1 << 17 | 1, 0), -3),
    ((op::TICKS, 0, 0, u32::MAX, 0), -3),
    ((op::SET_PRIORITY, 1, 32, 0, 0), -2),
    ((op::SET_PRIORITY, 1, 255, 0, 0), -2),
    ((op::SET_PRIORITY, 8, 32, 0, 0), -2),
    ((op::SET_PRIORITY, 16, 255, 0, 0), -2),
    ((op::SET_PRIORITY, 0, 32, 0, 0), -2),
    ((op::SET_PRIORITY, 8, 31, 0, 0), -1),
    ((op::SET_PRIORITY, 16, 0, 0, 0), -1),
    ((op::SET_PRIORITY, 255, 31, 0, 0), -1),
    ((op::SET_PRIORITY, 0, 0, 0, 0), -5),
    ((op::SET_PRIORITY, 0, 31, 0, 0), -5),
    ((op::SET_TURN, 1, 0, 0, 0), -3),
    ((op::SET_TURN, 1, 0, 100_000, 0), -3),
    ((op::SET_TURN, 1, 0, 1 << 17 | 1, 0), -3),
    ((op::SET_TURN, 8, 0, 0, 0), -3),
    ((op::SET_TURN, 16, 0, 100_000, 0), -3),
    ((op::SET_TURN, 0, 0, u32::MAX, 0), -3),
    ((op::SET_TURN, 8, 0, 1, 0), -1),
    ((op::SET_TURN, 16, 0, 99_999, 0), -1),
    ((op::SET_TURN, 255, 0, 1, 0), -1),
    ((op::SET_TURN, 0, 0, 10, 0), -5),
    ((op::SET_TURN, 0, 0, 99_999, 0), -5),
];

/// What Post and Post from interrupt both refuse. One thread waits on semaphore 0, so that 100 units
/// are taken there.
const POSTS: &[(u8, u32, i32)] = &[
    (3, 1, -6),
    (3, 0, -6),
    (8, 1, -6),
    (255, 100, -6),
    (0, 0, -5),
    (0, 101, -5),
    (0, 256, -5),
    (0, 257, -5),
    (0, u32::MAX, -5),
    (1, 1, -5),
    (1, u32::MAX - 98, -5),
    (2, 99, -5),
    (2, u32::MAX, -5),
];

const UNDER_LOCK: &[(Asked, i32)] = &[
    ((op::DELETE, 1, 0, 0, 0), -5),
    ((op::DELETE, 8, 0, 0, 0), -1),
    ((op::SUSPEND, 1, 0, 0, 0), -5),
    ((op::SUSPEND, 3, 0, 0, 0), -4),
    ((op::DELAY, 0, 0, 1, 0), -5),
    ((op::DELAY, 0, 0, 0, 0), -3),
    ((op::SEND, 2, 0, 5, 77), -5),
    ((op::SEND, 1, 0, 5, 77), -5),
    ((op::SEND_FROM_INTERRUPT, 3, 0, 0, 77), -5),
    ((op::SEND_FROM_INTERRUPT, 5, 0, 0, 77), -5),
    ((op::SEND_FROM_INTERRUPT, 8, 0, 0, 77), -1),
    ((op::RECEIVE, 0, 0, 5, 0), -5),
    ((op::PEND, 0, 0, 5, 0), -5),
    ((op::PEND, 3, 0, 5, 0), -6),
    ((op::POST, 0, 0, 101, 0), -5),
    ((op::POST_FROM_INTERRUPT, 0, 0, 1, 0), -5),
    ((op::POST_FROM_INTERRUPT, 0, 0, 100, 0), -5),
    ((op::POST_FROM_INTERRUPT, 2, 0, 1, 0), -5),
    ((op::POST_FROM_INTERRUPT, 3, 0, 1, 0), -6),
    ((op::TICKS, 0, 0, 0, 0), -3),
    ((op::TICKS, 0, 0, 100_000, 0), -3),
    ((op::SET_PRIORITY, 1, 32, 0, 0), -2),
    ((op::SET_PRIORITY, 0, 5, 0, 0), -5),
    ((op::SET_TURN, 1, 0, 0, 0), -3),
    ((op::SET_TURN, 0, 0, 3, 0), -5),
];

const BY_INIT: &[(Asked, i32)] = &[
    ((op::DELAY, 0, 0, 1, 0), -5),
    ((op::DELAY, 0, 0, 100_000, 0), -3),
    ((op::SEND, 0, 0, 5, 77), -5),
    ((op::SEND, 2, 0, 5, 77), -5),
    ((op::RECEIVE, 0, 0, 5, 0), -5),
    ((op::PEND, 0, 0, 100_000, 0), -5),
    ((op::TICKS, 0, 0, 0, 0), -3),
    ((op::TICKS, 0, 0, u32::MAX, 0), -3),
];

fn request((operation, object, priority, number, data): Asked) -> [u8; 12] {
    record(operation, object, priority, number, data)
}

/// Every refusal, with the board on which it is had.
fn refusals() -> Vec<([u8; TABLE], [u8; 12], i32)> {
    let boards = [
        (busy(), ON_BUSY),
        (locked(), UNDER_LOCK),
        (init_runs(), BY_INIT),
    ];
    let mut rows = vec![(deepest(), record(op::LOCK, 0, 0, 0, 0), -5)];
    for (board, refused) in boards {
        rows.extend(
            refused
                .iter()
                .map(|&(asked, code)| (board, request(asked), code)),
        );
    }
    for operation in [op::POST, op::POST_FROM_INTERRUPT] {
        let asked = |&(s, number, code): &(u8, u32, i32)| {
            (busy(), record(operation, s, 0, number, 0), code)
        };
        rows.extend(POSTS.iter().map(asked));
    }
    rows
}

#[test]
fn every_refusal() {
    let mut hold = Hold::new("every refusal");
    for (board, record, code) in refusals() {
        hold.expect(&board, &record, &AREA, code);
    }
    hold.finish();
}

/// The rows above have every refusal of document 01's table and of orders 7 and 8, and no other.
#[test]
fn no_refusal_is_left_out() {
    let rows = refusals()
        .into_iter()
        .map(|(_, record, code)| (record[0], code));
    let listed = REFUSALS.iter().zip(0u8..);
    let listed = listed.flat_map(|(codes, op)| codes.iter().map(move |&code| (op, code)));
    assert_eq!(
        rows.collect::<BTreeSet<_>>(),
        listed.collect::<BTreeSet<_>>()
    );
}

/// −8 comes before every refusal of the table, and −7 before −8.
#[test]
fn a_malformed_record_and_an_unsound_table_come_first() {
    let mut hold = Hold::new("-7 and -8 first");
    for (board, record, _) in refusals() {
        let mut malformed = record;
        malformed[3] = 1;
        hold.expect(&board, &malformed, &AREA, -8);
        hold.expect(&board, &record[..11], &AREA, -8);
        let mut unsound = board;
        unsound[599] = 1;
        hold.expect(&unsound, &record, &AREA, -7);
        hold.expect(&unsound, &malformed, &AREA, -7);
        hold.expect(&unsound, &record[..11], &AREA, -7);
        hold.expect(&unsound, &[], &AREA, -7);
        hold.expect(&board, &malformed, &AREA[..7], -7);
    }
    hold.finish();
}
