//! The calls that have the most to do: the longest lines, and the most waits that end at once. The
//! tables are made by accepted requests from fresh.

use model::{door, fresh, operation as op, record, FOREVER, RECORD, TABLE};

use crate::cases::{Case, Group};

/// The table after an accepted request.
pub fn after(mut table: [u8; TABLE], record: [u8; RECORD]) -> [u8; TABLE] {
    let code = door(&mut table, &record, &mut [0; 8]);
    assert!(code >= 0, "request {record:?} got {code}");
    table
}

/// Each of the threads from `first` on is created and waits by the request.
fn all_wait(mut table: [u8; TABLE], first: u8, wait: [u8; RECORD]) -> [u8; TABLE] {
    for i in first..16 {
        table = after(table, record(op::CREATE, i, 5, 5, 0));
        table = after(table, wait);
    }
    table
}

/// A fresh table with the threads below `first`, of which the last runs once the others wait.
fn ready_below(first: u8) -> [u8; TABLE] {
    let create = |table, i| after(table, record(op::CREATE, i, i, 5, 0));
    (1..first).fold(fresh(), create)
}

/// The threads from `first` on wait on semaphore 0.
fn waiters(first: u8, number: u32) -> [u8; TABLE] {
    let made = after(ready_below(first), record(op::MAKE, 0, 0, 0, 0));
    all_wait(made, first, record(op::PEND, 0, 0, number, 0))
}

/// The threads from `first` on send to thread 1, whose mailbox is full.
fn senders(first: u8) -> [u8; TABLE] {
    let full = after(
        ready_below(first),
        record(op::SEND_FROM_INTERRUPT, 1, 0, 0, 7),
    );
    all_wait(full, first, record(op::SEND, 1, 0, FOREVER, 9))
}

/// Init and 15 others in one rank; Init is last, and thread 1 runs with one tick left.
fn rank_of_16() -> [u8; TABLE] {
    ranked(|_| 1)
}

/// Init and 15 others of these turns in one rank; Init is last, and thread 1 runs.
pub fn ranked(turn: impl Fn(u8) -> u32) -> [u8; TABLE] {
    let create = |table, i| after(table, record(op::CREATE, i, 0, turn(i), 0));
    let table = (1..16).fold(fresh(), create);
    after(table, record(op::YIELD, 0, 0, 0, 0))
}

/// Thread 15 waits to receive, and the 15 others are ready in the rank that it comes from.
fn receiver() -> [u8; TABLE] {
    let mut table = after(fresh(), record(op::CREATE, 15, 0, 5, 0));
    table = after(table, record(op::YIELD, 0, 0, 0, 0));
    table = after(table, record(op::RECEIVE, 0, 0, FOREVER, 0));
    for i in 1..15 {
        table = after(table, record(op::CREATE, i, 0, 5, 0));
    }
    table
}

/// Each is a group of one call.
pub fn worst() -> Vec<Group> {
    let delays = all_wait(fresh(), 1, record(op::DELAY, 0, 0, 1, 0));
    let tick = record(op::TICK, 0, 0, 0, 0);
    let calls = [
        (
            "Yield in a rank of 16",
            rank_of_16(),
            record(op::YIELD, 0, 0, 0, 0),
        ),
        (
            "Suspend in a rank of 16",
            rank_of_16(),
            record(op::SUSPEND, 1, 0, 0, 0),
        ),
        (
            "Delete with 14 senders",
            senders(2),
            record(op::DELETE, 1, 0, 0, 0),
        ),
        (
            "Receive with 14 senders",
            senders(2),
            record(op::RECEIVE, 0, 0, 0, 0),
        ),
        (
            "Send behind 13 senders",
            senders(3),
            record(op::SEND, 1, 0, FOREVER, 9),
        ),
        (
            "Pend behind 14 waiters",
            waiters(2, FOREVER),
            record(op::PEND, 0, 0, FOREVER, 0),
        ),
        (
            "Drop with 15 waiters",
            waiters(1, FOREVER),
            record(op::DROP, 0, 0, 0, 0),
        ),
        (
            "Abort with 14 behind",
            waiters(1, FOREVER),
            record(op::ABORT, 1, 0, 0, 0),
        ),
        (
            "Post serves 15 waiters",
            waiters(1, FOREVER),
            record(op::POST, 0, 0, 99, 0),
        ),
        (
            "Send from interrupt into a rank of 15",
            receiver(),
            record(op::SEND_FROM_INTERRUPT, 15, 0, 0, 9),
        ),
        (
            "Post from interrupt serves 15 waiters",
            waiters(1, FOREVER),
            record(op::POST_FROM_INTERRUPT, 0, 0, 99, 0),
        ),
        ("Tick rotates a rank of 16", rank_of_16(), tick),
        ("Tick ends 15 delays", delays, tick),
        ("Tick ends 15 waits on a semaphore", waiters(1, 1), tick),
        (
            "Set priority out of a rank of 16",
            rank_of_16(),
            record(op::SET_PRIORITY, 1, 31, 0, 0),
        ),
        (
            "Set turn in a rank of 16",
            rank_of_16(),
            record(op::SET_TURN, 1, 0, 2, 0),
        ),
    ];
    let group = |(name, table, record): (&str, [u8; TABLE], [u8; RECORD])| Group {
        name: name.to_string(),
        cases: vec![Case { table, record }],
    };
    calls.into_iter().map(group).collect()
}
