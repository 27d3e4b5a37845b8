//! Boards on which every refusal can be had, made by accepted requests.

use model::{fresh, operation as op, record, AREA, TABLE};

/// The table after these records, each of which is accepted with this code.
pub fn after(mut table: [u8; TABLE], records: &[([u8; 12], i32)]) -> [u8; TABLE] {
    for (record, code) in records {
        assert_eq!(model::door(&mut table, record, &mut [0; AREA]), *code);
    }
    table
}

/// A thread in every state: 1 runs (priority 5, turn 3); 2 is ready with a full mailbox; 3 is
/// suspended; 4 is in a delay; 5 receives; 6 sends to 2; 7 waits on semaphore 0. Semaphores 0, 1
/// and 2 have the counts 0, 99 and 1. All else is free.
pub fn busy() -> [u8; TABLE] {
    after(
        fresh(),
        &[
            (record(op::MAKE, 0, 0, 0, 0), 0),
            (record(op::MAKE, 1, 0, 99, 0), 0),
            (record(op::MAKE, 2, 0, 1, 0), 0),
            (record(op::CREATE, 4, 20, 7, 0), 0),
            (record(op::DELAY, 0, 0, 50, 0), 1),
            (record(op::CREATE, 5, 20, 7, 0), 0),
            (record(op::RECEIVE, 0, 0, 100_000, 0), 1),
            (record(op::CREATE, 7, 20, 7, 0), 0),
            (record(op::PEND, 0, 0, 100_000, 0), 1),
            (record(op::CREATE, 2, 4, 4, 0), 0),
            (record(op::SEND_FROM_INTERRUPT, 2, 0, 0, 22), 0),
            (record(op::CREATE, 6, 20, 7, 0), 0),
            (record(op::SEND, 2, 0, 100_000, 66), 1),
            (record(op::CREATE, 3, 20, 7, 0), 0),
            (record(op::SUSPEND, 3, 0, 0, 0), 0),
            (record(op::CREATE, 1, 5, 3, 0), 0),
        ],
    )
}

/// The busy board under lock.
pub fn locked() -> [u8; TABLE] {
    after(busy(), &[(record(op::LOCK, 0, 0, 0, 0), 0)])
}

/// The busy board under the deepest lock.
pub fn deepest() -> [u8; TABLE] {
    after(busy(), &[(record(op::LOCK, 0, 0, 0, 0), 0); 255])
}

/// The busy board with threads 1 and 2 suspended, so that Init runs.
pub fn init_runs() -> [u8; TABLE] {
    after(
        busy(),
        &[
            (record(op::SUSPEND, 1, 0, 0, 0), 0),
            (record(op::SUSPEND, 2, 0, 0, 0), 0),
        ],
    )
}
