//! The requests by their names.

use model::{operation as op, record, word};

pub fn yield_turn() -> [u8; 12] {
    record(op::YIELD, 0, 0, 0, 0)
}

pub fn create(i: u8, priority: u8, turn: u32) -> [u8; 12] {
    record(op::CREATE, i, priority, turn, 0)
}

pub fn delete(i: u8) -> [u8; 12] {
    record(op::DELETE, i, 0, 0, 0)
}

pub fn suspend(i: u8) -> [u8; 12] {
    record(op::SUSPEND, i, 0, 0, 0)
}

pub fn resume(i: u8) -> [u8; 12] {
    record(op::RESUME, i, 0, 0, 0)
}

pub fn delay(number: u32) -> [u8; 12] {
    record(op::DELAY, 0, 0, number, 0)
}

pub fn cancel(i: u8) -> [u8; 12] {
    record(op::CANCEL, i, 0, 0, 0)
}

pub fn send(to: u8, number: u32, data: u32) -> [u8; 12] {
    record(op::SEND, to, 0, number, data)
}

pub fn interrupt_send(to: u8, data: u32) -> [u8; 12] {
    record(op::SEND_FROM_INTERRUPT, to, 0, 0, data)
}

pub fn receive(number: u32) -> [u8; 12] {
    record(op::RECEIVE, 0, 0, number, 0)
}

pub fn make(s: u8, number: u32) -> [u8; 12] {
    record(op::MAKE, s, 0, number, 0)
}

pub fn drop_semaphore(s: u8) -> [u8; 12] {
    record(op::DROP, s, 0, 0, 0)
}

pub fn pend(s: u8, number: u32) -> [u8; 12] {
    record(op::PEND, s, 0, number, 0)
}

pub fn abort(i: u8) -> [u8; 12] {
    record(op::ABORT, i, 0, 0, 0)
}

pub fn post(s: u8, number: u32) -> [u8; 12] {
    record(op::POST, s, 0, number, 0)
}

pub fn interrupt_post(s: u8, number: u32) -> [u8; 12] {
    record(op::POST_FROM_INTERRUPT, s, 0, number, 0)
}

pub fn lock() -> [u8; 12] {
    record(op::LOCK, 0, 0, 0, 0)
}

pub fn unlock() -> [u8; 12] {
    record(op::UNLOCK, 0, 0, 0, 0)
}

pub fn tick() -> [u8; 12] {
    record(op::TICK, 0, 0, 0, 0)
}

pub fn outcome_of(i: u8) -> [u8; 12] {
    record(op::OUTCOME, i, 0, 0, 0)
}

pub fn ticks(number: u32) -> [u8; 12] {
    record(op::TICKS, 0, 0, number, 0)
}

/// The record, where it asks for no more ticks at once than 400, and else for some of them: one by
/// one they take long.
pub fn of_few_ticks(record: [u8; 12]) -> [u8; 12] {
    let number = word(&record, 4);
    match record[0] == op::TICKS && (401..100_000).contains(&number) {
        true => ticks(number % 400 + 1),
        false => record,
    }
}

pub fn nearest() -> [u8; 12] {
    record(op::NEAREST, 0, 0, 0, 0)
}

pub fn set_priority(i: u8, priority: u8) -> [u8; 12] {
    record(op::SET_PRIORITY, i, priority, 0, 0)
}

pub fn set_turn(i: u8, turn: u32) -> [u8; 12] {
    record(op::SET_TURN, i, 0, turn, 0)
}

/// What Set was asked by, operation 3, which is gone.
pub fn former_set(i: u8, priority: u8, turn: u32) -> [u8; 12] {
    record(op::GONE, i, priority, turn, 0)
}
