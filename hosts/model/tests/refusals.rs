//! Every refusal of every operation, one by one, each with a request that only just is not
//! refused. The board checks that a refusal leaves the table byte for byte and that the area
//! holds the code and value 0.

mod common;

use common::*;

/// Each request is refused with this code.
fn all_refused<const N: usize>(board: &Board, code: i32, records: [[u8; 12]; N]) {
    for record in records {
        board.clone().refused(record, code);
    }
}

/// Each request is done with value 0.
fn all_done<const N: usize>(board: &Board, records: [[u8; 12]; N]) {
    for record in records {
        board.clone().done(record);
    }
}

/// Each request blocks its caller, with so many threads ahead.
fn all_blocked<const N: usize>(board: &Board, ahead: u32, records: [[u8; 12]; N]) {
    for record in records {
        board.clone().behind(record, ahead);
    }
}

#[test]
fn yield_tick_and_nearest_are_never_refused() {
    for board in [Board::fresh(), busy(), busy_locked(), busy_init()] {
        all_done(&board, [yield_turn(), tick()]);
        assert_eq!(board.clone().ask(&nearest()).0, 0);
    }
}

/// Order 7: "−3 for 21 with 0 or above 99,999", and for nothing else.
#[test]
fn ticks() {
    let ticks = common::ticks;
    for board in [Board::fresh(), busy(), busy_locked(), busy_init()] {
        all_refused(&board, -3, [ticks(0), ticks(100_000), ticks(u32::MAX)]);
        all_refused(&board, -3, [ticks(1 << 17 | 1), ticks(1 << 31 | 1)]);
        all_done(&board, [ticks(1), ticks(99_999)]);
    }
}

/// Order 8: "23: −2, −1, −5 [..] Init gets −5 in both", under lock and without.
#[test]
fn set_priority() {
    let set = common::set_priority;
    for board in [busy(), busy_locked()] {
        all_refused(&board, -2, [set(1, 32), set(1, 33), set(1, 255)]);
        all_refused(&board, -1, [set(8, 5), set(15, 5), set(16, 5), set(255, 5)]);
        all_refused(&board, -5, [set(0, 0), set(0, 1), set(0, 31)]);
        for i in 1..=7 {
            all_done(&board, [set(i, 0), set(i, 5), set(i, 20), set(i, 31)]);
        }
    }
    all_refused(&Board::fresh(), -5, [set(0, 0)]);
}

/// Order 8: "24: −3, −1, −5; Init gets −5 in both", under lock and without.
#[test]
fn set_turn() {
    let set = common::set_turn;
    for board in [busy(), busy_locked()] {
        all_refused(&board, -3, [set(1, 0), set(1, 100_000), set(1, u32::MAX)]);
        all_refused(&board, -3, [set(1, 1 << 17 | 1), set(1, 1 << 31 | 1)]);
        all_refused(&board, -1, [set(8, 1), set(15, 1), set(16, 1), set(255, 1)]);
        all_refused(&board, -5, [set(0, 1), set(0, 10), set(0, 99_999)]);
        for i in 1..=7 {
            all_done(&board, [set(i, 1), set(i, 7), set(i, 99_999)]);
        }
    }
    all_refused(&Board::fresh(), -5, [set(0, 10)]);
}

#[test]
fn create() {
    let board = busy();
    let create = common::create;
    all_refused(&board, -2, [create(8, 32, 1), create(8, 255, 1)]);
    all_refused(&board, -3, [create(8, 5, 0), create(8, 5, 100_000)]);
    all_refused(&board, -3, [create(8, 5, u32::MAX)]);
    all_refused(&board, -1, [create(16, 5, 1), create(255, 5, 1)]);
    for used in 0..=7 {
        all_refused(&board, -1, [create(used, 5, 1)]);
    }
    for free in 8..=15 {
        all_done(&board, [create(free, 31, 99_999), create(free, 0, 1)]);
    }
    all_done(&busy_locked(), [create(8, 31, 1)]);
}

#[test]
fn delete() {
    let delete = common::delete;
    all_refused(&busy(), -1, [delete(8), delete(15), delete(16)]);
    all_refused(&busy(), -1, [delete(255)]);
    all_refused(&busy(), -5, [delete(0)]);
    all_refused(&busy_locked(), -5, [delete(0), delete(1)]);
    all_refused(&Board::fresh(), -5, [delete(0)]);
    for i in 1..=7 {
        all_done(&busy(), [delete(i)]);
    }
    for i in 2..=7 {
        all_done(&busy_locked(), [delete(i)]);
    }
}

#[test]
fn suspend() {
    let suspend = common::suspend;
    all_refused(&busy(), -1, [suspend(8), suspend(16), suspend(255)]);
    all_refused(&busy(), -4, [suspend(3)]);
    let twice = busy().after(suspend(7));
    all_refused(&twice, -4, [suspend(7)]);
    all_refused(&busy(), -5, [suspend(0)]);
    all_refused(&busy_init(), -5, [suspend(0)]);
    all_refused(&busy_locked(), -5, [suspend(0), suspend(1)]);
    for i in [1, 2, 4, 5, 6, 7] {
        all_done(&busy(), [suspend(i)]);
    }
    all_done(&busy_locked(), [suspend(2), suspend(7)]);
}

#[test]
fn resume() {
    let resume = common::resume;
    all_refused(&busy(), -1, [resume(8), resume(16), resume(255)]);
    for i in [0, 1, 2, 4, 5, 6, 7] {
        all_refused(&busy(), -4, [resume(i)]);
        all_refused(&busy_locked(), -4, [resume(i)]);
    }
    all_done(&busy(), [resume(3)]);
    all_done(&busy_locked(), [resume(3)]);
    all_done(&busy().after(common::suspend(6)), [resume(6)]);
}

#[test]
fn delay() {
    let delay = common::delay;
    all_refused(&busy(), -3, [delay(0), delay(100_000), delay(u32::MAX)]);
    all_refused(&busy_init(), -5, [delay(1), delay(99_999)]);
    all_refused(&busy_locked(), -5, [delay(1), delay(99_999)]);
    all_blocked(&busy(), 0, [delay(1), delay(99_999)]);
}

#[test]
fn cancel() {
    let cancel = common::cancel;
    all_refused(&busy(), -1, [cancel(8), cancel(16), cancel(255)]);
    for i in [0, 1, 2, 3, 5, 6, 7] {
        all_refused(&busy(), -4, [cancel(i)]);
    }
    all_done(&busy(), [cancel(4)]);
    all_done(&busy_locked(), [cancel(4)]);
    all_done(&busy().after(common::suspend(4)), [cancel(4)]);
}

#[test]
fn send() {
    let send = common::send;
    all_refused(&busy(), -1, [send(8, 5, 1), send(16, 5, 1)]);
    all_refused(&busy(), -1, [send(255, 5, 1)]);
    // To oneself, whatever the mailbox holds and whether the call would wait.
    all_refused(&busy(), -5, [send(1, 5, 1), send(1, 0, 1)]);
    let full = busy().after(interrupt_send(1, 9));
    all_refused(&full, -5, [send(1, 5, 1), send(1, 0, 1)]);
    all_refused(&busy_init(), -5, [send(0, 5, 1)]);
    // To a full mailbox with a number of 0, from Init, under lock.
    all_refused(&busy(), -5, [send(2, 0, 1)]);
    all_refused(&busy_init(), -5, [send(2, 5, 1), send(2, 100_000, 1)]);
    all_refused(&busy_locked(), -5, [send(2, 5, 1), send(2, 100_000, 1)]);
    all_blocked(&busy(), 1, [send(2, 1, 1), send(2, u32::MAX, 1)]);
    // Where the call need not wait, number, caller and lock do not matter.
    for board in [busy(), busy_init(), busy_locked()] {
        all_done(&board, [send(5, 0, 1), send(3, 0, 1), send(7, 9, 1)]);
    }
}

#[test]
fn send_from_interrupt() {
    all_refused(&busy(), -1, [interrupt_send(8, 1), interrupt_send(16, 1)]);
    all_refused(&busy(), -1, [interrupt_send(255, 1)]);
    all_refused(&busy(), -5, [interrupt_send(2, 1)]);
    for i in 0..=7 {
        all_refused(&busy_locked(), -5, [interrupt_send(i, 1)]);
    }
    for i in [0, 1, 3, 4, 5, 6, 7] {
        all_done(&busy(), [interrupt_send(i, 1)]);
    }
}

#[test]
fn receive() {
    let receive = common::receive;
    all_refused(&busy(), -5, [receive(0)]);
    all_refused(&busy_init(), -5, [receive(1), receive(100_000)]);
    all_refused(&busy_locked(), -5, [receive(1), receive(100_000)]);
    all_blocked(&busy(), 0, [receive(1), receive(99_999), receive(100_000)]);
    let mut init = busy_init().after(interrupt_send(0, 9));
    init.expect(receive(0), (0, 9));
    let mut locked = busy().after(interrupt_send(1, 8)).after(common::lock());
    locked.expect(receive(0), (0, 8));
}

#[test]
fn make() {
    let make = common::make;
    all_refused(&busy(), -6, [make(8, 0), make(255, 0)]);
    all_refused(&busy(), -6, [make(0, 0), make(1, 99), make(2, 1)]);
    all_refused(&busy(), -5, [make(3, 100), make(7, u32::MAX)]);
    all_refused(&busy(), -5, [make(3, 256)]);
    all_done(&busy(), [make(3, 0), make(7, 99)]);
    all_done(&busy_locked(), [make(3, 0), make(7, 99)]);
}

#[test]
fn drop() {
    let drop = drop_semaphore;
    all_refused(&busy(), -6, [drop(3), drop(7), drop(8), drop(255)]);
    all_done(&busy(), [drop(0), drop(1), drop(2)]);
    all_done(&busy_locked(), [drop(0), drop(1), drop(2)]);
}

#[test]
fn pend() {
    let pend = common::pend;
    all_refused(&busy(), -6, [pend(3, 5), pend(8, 5), pend(255, 5)]);
    all_refused(&busy(), -5, [pend(0, 0)]);
    all_refused(&busy_init(), -5, [pend(0, 5), pend(0, 100_000)]);
    all_refused(&busy_locked(), -5, [pend(0, 5), pend(0, 100_000)]);
    all_blocked(&busy(), 1, [pend(0, 1), pend(0, u32::MAX)]);
    for board in [busy(), busy_init(), busy_locked()] {
        board.clone().expect(pend(1, 0), (0, 98));
        board.clone().expect(pend(2, 7), (0, 0));
    }
}

#[test]
fn abort() {
    let abort = common::abort;
    all_refused(&busy(), -1, [abort(8), abort(16), abort(255)]);
    for i in [0, 1, 2, 3, 4, 5, 6] {
        all_refused(&busy(), -4, [abort(i)]);
    }
    all_done(&busy(), [abort(7)]);
    all_done(&busy_locked(), [abort(7)]);
    all_done(&busy().after(common::suspend(7)), [abort(7)]);
}

#[test]
fn post_and_post_from_interrupt() {
    for post in [common::post, interrupt_post] {
        all_refused(&busy(), -6, [post(3, 1), post(8, 1), post(255, 1)]);
        all_refused(&busy(), -5, [post(0, 0), post(1, 0), post(2, 0)]);
        // One thread waits on semaphore 0, so one unit more is taken there.
        all_refused(&busy(), -5, [post(0, 101), post(1, 1), post(2, 99)]);
        all_done(&busy(), [post(0, 100), post(2, 98)]);
        // A sum of 32 bits would wrap here, a sum of 8 bits there.
        all_refused(&busy(), -5, [post(2, u32::MAX), post(1, u32::MAX - 98)]);
        all_refused(&busy(), -5, [post(0, u32::MAX), post(0, 256), post(0, 257)]);
        all_refused(&busy(), -5, [post(2, 257), post(1, 158)]);
    }
    all_done(&busy_locked(), [post(0, 1), post(0, 100), post(2, 98)]);
    all_refused(&busy_locked(), -5, [post(0, 101), post(2, 99)]);
    let post = interrupt_post;
    all_refused(&busy_locked(), -5, [post(0, 1), post(2, 98), post(1, 1)]);
    all_refused(&busy_locked(), -5, [post(0, 100), post(0, 101)]);
}

#[test]
fn lock_and_unlock() {
    let (lock, unlock) = (common::lock, common::unlock);
    let mut board = busy();
    board.refused(unlock(), -5);
    for _ in 0..255 {
        board.done(lock());
    }
    board.refused(lock(), -5);
    for _ in 0..255 {
        board.done(unlock());
    }
    board.refused(unlock(), -5);
}

#[test]
fn outcome() {
    let none = [outcome_of(8), outcome_of(16), outcome_of(255)];
    all_refused(&busy(), -1, none);
    for i in 0..=7 {
        busy().expect(outcome_of(i), (1, 0));
        busy_locked().expect(outcome_of(i), (1, 0));
    }
}
