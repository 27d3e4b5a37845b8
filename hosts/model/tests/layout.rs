//! The bytes: the fresh table, the fields of threads, semaphores, kernel, records and answers,
//! written out by hand.

mod common;

use common::*;
use model::{door, fresh, operation, record, TABLE};

/// Writes bytes into record `index` of the table from its start on.
fn put(table: &mut [u8], index: usize, bytes: &[u8]) {
    table[index * 24..index * 24 + bytes.len()].copy_from_slice(bytes);
}

/// "Fresh: Init in use, turn 10, counter 10, place 1, outcome 1; everything else 0." Order 6 gives
/// kernel bytes 2 to 5 a meaning: "A fresh table now holds 1 there."
#[test]
fn fresh_is_init_and_zeros() {
    let mut want = [0; TABLE];
    want[0] = 1;
    want[5] = 1;
    want[7] = 1;
    want[8] = 10;
    want[12] = 10;
    want[578] = 1;
    assert!(fresh() == want);
}

/// "Byte 0 operation; 1 object; 2 priority; 3 zero; 4-7 number; 8-11 data."
#[test]
fn a_record_has_its_fields_in_order() {
    let want = [3, 4, 5, 0, 0x44, 0x33, 0x22, 0x11, 0xDD, 0xCC, 0xBB, 0xAA];
    assert_eq!(record(3, 4, 5, 0x1122_3344, 0xAABB_CCDD), want);
}

/// "Numbers 0 to 16 are 001's call list." The list is 001's table of calls, in its order; then
/// come Lock, Unlock, Tick and Outcome, order 7's Ticks and Nearest, and order 8's Set priority and
/// Set turn. Order 8: "Operation 3 is gone", which was Set.
#[test]
fn the_operations_have_their_numbers() {
    let in_order = [
        yield_turn(),
        create(0, 0, 0),
        delete(0),
        former_set(0, 0, 0),
        suspend(0),
        resume(0),
        delay(0),
        cancel(0),
        send(0, 0, 0),
        interrupt_send(0, 0),
        receive(0),
        make(0, 0),
        drop_semaphore(0),
        pend(0, 0),
        abort(0),
        post(0, 0),
        interrupt_post(0, 0),
        lock(),
        unlock(),
        tick(),
        outcome_of(0),
        ticks(0),
        nearest(),
        set_priority(0, 0),
        set_turn(0, 0),
    ];
    for (number, record) in in_order.into_iter().enumerate() {
        assert_eq!(usize::from(record[0]), number);
    }
    assert_eq!(usize::from(operation::LAST), in_order.len() - 1);
    let numbers = (0..=24).filter(|&number| number != 3);
    assert!(numbers.eq(operation::EACH));
}

/// "an 8-byte answer area (code as signed 32 bits, then value), and gets the code back as the
/// returned number too"
#[test]
fn an_answer_is_the_code_then_the_value() {
    let mut table = Board::fresh().after(interrupt_send(0, 0x1122_3344)).table;
    let mut area = [0xA5; 8];
    assert_eq!(door(&mut table, &receive(0), &mut area), 0);
    assert_eq!(area, [0, 0, 0, 0, 0x44, 0x33, 0x22, 0x11]);
    assert_eq!(door(&mut table, &receive(0), &mut area), -5);
    assert_eq!(area, [0xFB, 0xFF, 0xFF, 0xFF, 0, 0, 0, 0]);
    assert_eq!(door(&mut table, &[], &mut area), -8);
    assert_eq!(area, [0xF8, 0xFF, 0xFF, 0xFF, 0, 0, 0, 0]);
    assert_eq!(door(&mut table, &outcome_of(0), &mut area), 1);
    assert_eq!(area, [1, 0, 0, 0, 0, 0, 0, 0]);
}

/// Every field of the table, at a value that shows where its bytes are.
#[test]
fn a_busy_table_byte_for_byte() {
    let mut board = Board::fresh();
    board.done(make(7, 0));
    board.done(make(3, 99));
    board.done(create(4, 31, 0x0001_0203));
    board.blocked(pend(7, 0x0001_0405));
    board.done(create(5, 31, 99_999));
    board.behind(pend(7, 100_000), 1);
    board.done(suspend(5));
    board.done(create(15, 30, 1));
    board.done(interrupt_send(15, 0xF1E2_D3C4));
    board.done(create(6, 31, 2));
    board.blocked(send(15, 300, 0x0A0B_0C0D));
    board.done(create(9, 31, 2));
    board.blocked(delay(0x0001_8600));
    board.done(create(10, 31, 2));
    board.blocked(receive(77));
    board.done(interrupt_send(10, 0x9988_7766));
    board.done(suspend(10));
    board.done(create(11, 31, 2));
    board.blocked(receive(77));
    board.done(create(12, 31, 2));
    board.blocked(delay(5));
    board.done(cancel(12));
    board.done(lock());
    board.done(lock());
    board.done(set_turn(12, 0x0001_0000));
    board.done(set_priority(12, 30));

    let mut want = fresh();
    let thread = |narrow: [u8; 8], turn: [u8; 4], counter: [u8; 4], rest: [u8; 8]| {
        [&narrow[..], &turn, &counter, &rest].concat()
    };
    // in use, priority, suspended, wait kind, wait object, place, mailbox full, outcome;
    // turn; counter; mailbox value and parcel.
    put(
        &mut want,
        4,
        &thread(
            [1, 31, 0, 4, 7, 1, 0, 1],
            [3, 2, 1, 0],
            [5, 4, 1, 0],
            [0; 8],
        ),
    );
    put(
        &mut want,
        5,
        &thread(
            [1, 31, 1, 4, 7, 2, 0, 1],
            [0x9F, 0x86, 1, 0],
            [0; 4],
            [0; 8],
        ),
    );
    put(
        &mut want,
        6,
        &thread(
            [1, 31, 0, 3, 15, 1, 0, 1],
            [2, 0, 0, 0],
            [0x2C, 1, 0, 0],
            [0, 0, 0, 0, 0x0D, 0x0C, 0x0B, 0x0A],
        ),
    );
    put(
        &mut want,
        9,
        &thread(
            [1, 31, 0, 1, 0, 0, 0, 1],
            [2, 0, 0, 0],
            [0, 0x86, 1, 0],
            [0; 8],
        ),
    );
    put(
        &mut want,
        10,
        &thread(
            [1, 31, 1, 0, 0, 0, 0, 0],
            [2, 0, 0, 0],
            [0; 4],
            [0, 0, 0, 0, 0x66, 0x77, 0x88, 0x99],
        ),
    );
    put(
        &mut want,
        11,
        &thread(
            [1, 31, 0, 2, 0, 0, 0, 1],
            [2, 0, 0, 0],
            [77, 0, 0, 0],
            [0; 8],
        ),
    );
    put(
        &mut want,
        12,
        &thread(
            [1, 30, 0, 0, 0, 2, 0, 0xFB],
            [0, 0, 1, 0],
            [0, 0, 1, 0],
            [0; 8],
        ),
    );
    put(
        &mut want,
        15,
        &thread(
            [1, 30, 0, 0, 0, 1, 1, 1],
            [1, 0, 0, 0],
            [1, 0, 0, 0],
            [0xC4, 0xD3, 0xE2, 0xF1, 0, 0, 0, 0],
        ),
    );
    put(&mut want, 16 + 3, &[1, 99]);
    put(&mut want, 16 + 7, &[1, 0]);
    // Running thread, lock count; ready word: Init in line 0, threads 12 and 15 in line 30.
    put(&mut want, 24, &[12, 2, 0x01, 0, 0, 0x40]);
    let results = "the second table is the one written by hand";
    assert!(
        board.table == want,
        "{}",
        case(&board.table, &[], &want, results)
    );
}
