//! Order 6: "Keep a 32-bit word in kernel bytes 2 to 5, bit p set exactly when ready line p has a
//! member". The words that each operation leaves are written out by hand.

mod common;

use std::collections::BTreeSet;

use common::*;
use model::{at, door, fresh, operation, random_sound, show, Rng};

/// Accepted requests, and the ready lines whose bits are set after each.
type Rows = Vec<([u8; 12], &'static [u32])>;

/// The word that has these bits.
fn bits(lines: &[u32]) -> u32 {
    lines.iter().fold(0, |word, line| word | 1 << line)
}

/// The request is accepted, and leaves the bits of these lines.
fn leaves(board: &Board, record: [u8; 12], lines: &[u32]) {
    let mut after = board.clone();
    let code = after.ask(&record).0;
    let (got, want) = (after.ready_word(), bits(lines));
    let results = format!("got {code}, the word is {got:#x}, wanted {want:#x}");
    assert!(
        code >= 0 && got == want,
        "{}",
        case(&board.table, &record, &after.table, &results)
    );
}

/// "Keep a 32-bit word in kernel bytes 2 to 5": thread 9 stands in each line in turn, and Init in
/// line 0.
#[test]
fn each_line_has_its_bit_lowest_byte_first() {
    for priority in 0..32 {
        let board = Board::fresh().after(create(9, priority, 1));
        let mut kernel = [0; 24];
        kernel[0] = if priority > 0 { 9 } else { 0 };
        kernel[2] = 1;
        kernel[2 + usize::from(priority / 8)] |= 1 << (priority % 8);
        assert_eq!(board.record(24), kernel, "priority {priority}");
    }
}

#[test]
fn many_lines_have_their_bits_at_once() {
    let odd = |board: Board, i: u8| board.after(create(i, 2 * i + 1, 1));
    let board = (1..16).fold(Board::fresh(), odd);
    assert_eq!(board.record(24)[2..6], [0xA9, 0xAA, 0xAA, 0xAA]);
}

/// "A fresh table now holds 1 there."
#[test]
fn a_fresh_table_holds_1() {
    assert_eq!(fresh()[578..582], [1, 0, 0, 0]);
}

/// The busy board has one member in each of the lines 0, 4 and 5; all others are of priority 20.
fn on_busy() -> Rows {
    vec![
        (yield_turn(), &[0, 4, 5]),
        (create(8, 31, 1), &[0, 4, 5, 31]),
        (create(8, 5, 1), &[0, 4, 5]),
        (delete(1), &[0, 4]),
        (delete(2), &[0, 5, 20]),
        (delete(3), &[0, 4, 5]),
        (delete(7), &[0, 4, 5]),
        (suspend(1), &[0, 4]),
        (suspend(7), &[0, 4, 5]),
        (resume(3), &[0, 4, 5, 20]),
        (delay(9), &[0, 4]),
        (cancel(4), &[0, 4, 5, 20]),
        (send(2, 9, 77), &[0, 4]),
        (send(3, 9, 77), &[0, 4, 5]),
        (send(5, 9, 77), &[0, 4, 5, 20]),
        (interrupt_send(3, 77), &[0, 4, 5]),
        (interrupt_send(5, 77), &[0, 4, 5, 20]),
        (receive(9), &[0, 4]),
        (make(3, 1), &[0, 4, 5]),
        (drop_semaphore(0), &[0, 4, 5, 20]),
        (drop_semaphore(1), &[0, 4, 5]),
        (pend(0, 9), &[0, 4]),
        (pend(2, 9), &[0, 4, 5]),
        (abort(7), &[0, 4, 5, 20]),
        (post(0, 1), &[0, 4, 5, 20]),
        (post(2, 1), &[0, 4, 5]),
        (interrupt_post(0, 1), &[0, 4, 5, 20]),
        (interrupt_post(2, 1), &[0, 4, 5]),
        (lock(), &[0, 4, 5]),
        (tick(), &[0, 4, 5]),
        (outcome_of(1), &[0, 4, 5]),
        (ticks(49), &[0, 4, 5]),
        (ticks(50), &[0, 4, 5, 20]),
        (nearest(), &[0, 4, 5]),
        (set_priority(1, 9), &[0, 4, 9]),
        (set_priority(1, 4), &[0, 4]),
        (set_priority(1, 5), &[0, 4, 5]),
        (set_priority(3, 9), &[0, 4, 5]),
        (set_priority(7, 9), &[0, 4, 5]),
        (set_turn(1, 9), &[0, 4, 5]),
        (set_turn(3, 9), &[0, 4, 5]),
        (set_turn(7, 9), &[0, 4, 5]),
    ]
}

/// The wait of a suspended thread ends, and the thread does not enter its ready line.
fn on_suspended() -> Rows {
    vec![
        (delete(2), &[0, 5]),
        (resume(7), &[0, 4, 5]),
        (cancel(4), &[0, 4, 5]),
        (send(5, 9, 77), &[0, 4, 5]),
        (interrupt_send(5, 77), &[0, 4, 5]),
        (drop_semaphore(0), &[0, 4, 5]),
        (abort(7), &[0, 4, 5]),
        (post(0, 1), &[0, 4, 5]),
        (interrupt_post(0, 1), &[0, 4, 5]),
    ]
}

/// Thread 8 stands behind thread 1 in line 5, which has a member whichever of the two goes.
fn on_two() -> Rows {
    vec![
        (delete(1), &[0, 4, 5]),
        (delete(8), &[0, 4, 5]),
        (set_priority(1, 31), &[0, 4, 5, 31]),
        (set_priority(8, 4), &[0, 4, 5]),
        (suspend(1), &[0, 4, 5]),
        (suspend(8), &[0, 4, 5]),
        (delay(9), &[0, 4, 5]),
        (send(2, 9, 77), &[0, 4, 5]),
        (receive(9), &[0, 4, 5]),
        (pend(0, 9), &[0, 4, 5]),
    ]
}

/// "Every operation keeps it true"
#[test]
fn every_operation_keeps_it_true() {
    let suspended = [4, 5, 6, 7].into_iter();
    let suspended = suspended.fold(busy(), |board, i| board.after(suspend(i)));
    // Thread 2 runs, to which thread 6 sends.
    let served = busy().after(suspend(1));
    // The delay of thread 4 has a tick left.
    let mut ending = busy();
    ending.ticks(49);
    let boards: [(Board, Rows); 8] = [
        (busy(), on_busy()),
        (suspended, on_suspended()),
        (busy().after(create(8, 5, 1)), on_two()),
        (busy_locked(), vec![(unlock(), &[0, 4, 5])]),
        (served.clone(), vec![(receive(9), &[0, 4, 20])]),
        (served.after(suspend(6)), vec![(receive(9), &[0, 4])]),
        (ending.clone(), vec![(tick(), &[0, 4, 5, 20])]),
        (ending.after(suspend(4)), vec![(tick(), &[0, 4, 5])]),
    ];
    let mut operations = BTreeSet::new();
    for (board, rows) in boards {
        for (record, lines) in rows {
            leaves(&board, record, lines);
            operations.insert(record[0]);
        }
    }
    assert!(operations.into_iter().eq(operation::EACH));
}

/// "exactly when ready line p has a member": the first of three goes, then the last, then the one
/// that is left, and one comes back.
#[test]
fn the_bit_goes_with_the_last_member_and_comes_with_the_first() {
    let three = |board: Board, i: u8| board.after(create(i, 7, 4));
    let mut board = (1..=3).fold(Board::fresh(), three);
    for (record, lines) in [
        (suspend(1), &[0, 7][..]),
        (suspend(3), &[0, 7]),
        (suspend(2), &[0]),
        (resume(3), &[0, 7]),
        (resume(1), &[0, 7]),
    ] {
        board.done(record);
        assert_eq!(board.ready_word(), bits(lines), "{record:?}");
    }
}

/// "find the top line by the count of leading zeros of that word": with lock 0 it is the running
/// thread's line. Init is always ready, so the word is never 0.
#[test]
fn the_leading_zeros_give_the_running_threads_line() {
    let mut rng = Rng::new(9);
    let mut met = BTreeSet::new();
    for _ in 0..20_000 {
        let board = Board {
            table: random_sound(&mut rng),
        };
        let word = board.ready_word();
        assert!(word & 1 == 1, "{}", show(&board.table));
        if board.lock() == 0 {
            let top = 31 - word.leading_zeros();
            let priority = board.seen(board.running()).priority;
            assert_eq!(top, u32::from(priority), "{}", show(&board.table));
            met.insert(top);
        }
    }
    assert!(met.into_iter().eq(0..32));
}

/// "−7 also for tables saved earlier", in which kernel bytes 2 to 5 are zero: nothing is written.
#[test]
fn tables_saved_earlier_are_refused_and_left_alone() {
    let mut rng = Rng::new(10);
    let some = (0..1_000).map(|_| random_sound(&mut rng));
    let tables: Vec<_> = some.chain([fresh(), busy().table]).collect();
    for mut table in tables {
        table[at::READY_WORD..at::READY_WORD + 4].fill(0);
        let before = table;
        let mut area = UNWRITTEN;
        let code = door(&mut table, &tick(), &mut area);
        assert_eq!(code, -7, "{}", show(&before));
        assert!(table == before && area == UNWRITTEN, "{}", show(&before));
    }
}
