//! What the tests share: a board that puts requests to the door and checks what holds for every
//! answer, the requests by their names, a busy board with a thread in every state, one on which
//! threads wait on a semaphore, cases of the report, the steps of a trace, and Set as it was.

#![allow(dead_code)]

pub mod case;
pub mod former;
mod requests;
pub mod steps;

pub use requests::*;

use model::{at, code, door, fresh, operation as op, show, show_record, sound, word};
use model::{AREA, TABLE, WIDTH};

/// What the answer area holds before a call; the door writes all of it or none.
pub const UNWRITTEN: [u8; AREA] = [0xA5; AREA];

/// A table and the door to it.
#[derive(Clone)]
pub struct Board {
    pub table: [u8; TABLE],
}

/// A thread's record in use, field by field.
#[derive(Clone, Debug, PartialEq, Eq)]
pub struct Seen {
    pub priority: u8,
    pub suspended: bool,
    pub wait: (u8, u8),
    pub place: u8,
    pub mailbox: Option<u32>,
    pub outcome: i8,
    pub turn: u32,
    pub counter: u32,
    pub parcel: u32,
}

/// A case as a person wants to see it when it fails.
pub fn case(before: &[u8], record: &[u8], after: &[u8], results: &str) -> String {
    let (before, after) = (show(before), show(after));
    let record = show_record(record);
    format!("{results}\n{record}\nbefore: {before}after: {after}")
}

impl Board {
    pub fn fresh() -> Board {
        Board { table: fresh() }
    }

    /// Puts a record to the door. Every answer is the returned number and in the area; a refusal
    /// has value 0 and leaves the table alone; the table stays sound.
    pub fn ask(&mut self, record: &[u8]) -> (i32, u32) {
        let before = self.table;
        let mut area = UNWRITTEN;
        let code = door(&mut self.table, record, &mut area);
        let answer = (word(&area, 0) as i32, word(&area, 4));
        let results = format!("returned {code}, area {answer:?}");
        let case = || case(&before, record, &self.table, &results);
        assert_eq!(
            code,
            answer.0,
            "the returned number is the code\n{}",
            case()
        );
        assert!(sound(&self.table), "the table stays sound\n{}", case());
        if code < 0 {
            assert_eq!(answer.1, 0, "a refusal has value 0\n{}", case());
            assert!(before == self.table, "a refusal writes nothing\n{}", case());
        }
        answer
    }

    /// The answer is exactly this code and value.
    pub fn expect(&mut self, record: [u8; 12], want: (i32, u32)) {
        let before = self.table;
        let got = self.ask(&record);
        let results = format!("got {got:?}, want {want:?}");
        assert!(
            got == want,
            "{}",
            case(&before, &record, &self.table, &results)
        );
    }

    /// The request is done, with value 0.
    pub fn done(&mut self, record: [u8; 12]) {
        self.expect(record, (code::DONE, 0));
    }

    /// The caller is blocked, with value 0.
    pub fn blocked(&mut self, record: [u8; 12]) {
        self.behind(record, 0);
    }

    /// The caller is blocked, with so many threads ahead of it.
    pub fn behind(&mut self, record: [u8; 12], ahead: u32) {
        self.expect(record, (code::BLOCKED, ahead));
    }

    /// The request is refused with this code.
    pub fn refused(&mut self, record: [u8; 12], code: i32) {
        self.expect(record, (code, 0));
    }

    /// The board after the request, which is done with value 0.
    pub fn after(&self, record: [u8; 12]) -> Board {
        let mut board = self.clone();
        board.done(record);
        board
    }

    pub fn ticks(&mut self, number: usize) {
        for _ in 0..number {
            self.done(tick());
        }
    }

    /// What demand 3 counts of this record. Order 7: "Demand 3 counts an accepted operation 21 as
    /// its single ticks"; every other record counts as itself.
    pub fn singles(&self, record: &[u8; 12]) -> Vec<[u8; 12]> {
        let is_ticks = record[0] == op::TICKS && self.clone().ask(record).0 == code::DONE;
        match is_ticks {
            true => vec![tick(); word(record, 4) as usize],
            false => vec![*record],
        }
    }

    pub fn running(&self) -> usize {
        usize::from(self.table[at::RUNNING])
    }

    pub fn lock(&self) -> u8 {
        self.table[at::LOCK]
    }

    pub fn ready_word(&self) -> u32 {
        word(&self.table, at::READY_WORD)
    }

    pub fn count(&self, s: usize) -> u8 {
        self.table[at::semaphore(s) + at::COUNT]
    }

    pub fn record(&self, index: usize) -> &[u8] {
        &self.table[index * WIDTH..][..WIDTH]
    }

    /// Thread `i`, which is in use.
    pub fn seen(&self, i: usize) -> Seen {
        let record = self.record(i);
        assert_eq!(record[0], 1, "thread {i} is in use");
        Seen {
            priority: record[1],
            suspended: record[2] == 1,
            wait: (record[3], record[4]),
            place: record[5],
            mailbox: (record[6] == 1).then(|| word(record, 16)),
            outcome: record[7] as i8,
            turn: word(record, 8),
            counter: word(record, 12),
            parcel: word(record, 20),
        }
    }

    /// The places of these threads.
    pub fn places<const N: usize>(&self, threads: [usize; N]) -> [u8; N] {
        threads.map(|i| self.seen(i).place)
    }

    pub fn is_free(&self, i: usize) -> bool {
        self.record(i).iter().all(|&byte| byte == 0)
    }

    /// Every record but these is as it was; 24 stands for the kernel's.
    pub fn only_changed(&self, before: &Board, changed: &[usize]) {
        for index in 0..TABLE / WIDTH {
            if !changed.contains(&index) {
                assert_eq!(self.record(index), before.record(index), "record {index}");
            }
        }
    }
}

/// A board with a thread in every state, made by accepted requests:
/// 1 runs (priority 5, turn 3); 2 is ready with a full mailbox (priority 4, turn 4, value 22);
/// 3 is suspended; 4 is in a delay of 50; 5 receives; 6 sends 66 to thread 2; 7 waits on
/// semaphore 0; semaphores 0, 1 and 2 have counts 0, 99 and 1; all else is free.
pub fn busy() -> Board {
    let mut board = Board::fresh();
    board.done(make(0, 0));
    board.done(make(1, 99));
    board.done(make(2, 1));
    board.done(create(4, 20, 7));
    board.blocked(delay(50));
    board.done(create(5, 20, 7));
    board.blocked(receive(100_000));
    board.done(create(7, 20, 7));
    board.blocked(pend(0, 100_000));
    board.done(create(2, 4, 4));
    board.done(interrupt_send(2, 22));
    board.done(create(6, 20, 7));
    board.blocked(send(2, 100_000, 66));
    board.done(create(3, 20, 7));
    board.done(suspend(3));
    board.done(create(1, 5, 3));
    assert_eq!(board.running(), 1);
    board
}

/// The busy board under lock.
pub fn busy_locked() -> Board {
    busy().after(lock())
}

/// The busy board with threads 1 and 2 suspended, so that Init runs.
pub fn busy_init() -> Board {
    let board = busy().after(suspend(2)).after(suspend(1));
    assert_eq!(board.running(), 0);
    board
}

/// Threads 1 to `number` wait on semaphore 4, in this order, and these of them are suspended; Init
/// runs.
pub fn waiters(number: u8, suspended: &[u8]) -> Board {
    let mut board = Board::fresh().after(make(4, 0));
    for i in 1..=number {
        board.done(create(i, 20 - i, 7));
        board.behind(pend(4, 100_000), u32::from(i) - 1);
    }
    let suspend = |board: Board, &i: &u8| board.after(suspend(i));
    let board = suspended.iter().fold(board, suspend);
    assert_eq!(board.running(), 0);
    board
}
