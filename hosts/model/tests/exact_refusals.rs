//! "Given exactly when": the code of every request on random sound tables, against the two tables
//! of document 01 and the refusals of the orders written out once more, as conditions on the bytes in
//! their order.

mod common;

use common::*;
use model::{random_record, random_sound, word, Rng};

/// The fields of a request and what the conditions ask of the table.
struct Asked<'a> {
    table: &'a [u8],
    operation: u8,
    object: usize,
    priority: u8,
    number: u32,
}

impl Asked<'_> {
    /// A byte of the thread named as object, 0 where there is none.
    fn thread(&self, offset: usize) -> u8 {
        match self.object {
            0..=15 => self.table[self.object * 24 + offset],
            _ => 0,
        }
    }

    /// A byte of the semaphore named as object, 0 where there is none.
    fn semaphore(&self, offset: usize) -> u8 {
        match self.object {
            0..=7 => self.table[(16 + self.object) * 24 + offset],
            _ => 0,
        }
    }

    fn running(&self) -> usize {
        usize::from(self.table[576])
    }

    fn locked(&self) -> bool {
        self.table[577] > 0
    }

    fn number_is_no_turn(&self) -> bool {
        self.number == 0 || self.number > 99_999
    }

    fn cannot_wait(&self) -> bool {
        self.number == 0 || self.running() == 0 || self.locked()
    }

    fn init_or_running_under_lock(&self) -> bool {
        self.object == 0 || (self.object == self.running() && self.locked())
    }

    /// How many threads wait on the semaphore named as object, suspended or not.
    fn waiters(&self) -> u64 {
        let threads = self.table[..16 * 24].chunks(24);
        let waits = |record: &&[u8]| record[3] == 4 && usize::from(record[4]) == self.object;
        threads.filter(waits).count() as u64
    }

    /// Order 4: "when the count plus the units left over after the waiters are served is above 99".
    /// Where fewer units come than threads wait, the count is 0 and nothing is left over.
    fn too_many(&self) -> bool {
        u64::from(self.semaphore(1)) + u64::from(self.number) > 99 + self.waiters()
    }

    fn own_mailbox_is_empty(&self) -> bool {
        self.table[self.running() * 24 + 6] == 0
    }

    /// Whether the call waits if it is not refused.
    fn waits(&self) -> bool {
        match self.operation {
            6 => true,
            8 => self.thread(6) == 1,
            10 => self.own_mailbox_is_empty(),
            13 => self.semaphore(1) == 0,
            _ => false,
        }
    }

    /// The refusals of the operation in document 01's order, each with its condition.
    fn refusals(&self) -> Vec<(bool, i32)> {
        let no_thread = (self.thread(0) == 0, -1);
        let no_semaphore = (self.semaphore(0) == 0, -6);
        let priority = (self.priority > 31, -2);
        let turn = (self.number_is_no_turn(), -3);
        let suspended = self.thread(2) == 1;
        let kind = self.thread(3);
        let full = self.thread(6) == 1;
        let waits_in_vain = self.waits() && self.cannot_wait();
        let to_oneself = self.object == self.running();
        let not_free = (self.object > 15 || self.thread(0) == 1, -1);
        let made = (self.object > 7 || self.semaphore(0) == 1, -6);
        let no_units = self.number == 0 || self.too_many();
        match self.operation {
            1 => vec![priority, turn, not_free],
            2 => vec![no_thread, (self.init_or_running_under_lock(), -5)],
            4 => {
                let kept = (self.init_or_running_under_lock(), -5);
                vec![no_thread, (suspended, -4), kept]
            }
            5 => vec![no_thread, (!suspended, -4)],
            6 => vec![turn, (waits_in_vain, -5)],
            7 => vec![no_thread, (kind != 1, -4)],
            8 => vec![no_thread, (to_oneself || waits_in_vain, -5)],
            9 => vec![no_thread, (self.locked() || full, -5)],
            10 => vec![(waits_in_vain, -5)],
            11 => vec![made, (self.number > 99, -5)],
            12 => vec![no_semaphore],
            13 => vec![no_semaphore, (waits_in_vain, -5)],
            14 => vec![no_thread, (kind != 4, -4)],
            15 => vec![no_semaphore, (no_units, -5)],
            16 => vec![no_semaphore, (no_units || self.locked(), -5)],
            17 => vec![(self.table[577] == 255, -5)],
            18 => vec![(self.table[577] == 0, -5)],
            20 => vec![no_thread],
            21 => vec![turn],
            23 => vec![priority, no_thread, (self.object == 0, -5)],
            24 => vec![turn, no_thread, (self.object == 0, -5)],
            _ => vec![],
        }
    }
}

/// The operations that use the object, the priority, the number and the data.
const OBJECT: &[u8] = &[1, 2, 4, 5, 7, 8, 9, 11, 12, 13, 14, 15, 16, 20, 23, 24];
const PRIORITY: &[u8] = &[1, 23];
const NUMBER: &[u8] = &[1, 6, 8, 10, 11, 13, 15, 16, 21, 24];
const DATA: &[u8] = &[8, 9];

fn is_malformed(record: &[u8; 12]) -> bool {
    let unused = |users: &[u8], field: &[u8]| {
        !users.contains(&record[0]) && field.iter().any(|&byte| byte != 0)
    };
    record[0] == 3
        || record[0] > 24
        || record[3] != 0
        || unused(OBJECT, &record[1..2])
        || unused(PRIORITY, &record[2..3])
        || unused(NUMBER, &record[4..8])
        || unused(DATA, &record[8..12])
}

/// The code that document 01's tables and the orders give, from the bytes.
fn code(table: &[u8], record: &[u8; 12]) -> i32 {
    if is_malformed(record) {
        return -8;
    }
    let asked = Asked {
        table,
        operation: record[0],
        object: usize::from(record[1]),
        priority: record[2],
        number: word(record, 4),
    };
    let refusals = asked.refusals();
    let refused = refusals.iter().find(|(holds, _)| *holds);
    match refused {
        Some((_, code)) => *code,
        None if record[0] == 20 => i32::from(asked.thread(7) as i8),
        None => i32::from(asked.waits()),
    }
}

#[test]
fn each_code_is_given_exactly_when_its_condition_holds() {
    let mut rng = Rng::new(4);
    for _ in 0..60_000 {
        let mut board = Board {
            table: random_sound(&mut rng),
        };
        for _ in 0..5 {
            let before = board.table;
            let record = random_record(&mut rng, &before);
            let want = code(&before, &record);
            let (got, _) = board.ask(&record);
            let results = format!("got {got}, want {want}");
            assert!(
                got == want,
                "{}",
                case(&before, &record, &board.table, &results)
            );
        }
    }
}

/// The boundaries of a number. With 0 to 15 waiters the most that Post takes is 99 to 114.
fn numbers() -> impl Iterator<Item = u32> {
    let few = [0, 1, 98, 256, 271, 99_999, 100_000, u32::MAX - 98, u32::MAX];
    few.into_iter().chain(99..=115)
}

/// The boards on which every object and boundary is asked for.
fn boards() -> Vec<Board> {
    let mut rng = Rng::new(5);
    let random = (0..12).map(|_| Board {
        table: random_sound(&mut rng),
    });
    let mut boards: Vec<Board> = random.collect();
    boards.extend([Board::fresh(), busy(), busy_locked(), busy_init()]);
    boards.extend([0, 1, 3, 14, 15].map(|number| waiters(number, &[])));
    boards.extend([waiters(3, &[2]), waiters(15, &[1, 7, 15])]);
    boards.push(waiters(3, &[1, 2, 3]).after(lock()));
    boards
}

/// Every operation on every object with the boundaries of number and priority, on a few tables.
#[test]
fn each_code_on_every_object_and_boundary() {
    for board in boards() {
        for operation in 0..=25 {
            let objects = if OBJECT.contains(&operation) { 18 } else { 2 };
            for object in 0..objects {
                for priority in [0, 31, 32] {
                    for number in numbers() {
                        let record = model::record(operation, object, priority, number, 0);
                        let want = code(&board.table, &record);
                        let (got, _) = board.clone().ask(&record);
                        let results = format!("got {got}, want {want}");
                        let case = || case(&board.table, &record, &[], &results);
                        assert!(got == want, "{}", case());
                    }
                }
            }
        }
    }
}
