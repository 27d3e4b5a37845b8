//! Order 4: "From now on Post, from threads and interrupts, answers −5 for number 0 or when the
//! count plus the units left over after the waiters are served is above 99." Every number of
//! waiters, whoever of them is suspended, with the lock off and on. Each call is held to the model
//! and, apart from the model, to the sentence as a formula.

use std::ops::RangeInclusive;

use door::{Answered, Hold, View};
use model::{at, fresh, operation as op, record, show, wait};
use model::{AREA, FOREVER, INIT, SEMAPHORES, TABLE, THREADS};

/// A semaphore and who waits on it.
#[derive(Clone)]
struct Board {
    table: [u8; TABLE],
    semaphore: u8,
    count: u8,
    /// The threads that wait on the semaphore, in their order.
    waiters: Vec<usize>,
}

/// A thread that waits on the semaphore before a call: its wait and its outcome after it, its place
/// if it still waits, and whether it is ready.
type Waiter = ((u8, u8), u8, usize, bool);

/// What comes of a call.
#[derive(Debug, PartialEq, Eq)]
struct Seen {
    code: i32,
    value: u32,
    is_changed: bool,
    count: u64,
    waiters: Vec<Waiter>,
}

impl Board {
    /// So many threads wait on a semaphore that has this count, and Init runs. In the company of
    /// semaphore 0 all other threads wait too, so that their waits have the same object or are of the
    /// same kind. Any other semaphore has no company.
    fn new(semaphore: u8, count: u8, waiters: usize) -> Board {
        let mut threads: Vec<usize> = (1..THREADS).map(|i| i * 7 % THREADS).collect();
        let company = threads.split_off(waiters);
        let mut board = Board {
            table: fresh(),
            semaphore,
            count,
            waiters: threads.clone(),
        };
        (0..SEMAPHORES).for_each(|s| board.make(s));
        board.ask(op::SEND_FROM_INTERRUPT, INIT, 0, 0, 500);
        if semaphore == 0 {
            company.into_iter().for_each(|i| board.keeps_company(i));
        }
        threads.into_iter().for_each(|i| board.pends(i));
        board
    }

    /// A request that is accepted.
    fn ask(&mut self, operation: u8, object: usize, priority: u8, number: u32, data: u32) {
        let record = record(operation, object as u8, priority, number, data);
        let code = model::door(&mut self.table, &record, &mut [0; AREA]);
        assert!(code >= 0, "{record:?} got {code}");
    }

    fn make(&mut self, s: usize) {
        let is_it = s == usize::from(self.semaphore);
        self.ask(op::MAKE, s, 0, if is_it { self.count.into() } else { 0 }, 0);
    }

    fn create(&mut self, i: usize) {
        self.ask(op::CREATE, i, 1 + i as u8 % 5, 4, 0);
    }

    fn pends(&mut self, i: usize) {
        self.create(i);
        self.ask(op::PEND, self.semaphore.into(), 0, FOREVER, 0);
    }

    fn keeps_company(&mut self, i: usize) {
        self.create(i);
        match i % 4 {
            0 => self.ask(op::PEND, 1, 0, FOREVER, 0),
            1 => self.ask(op::SEND, INIT, 0, FOREVER, 77),
            2 => self.ask(op::DELAY, 0, 0, 40, 0),
            _ => self.ask(op::RECEIVE, 0, 0, FOREVER, 0),
        }
    }

    /// The same board with some of the waiters suspended, who stand in a row.
    fn suspended(&self, row: RangeInclusive<usize>) -> Board {
        let mut board = self.clone();
        let suspend = |&i: &usize| board.ask(op::SUSPEND, i, 0, 0, 0);
        self.waiters[row].iter().for_each(suspend);
        board
    }

    fn locked(&self) -> Board {
        let mut board = self.clone();
        board.ask(op::LOCK, 0, 0, 0, 0);
        board
    }

    /// The count after the waiters are served, if that is accepted.
    fn count_after(&self, operation: u8, number: u32) -> Option<u64> {
        let left_over = u64::from(number).saturating_sub(self.waiters.len() as u64);
        let count = u64::from(self.count) + left_over;
        let locked = operation == op::POST_FROM_INTERRUPT && View(&self.table).lock() > 0;
        (number > 0 && count <= 99 && !locked).then_some(count)
    }

    /// What comes of a call by the formula: the first waiters have a unit each, the others move up.
    fn wanted(&self, operation: u8, number: u32) -> Seen {
        let count = self.count_after(operation, number);
        let served = count.map_or(0, |_| number as usize);
        let waiter = |(ahead, &i): (usize, &usize)| match ahead < served {
            true => ((wait::NONE, 0), 0, 0, !View(&self.table).suspended(i)),
            false => {
                let place = ahead + 1 - served;
                ((wait::SEMAPHORE, self.semaphore), 1, place, false)
            }
        };
        Seen {
            code: count.map_or(-5, |_| 0),
            value: 0,
            is_changed: count.is_some(),
            count: count.unwrap_or(self.count.into()),
            waiters: self.waiters.iter().enumerate().map(waiter).collect(),
        }
    }

    /// What came of a call, read off the bytes.
    fn seen(&self, answered: &Answered) -> Seen {
        let after = View(&answered.table);
        let waiter = |&i: &usize| {
            let (wait, ready) = (after.wait(i), after.ready(i));
            let outcome = after.0[at::thread(i) + at::OUTCOME];
            let place = if ready { 0 } else { after.place(i).into() };
            (wait, outcome, place, ready)
        };
        Seen {
            code: answered.code,
            value: model::word(&answered.area, 4),
            is_changed: answered.table != self.table,
            count: after.count(self.semaphore.into()).into(),
            waiters: self.waiters.iter().map(waiter).collect(),
        }
    }
}

/// Calls on boards of semaphore 0 and of semaphore 7.
struct Trial {
    hold: Hold,
    accepted: usize,
    refused: usize,
}

impl Trial {
    fn new(origin: &str) -> Trial {
        Trial {
            hold: Hold::new(origin),
            accepted: 0,
            refused: 0,
        }
    }

    fn put(&mut self, board: &Board, operation: u8, number: u32) {
        let record = record(operation, board.semaphore, 0, number, 0);
        let answered = self.hold.call(&board.table, &record, &[0xA5; AREA]);
        let (seen, wanted) = (board.seen(&answered), board.wanted(operation, number));
        let told = || format!("operation {operation} by {number}, {}", show(&board.table));
        assert_eq!(seen, wanted, "{}", told());
        self.accepted += usize::from(seen.code == 0);
        self.refused += usize::from(seen.code == -5);
    }

    /// A number is posted in four ways: from a thread and from an interrupt, with the lock off and
    /// on.
    fn post(&mut self, board: &Board, locked: &Board, number: u32) {
        for operation in [op::POST, op::POST_FROM_INTERRUPT] {
            self.put(board, operation, number);
            self.put(locked, operation, number);
        }
    }

    fn post_each(&mut self, board: &Board, numbers: &[u32]) {
        let locked = board.locked();
        let post = |&number: &u32| self.post(board, &locked, number);
        numbers.iter().for_each(post);
    }

    /// Posts each of the numbers to both semaphores.
    fn post_both(&mut self, count: u8, waiters: usize, numbers: &[u32]) {
        let boards = [0, 7].map(|s| Board::new(s, count, waiters));
        boards
            .iter()
            .for_each(|board| self.post_each(board, numbers));
    }

    /// Posts the numbers around the limit, of which five are taken, and some far above it.
    fn post_to_suspended(&mut self, waiters: usize, row: RangeInclusive<usize>) {
        let all = waiters as u32;
        let around = [0, all, all + 1].into_iter().chain(all + 97..=all + 102);
        let above = [256, 256 + all, 65_536 + all, (1 << 31) + all, u32::MAX];
        let numbers: Vec<u32> = around.chain(above).collect();
        let boards = [0, 7].map(|s| Board::new(s, 0, waiters).suspended(row.clone()));
        boards
            .iter()
            .for_each(|board| self.post_each(board, &numbers));
    }

    /// To each of the two semaphores so many numbers were posted, of which so many are taken: each in
    /// three of the four ways, since an interrupt posts nothing under lock.
    fn finish(self, numbers: usize, taken: usize) {
        let calls = self.hold.finish();
        assert_eq!(calls, 2 * 4 * numbers);
        assert_eq!(self.accepted, 2 * 3 * taken);
        assert_eq!(self.refused, calls - self.accepted);
    }
}

/// Numbers above every limit: those that would be small without their upper bits, and the top of 32
/// bits, where sums would wrap.
fn far_above(waiters: u32) -> Vec<u32> {
    let around = |power: u32| power - waiters..=power + waiters + 100;
    let cut = [1 << 8, 1 << 16, 1 << 31].into_iter().flat_map(around);
    cut.chain(u32::MAX - 120..=u32::MAX).collect()
}

#[test]
fn every_number_with_every_number_of_waiters() {
    let mut trial = Trial::new("posts to 0 to 15 waiters");
    for waiters in 0..=15 {
        let numbers: Vec<u32> = (0..=99 + waiters + 3).collect();
        trial.post_both(0, waiters as usize, &numbers);
    }
    trial.finish(16 * 103 + 120, 16 * 99 + 120);
}

#[test]
fn every_number_with_nobody_waiting() {
    let mut trial = Trial::new("posts with nobody waiting");
    let numbers: Vec<u32> = (0..=102).collect();
    for count in [0, 1, 50, 98, 99] {
        trial.post_both(count, 0, &numbers);
    }
    trial.finish(5 * 103, 99 + 98 + 49 + 1);
}

/// Each single waiter, and all of them, suspended.
#[test]
fn suspended_waiters_count_as_served() {
    let mut trial = Trial::new("posts to suspended waiters");
    for waiters in 1..=15 {
        let each = (0..waiters).map(|place| place..=place);
        let rows = each.chain((waiters > 1).then_some(0..=waiters - 1));
        rows.for_each(|row| trial.post_to_suspended(waiters, row));
    }
    trial.finish((120 + 14) * 14, (120 + 14) * 5);
}

#[test]
fn numbers_far_above_are_refused() {
    let mut trial = Trial::new("posts of large numbers");
    for waiters in 0..=15 {
        trial.post_both(0, waiters as usize, &far_above(waiters));
    }
    for count in [1, 50, 98, 99] {
        trial.post_both(count, 0, &far_above(0));
    }
    trial.finish(20 * (3 * 101 + 121) + 120 * 6, 0);
}
