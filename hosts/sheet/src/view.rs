//! What a table says, as far as the sheet asks: who is ready at which rank, whose turn is how long, and who runs.

use model::{at, wait, word, PRIORITIES, TABLE, THREADS, WIDTH};

/// A thread's record.
#[derive(Clone, Copy, Debug, Default, PartialEq, Eq)]
pub struct Thread {
    pub is_used: bool,
    pub rank: usize,
    pub is_suspended: bool,
    /// The kind of its wait, and what it waits for.
    pub wait: u8,
    pub object: u8,
    pub place: u8,
    pub turn: u64,
    /// What is left of its turn, or of its timed wait.
    pub counter: u64,
}

impl Thread {
    fn read(record: &[u8]) -> Thread {
        Thread {
            is_used: record[at::IN_USE] == 1,
            rank: usize::from(record[at::PRIORITY]),
            is_suspended: record[at::SUSPENDED] == 1,
            wait: record[at::WAIT_KIND],
            object: record[at::WAIT_OBJECT],
            place: record[at::PLACE],
            turn: u64::from(word(record, at::TURN)),
            counter: u64::from(word(record, at::COUNTER)),
        }
    }

    pub fn is_ready(&self) -> bool {
        self.is_used && !self.is_suspended && self.wait == wait::NONE
    }

    /// It waits, and not for ever.
    pub fn is_timed(&self) -> bool {
        self.wait != wait::NONE && self.counter > 0
    }
}

/// A set of threads, a bit for each by its number.
pub type Set = u32;

/// The numbers of a set's threads.
pub fn numbers(set: Set) -> impl Iterator<Item = usize> {
    (0..THREADS).filter(move |i| set >> i & 1 == 1)
}

/// A table, read.
#[derive(Clone, Copy, Debug)]
pub struct View {
    pub threads: [Thread; THREADS],
    pub running: usize,
    pub is_locked: bool,
    /// The ready set of each rank.
    pub sets: [Set; PRIORITIES],
}

impl View {
    pub fn of(table: &[u8; TABLE]) -> View {
        let mut threads = [Thread::default(); THREADS];
        let mut sets = [0; PRIORITIES];
        for (i, thread) in threads.iter_mut().enumerate() {
            *thread = Thread::read(&table[at::thread(i)..][..WIDTH]);
            if thread.is_ready() {
                sets[thread.rank] |= 1 << i;
            }
        }
        View {
            threads,
            running: usize::from(table[at::RUNNING]),
            is_locked: table[at::LOCK] > 0,
            sets,
        }
    }

    /// The rank of the running thread.
    pub fn top(&self) -> usize {
        self.threads[self.running].rank
    }

    /// Ticks that end no wait, if only ticks come.
    pub fn quiet(&self) -> u64 {
        let timed = self.threads.iter().filter(|thread| thread.is_timed());
        timed
            .map(|thread| thread.counter - 1)
            .min()
            .unwrap_or(u64::MAX)
    }

    /// A round of the running thread's rank from here on, if no wait ends in it: the threads by turns, each with its ticks, so that the
    /// table after it is as before it but for the waits. The scheduler is not locked, so that the running thread is the first of its line;
    /// those behind it have whole turns.
    pub fn round(&self) -> Vec<(usize, u64)> {
        let mut line: Vec<usize> = numbers(self.sets[self.top()]).collect();
        line.sort_unstable_by_key(|&i| self.threads[i].place);
        let first = self.threads[self.running];
        let behind = line.iter().filter(|&&i| i != self.running);
        let mut round = vec![(self.running, first.counter)];
        round.extend(behind.map(|&i| (i, self.threads[i].turn)));
        round.push((self.running, first.turn - first.counter));
        round
    }
}
