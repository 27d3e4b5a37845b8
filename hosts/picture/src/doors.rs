//! The two doors: the rules', which is the model's, and `sends_back` of Incident.antt over it, stated again on the table's bytes.

use model::{at, door, wait, word, AREA, TABLE, THREADS, WIDTH};

use crate::incident::{Record, Rule};

/// A lane that was sent to the back, and what was left of its turn.
#[derive(Clone, Copy, Debug, PartialEq, Eq)]
pub struct SentBack {
    pub thread: usize,
    pub lost: u32,
}

/// A table, and whose rule it goes by.
#[derive(Clone)]
pub struct Board {
    pub table: [u8; TABLE],
    pub rule: Rule,
}

impl Board {
    /// The running thread.
    pub fn running(&self) -> usize {
        usize::from(self.table[at::RUNNING])
    }

    pub fn lock(&self) -> u8 {
        self.table[at::LOCK]
    }

    fn record(&self, i: usize) -> &[u8] {
        &self.table[at::thread(i)..][..WIDTH]
    }

    fn record_mut(&mut self, i: usize) -> &mut [u8] {
        &mut self.table[at::thread(i)..][..WIDTH]
    }

    /// Is thread `i` in the ready line of this rank?
    pub fn is_ready(&self, i: usize, rank: u8) -> bool {
        let record = self.record(i);
        record[at::IN_USE] == 1
            && record[at::SUSPENDED] == 0
            && record[at::WAIT_KIND] == wait::NONE
            && record[at::PRIORITY] == rank
    }

    /// Puts a request to the door: the code, and who was sent to the back.
    pub fn ask(&mut self, request: &Record) -> (i32, Option<SentBack>) {
        self.ask_in(request, &mut [0; AREA])
    }

    /// The same with this area for the answer.
    pub fn ask_in(&mut self, request: &Record, area: &mut [u8; AREA]) -> (i32, Option<SentBack>) {
        let before = self.running();
        let code = door(&mut self.table, request, area);
        let is_sent = self.rule == Rule::Incident && self.broken_off(before);
        (code, is_sent.then(|| self.send_back(before)))
    }

    /// `broken_off`: the thread that was running "is still ready, and outranked by the one that runs now".
    fn broken_off(&self, before: usize) -> bool {
        let rank = self.record(before)[at::PRIORITY];
        self.is_ready(before, rank) && rank < self.record(self.running())[at::PRIORITY]
    }

    /// "then it goes to the tail of its line, with a full counter; all else is as the rules say"
    fn send_back(&mut self, thread: usize) -> SentBack {
        let rank = self.record(thread)[at::PRIORITY];
        let place = self.record(thread)[at::PLACE];
        let line: Vec<usize> = (0..THREADS).filter(|&i| self.is_ready(i, rank)).collect();
        for &i in &line {
            let record = self.record_mut(i);
            if record[at::PLACE] > place {
                record[at::PLACE] -= 1;
            }
        }
        let record = self.record_mut(thread);
        let (turn, lost) = (word(record, at::TURN), word(record, at::COUNTER));
        record[at::PLACE] = line.len() as u8;
        record[at::COUNTER..at::COUNTER + 4].copy_from_slice(&turn.to_le_bytes());
        SentBack { thread, lost }
    }
}
