//! A recording, replayed by one of the two rules. Each request is put to the model's door; ticks that are done at once are its single
//! ticks, of which those are leapt over in which nothing but turns happens.

use model::{at, code, fresh, operation as op, record, word, AREA, THREADS};
use picture::doors::Board;
use picture::incident::{Record, Rule};

use crate::bands::Bands;
use crate::counts::{Counts, Step};
use crate::view::View;

/// What a line of the trace program says of a request.
#[derive(Clone, Copy, Debug, PartialEq, Eq)]
pub struct Answer {
    pub code: i32,
    pub value: u32,
    /// Who runs after it.
    pub running: usize,
}

/// A replay: where it is, and what is counted so far.
pub struct Replay {
    board: Board,
    view: View,
    counts: Counts,
}

impl Replay {
    /// From a fresh table on.
    pub fn start(rule: Rule, bands: Bands) -> Replay {
        let table = fresh();
        let view = View::of(&table);
        Replay {
            board: Board { table, rule },
            view,
            counts: Counts::start(bands, &view),
        }
    }

    /// The request of this number; `is_slept` where it is an accepted operation 21.
    pub fn serve(&mut self, number: usize, request: &Record, is_slept: bool) -> Answer {
        if !is_slept {
            return self.ask(number, request, (0, 0));
        }
        self.sleep(number, u64::from(word(request, 4)));
        Answer {
            code: code::DONE,
            value: 0,
            running: self.view.running,
        }
    }

    /// What is counted, and the last table.
    pub fn end(mut self, requests: usize) -> (Counts, View) {
        self.counts.end(requests);
        (self.counts, self.view)
    }

    /// Puts a request to the door, or a tick of an operation 21 of which so many are done and so many left.
    fn ask(&mut self, number: usize, request: &Record, (done, left): (u64, u64)) -> Answer {
        let mut area = [0; AREA];
        let (code, _) = self.board.ask_in(request, &mut area);
        let after = View::of(&self.board.table);
        self.counts.step(&Step {
            number,
            request,
            code,
            before: &self.view,
            after: &after,
            done,
            left,
        });
        self.view = after;
        Answer {
            code,
            value: word(&area, 4),
            running: after.running,
        }
    }

    fn sleep(&mut self, number: usize, ticks: u64) {
        let mut left = ticks;
        while left > 0 {
            let leapt = self.leap(left);
            if leapt == 0 {
                let tick = record(op::TICK, 0, 0, 0, 0);
                self.ask(number, &tick, (ticks - left, left - 1));
            }
            left -= leapt.max(1);
        }
    }

    /// Leaps over as many ticks as it can, of at most so many: whole rounds, or a part of a turn, or ticks under lock.
    fn leap(&mut self, left: u64) -> u64 {
        let room = left.min(self.view.quiet());
        if self.view.is_locked {
            self.counts.locked(room);
            self.pass(room);
            return room;
        }
        let running = self.view.running;
        let round = self.view.round();
        let sum: u64 = round.iter().map(|&(_, ticks)| ticks).sum();
        let rounds = room / sum;
        if rounds > 0 {
            self.counts.rounds(&self.view, &round, rounds);
            self.pass(rounds * sum);
            return rounds * sum;
        }
        let turn = self.view.threads[running].counter;
        let part = room.min(turn - 1);
        self.counts.charge(&self.view, running, part);
        self.set_counter(running, turn - part);
        self.pass(part);
        part
    }

    /// So many ticks pass for every timed wait.
    fn pass(&mut self, ticks: u64) {
        for i in 0..THREADS {
            let thread = self.view.threads[i];
            if thread.is_timed() {
                self.set_counter(i, thread.counter - ticks);
            }
        }
        self.view = View::of(&self.board.table);
    }

    fn set_counter(&mut self, i: usize, counter: u64) {
        let from = at::thread(i) + at::COUNTER;
        let counter = u32::try_from(counter).expect("no counter grows");
        self.board.table[from..from + 4].copy_from_slice(&counter.to_le_bytes());
    }
}
