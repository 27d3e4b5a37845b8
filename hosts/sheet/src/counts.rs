//! What is counted over a replay: each thread's ticks, band by band and since its creation, where a higher rank broke in, how far each lane
//! is from its share over time, and the stretches of each rank.

use model::{code, operation as op, INIT, PRIORITIES, RECORD, THREADS};

use crate::bands::{Bands, Course, Value};
use crate::ending::{disturbance, Ending};
use crate::stretch::Stretch;
use crate::stretches::Stretches;
use crate::view::View;

/// A request or a single tick, with the tables before and after it.
pub struct Step<'a> {
    pub number: usize,
    pub request: &'a [u8; RECORD],
    pub code: i32,
    pub before: &'a View,
    pub after: &'a View,
    /// Of an operation 21, its ticks before this one and those behind it.
    pub done: u64,
    pub left: u64,
}

/// A thread over time.
#[derive(Clone, Debug)]
pub struct Row {
    /// The ticks charged to it in each band.
    pub ticks: Vec<u64>,
    /// All of them, in all of its lives.
    pub total: u64,
    /// Is it broken into in this band? And how often in all?
    pub breaks: Vec<bool>,
    pub broken: u64,
    /// How far it is from its share, in ticks, where it shares its rank.
    pub course: Course,
}

/// A stretch that goes on, and up to which tick its courses are drawn.
struct Current {
    stretch: Stretch,
    drawn: u64,
}

/// The counts of a replay.
pub struct Counts {
    pub bands: Bands,
    pub rows: Vec<Row>,
    /// The ticks under lock in each band.
    pub locked: Vec<u64>,
    /// "the ticks charged to it since its creation (Init: since the start)"
    pub accounts: [u64; THREADS],
    pub stretches: Stretches,
    current: [Option<Current>; PRIORITIES],
    /// The ticks so far.
    now: u64,
}

impl Counts {
    pub fn start(bands: Bands, view: &View) -> Counts {
        let row = Row {
            ticks: vec![0; bands.count()],
            total: 0,
            breaks: vec![false; bands.count()],
            broken: 0,
            course: Course::new(bands),
        };
        let mut counts = Counts {
            bands,
            rows: vec![row; THREADS],
            locked: vec![0; bands.count()],
            accounts: [0; THREADS],
            stretches: Stretches::default(),
            current: Default::default(),
            now: 0,
        };
        counts.begin(view.threads[INIT].rank, view, 0);
        counts
    }

    /// A step. One that ends a stretch belongs to none of that rank.
    pub fn step(&mut self, step: &Step) {
        let (before, after) = (step.before, step.after);
        let is_tick = step.request[0] == op::TICK && step.code == code::DONE;
        let disturbed = disturbance(before, step.request, step.code);
        let ends: Vec<usize> = (0..PRIORITIES)
            .filter(|&rank| {
                let is_disturbed =
                    disturbed.is_some_and(|(thread, _)| before.threads[thread].rank == rank);
                before.sets[rank] != after.sets[rank] || is_disturbed
            })
            .collect();
        for &rank in &ends {
            let ending = Ending::of(rank, before, after, disturbed);
            let is_inside = step.done > 0;
            let ending = Ending {
                is_tick,
                is_inside,
                ..ending
            };
            self.finish(rank, step.number, ending);
        }
        match (is_tick, before.is_locked) {
            (true, true) => self.locked(1),
            (true, false) => self.charge(before, before.running, 1),
            _ => {}
        }
        if step.request[0] == op::CREATE && step.code == code::DONE {
            self.accounts[usize::from(step.request[1])] = 0;
        }
        self.break_in(before, after);
        let next = step.number + usize::from(step.left == 0);
        for rank in ends {
            self.begin(rank, after, next);
        }
    }

    /// The thread that ran is still ready, and outranked by the one that runs now.
    fn break_in(&mut self, before: &View, after: &View) {
        let was = after.threads[before.running];
        if was.is_ready() && was.rank < after.top() {
            let row = &mut self.rows[before.running];
            row.broken += 1;
            let band = self
                .bands
                .at(self.now)
                .min(self.bands.count().saturating_sub(1));
            if let Some(mark) = row.breaks.get_mut(band) {
                *mark = true;
            }
        }
    }

    /// Ticks under lock, which are charged to nobody.
    pub fn locked(&mut self, ticks: u64) {
        for piece in self.bands.pieces(self.now, self.now + ticks) {
            self.locked[piece.band] += piece.to - piece.from;
        }
        self.now += ticks;
    }

    /// Ticks that are charged to this thread.
    pub fn charge(&mut self, view: &View, thread: usize, ticks: u64) {
        let (from, to) = (self.now, self.now + ticks);
        for piece in self.bands.pieces(from, to) {
            self.rows[thread].ticks[piece.band] += piece.to - piece.from;
        }
        self.rows[thread].total += ticks;
        self.accounts[thread] += ticks;
        self.now = to;
        let rank = view.threads[thread].rank;
        if let Some(current) = &mut self.current[rank] {
            current.charge(&mut self.rows, thread, (from, to));
        }
    }

    /// Whole rounds, from the moment at which the first of them begins; each is as `round` says.
    pub fn rounds(&mut self, view: &View, round: &[(usize, u64)], rounds: u64) {
        let sum: u64 = round.iter().map(|&(_, ticks)| ticks).sum();
        let mut left = rounds;
        while left > 0 {
            let before = self.uneven(view.top());
            // the second shows how long each lane waits from the one to the other
            let shown = left.min(2);
            for _ in 0..shown {
                for &(thread, ticks) in round {
                    self.charge(view, thread, ticks);
                }
            }
            left -= shown;
            // the rounds that end in the same band are as these
            let same = left.min((self.bands.room(self.now) - 1) / sum);
            let was_uneven = self.uneven(view.top()) > before;
            self.repeat(view, round, same, was_uneven);
            left -= same;
        }
    }

    fn uneven(&self, rank: usize) -> u64 {
        let current = self.current[rank].as_ref();
        current.map_or(0, |current| current.stretch.uneven)
    }

    /// Rounds within a band, after two that have shown how far each lane gets in them and how long it waits.
    fn repeat(&mut self, view: &View, round: &[(usize, u64)], rounds: u64, was_uneven: bool) {
        if rounds == 0 {
            return;
        }
        let band = self.bands.at(self.now);
        for &(thread, ticks) in round {
            self.rows[thread].ticks[band] += ticks * rounds;
            self.rows[thread].total += ticks * rounds;
            self.accounts[thread] += ticks * rounds;
            self.now += ticks * rounds;
        }
        if let Some(current) = &mut self.current[view.top()] {
            current.show(&mut self.rows, round, band);
            current.stretch.repeat(rounds, was_uneven);
            current.drawn = self.now;
        }
    }

    fn begin(&mut self, rank: usize, view: &View, first: usize) {
        if view.sets[rank] == 0 {
            return;
        }
        let stretch = Stretch::start(rank, view, first);
        if stretch.is_shared() {
            for member in &stretch.members {
                self.rows[member.thread].course.begin();
            }
        }
        self.current[rank] = Some(Current {
            stretch,
            drawn: self.now,
        });
    }

    fn finish(&mut self, rank: usize, number: usize, ending: Ending) {
        if let Some(mut current) = self.current[rank].take() {
            current.hold(&mut self.rows, self.now);
            current.stretch.last = number;
            current.stretch.ending = ending;
            self.stretches.keep(current.stretch);
        }
    }

    /// The recording ends after so many requests.
    pub fn end(&mut self, requests: usize) {
        for rank in 0..PRIORITIES {
            self.finish(rank, requests, Ending::default());
        }
    }
}

impl Current {
    /// Draws what happens to each lane from the one tick up to the other, while these are charged to one thread.
    fn charge(&mut self, rows: &mut [Row], thread: usize, (from, to): (u64, u64)) {
        self.hold(rows, from);
        let before = self.distances();
        self.stretch.charge(thread, to - from);
        if self.stretch.is_shared() && from < to {
            let after = self.distances();
            for (&(i, first, bound), (_, last, _)) in before.iter().zip(after) {
                rows[i].course.go((from, to), (first, last), bound);
            }
        }
        self.drawn = to;
    }

    /// Draws that nothing happens to the lanes up to this tick.
    fn hold(&mut self, rows: &mut [Row], to: u64) {
        if self.stretch.is_shared() && self.drawn < to {
            for (i, is, bound) in self.distances() {
                rows[i].course.go((self.drawn, to), (is, is), bound);
            }
        }
        self.drawn = to;
    }

    /// Draws in one band what a round does.
    fn show(&mut self, rows: &mut [Row], round: &[(usize, u64)], band: usize) {
        if !self.stretch.is_shared() {
            return;
        }
        let mut shown = self.stretch.clone();
        for &(thread, ticks) in round {
            shown.charge(thread, ticks);
            for (i, is, bound) in distances(&shown) {
                rows[i].course.touch(band, Value { is, bound });
            }
        }
    }

    fn distances(&self) -> Vec<(usize, f64, f64)> {
        distances(&self.stretch)
    }
}

/// Each lane with its distance from its share and the bound of that, in ticks.
fn distances(stretch: &Stretch) -> Vec<(usize, f64, f64)> {
    let members = stretch.members.iter();
    members
        .map(|member| {
            (
                member.thread,
                stretch.distance(member),
                stretch.bound(member),
            )
        })
        .collect()
}
