//! The threads over time, tick by tick: what is charged to each in every band, where it is broken into, and how far it is from its share.

use model::THREADS;

use crate::events::Event;
use crate::naive::{charged_rank, stretches, Stretch};

/// As many bands as there are at the most.
const MOST_BANDS: u64 = 720;

/// What is seen of a lane's distance from its share in a band: at the two ends of each tick of the band that is in a stretch.
#[derive(Clone, Copy, Debug)]
pub struct Seen {
    pub low: f64,
    pub high: f64,
    pub last: f64,
    pub bound: f64,
    /// The first tick of a stretch is in it.
    pub is_first: bool,
}

/// A thread over time.
#[derive(Clone, Default)]
pub struct Row {
    pub ticks: Vec<u64>,
    pub total: u64,
    pub breaks: Vec<bool>,
    pub broken: u64,
    pub course: Vec<Option<Seen>>,
}

/// All that is counted of a run.
pub struct Recount {
    pub ticks: u64,
    /// The ticks of a band.
    pub width: u64,
    pub rows: Vec<Row>,
    pub locked: Vec<u64>,
    pub accounts: [u64; THREADS],
    /// In the order in which they end, those without a tick of the rank too.
    pub stretches: Vec<Stretch>,
}

impl Recount {
    pub fn of(run: &[Event], requests: usize) -> Recount {
        let ticks = run.iter().filter(|event| event.is_tick()).count() as u64;
        let width = (1..)
            .find(|width| ticks <= width * MOST_BANDS)
            .expect("some width is enough");
        let bands = ticks.div_ceil(width) as usize;
        let row = Row {
            ticks: vec![0; bands],
            breaks: vec![false; bands],
            course: vec![None; bands],
            ..Row::default()
        };
        let mut recount = Recount {
            ticks,
            width,
            rows: vec![row; THREADS],
            locked: vec![0; bands],
            accounts: [0; THREADS],
            stretches: stretches(run, requests),
        };
        recount.count(run);
        recount.draw(run);
        recount
    }

    /// Counts the ticks and the break-ins. Tick t is in band t / width. A break-in is marked in the band of the next tick, or in the last
    /// one where no tick comes any more.
    fn count(&mut self, run: &[Event]) {
        let mut now = 0;
        for event in run {
            let band = (now / self.width) as usize;
            if let Some(thread) = event.charged() {
                self.rows[thread].ticks[band] += 1;
                self.rows[thread].total += 1;
                self.accounts[thread] += 1;
            }
            if event.is_tick() && event.is_locked() {
                self.locked[band] += 1;
            }
            if let Some(thread) = event.created() {
                self.accounts[thread] = 0;
            }
            now += u64::from(event.is_tick());
            if let Some(thread) = event.broken_off() {
                let row = &mut self.rows[thread];
                row.broken += 1;
                let next = (now / self.width).min((row.breaks.len() as u64).saturating_sub(1));
                row.breaks
                    .iter_mut()
                    .skip(next as usize)
                    .take(1)
                    .for_each(|mark| *mark = true);
            }
        }
    }

    /// Draws the courses of the threads that share a rank, stretch by stretch: a thread is in one at a time.
    fn draw(&mut self, run: &[Event]) {
        let mut now = 0;
        let mut times = Vec::with_capacity(run.len());
        for event in run {
            times.push(now);
            now += u64::from(event.is_tick());
        }
        for stretch in self.stretches.iter().filter(|stretch| stretch.is_shared()) {
            let ticks = stretch.events.clone().filter(|&at| run[at].is_tick());
            let mut charged = 0;
            for (nth, at) in ticks.enumerate() {
                let before = charged;
                charged += usize::from(charged_rank(&run[at], stretch.rank).is_some());
                let band = (times[at] / self.width) as usize;
                see(&mut self.rows, band, stretch, [before, charged], nth == 0);
            }
        }
    }
}

/// Sees each lane of a stretch in this band, after so many ticks of the rank and after so many.
fn see(rows: &mut [Row], band: usize, stretch: &Stretch, moments: [usize; 2], is_first: bool) {
    let sum = stretch.sum as f64;
    for member in &stretch.members {
        let bound = (member.turn * (stretch.sum - member.turn)) as f64 / sum;
        for ticks in moments {
            let is = member.counts[ticks] as f64 - (member.turn * ticks as u64) as f64 / sum;
            let seen = rows[member.thread].course[band].get_or_insert(Seen {
                low: is,
                high: is,
                last: is,
                bound,
                is_first,
            });
            seen.low = seen.low.min(is);
            seen.high = seen.high.max(is);
            seen.last = is;
            seen.bound = seen.bound.max(bound);
            seen.is_first |= is_first;
        }
    }
}
