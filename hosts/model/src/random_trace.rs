//! Random traces in which time passes: threads of a few ranks come and go, get other priorities and
//! turns, wait and are suspended, and ticks are charged to them.

use crate::door::{door, AREA};
use crate::names::{operation as op, LONGEST, THREADS};
use crate::random_record::random_record;
use crate::request::{record, RECORD};
use crate::rng::Rng;
use crate::table::{at, fresh};

/// What a trace is like from its first record to its last.
struct Mix {
    /// Of 32 records so many are ticks.
    ticks: usize,
    /// The ranks of its threads.
    ranks: Vec<u8>,
    /// The longest of their turns.
    longest: u32,
}

/// So many random records of a run from a fresh table on.
pub fn random_trace(rng: &mut Rng, records: usize) -> Vec<u8> {
    let mix = Mix::random(rng);
    let mut table = fresh();
    let mut trace = Vec::with_capacity(records * RECORD);
    for _ in 0..records {
        let asked = mix.record(rng, &table);
        door(&mut table, &asked, &mut [0; AREA]);
        trace.extend(asked);
    }
    trace
}

impl Mix {
    fn random(rng: &mut Rng) -> Mix {
        let (one, other) = (rng.below(32) as u8, rng.below(32) as u8);
        let ranks: [&[u8]; 4] = [&[0], &[one], &[one, other], &[one, other, 0]];
        Mix {
            ticks: rng.pick(&[4, 16, 24, 28]),
            ranks: rng.pick(&ranks).to_vec(),
            longest: rng.pick(&[1, 5, 5, 30, LONGEST]),
        }
    }

    /// A record for this table. Under lock every eighth is an Unlock, so that the lock does not
    /// stay on.
    fn record(&self, rng: &mut Rng, table: &[u8]) -> [u8; RECORD] {
        if table[at::LOCK] > 0 && rng.one_in(8) {
            return record(op::UNLOCK, 0, 0, 0, 0);
        }
        if rng.below(32) < self.ticks {
            return tick(rng);
        }
        let mut named = |field, value| thread_with(rng, table, field, value);
        let (free, used) = (named(at::IN_USE, 0), named(at::IN_USE, 1));
        let suspended = named(at::SUSPENDED, 1);
        let (rank, turn) = (rng.pick(&self.ranks), rng.between(1, self.longest));
        match rng.below(12) {
            0..=2 => record(op::CREATE, free, rank, turn, 0),
            3 => setting(rng, used, rank, turn),
            4 => record(op::DELETE, used, 0, 0, 0),
            5 => record(op::RESUME, suspended, 0, 0, 0),
            _ => random_record(rng, table),
        }
    }
}

/// The thread gets this rank or this turn; one in 16 asks for both by operation 3, which is gone.
fn setting(rng: &mut Rng, thread: u8, rank: u8, turn: u32) -> [u8; RECORD] {
    if rng.one_in(16) {
        return record(op::GONE, thread, rank, turn, 0);
    }
    match rng.one_in(2) {
        true => record(op::SET_PRIORITY, thread, rank, 0, 0),
        false => record(op::SET_TURN, thread, 0, turn, 0),
    }
}

/// A tick, or some at once; one in 16 is changed, and so mostly refused.
fn tick(rng: &mut Rng) -> [u8; RECORD] {
    let few = rng.between(1, 40);
    let mut tick = match rng.below(8) {
        0 => record(op::TICKS, 0, 0, few, 0),
        _ => record(op::TICK, 0, 0, 0, 0),
    };
    if rng.one_in(16) {
        tick[rng.between(1, 11) as usize] = rng.pick(&[1, 19, 255]);
    }
    tick
}

/// A thread other than Init whose field has this value, or any where there is none.
fn thread_with(rng: &mut Rng, table: &[u8], field: usize, value: u8) -> u8 {
    let has = |i: &usize| table[at::thread(*i) + field] == value;
    let all: Vec<usize> = (1..THREADS).collect();
    let fitting: Vec<usize> = all.iter().copied().filter(has).collect();
    rng.pick(if fitting.is_empty() { &all } else { &fitting }) as u8
}
