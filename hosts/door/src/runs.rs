//! Random runs, held to the model step by step.

use model::{operation as op, random_record, record, wait, word, Rng};
use model::{INIT, RECORD, SEMAPHORES, TABLE, THREADS};

use crate::coverage::Coverage;
use crate::hold::Hold;
use crate::view::View;

/// What a run prefers: of eight random records of an operation, so many are kept.
#[derive(Clone, Copy)]
struct Mood([u8; op::LAST as usize + 1]);

impl Mood {
    /// All operations alike.
    const EVEN: Mood = Mood::each(8);
    /// Threads and semaphores stay, so that lines grow long.
    const CROWDED: Mood = Mood::each(8).with(op::DELETE, 1).with(op::DROP, 1);
    /// Time passes.
    const TICKING: Mood = Mood::each(2)
        .with(op::DELETE, 1)
        .with(op::TICK, 8)
        .with(op::TICKS, 4)
        .with(op::NEAREST, 4);
    /// Mail goes around.
    const MAIL: Mood = Mood::each(2)
        .with(op::SEND, 8)
        .with(op::RECEIVE, 4)
        .with(op::TICK, 4);
    /// Units go around.
    const UNITS: Mood = Mood::each(2)
        .with(op::DELETE, 1)
        .with(op::PEND, 8)
        .with(op::TICK, 4);

    const ALL: [Mood; 5] = [
        Mood::EVEN,
        Mood::CROWDED,
        Mood::TICKING,
        Mood::MAIL,
        Mood::UNITS,
    ];

    const fn each(kept: u8) -> Mood {
        Mood([kept; op::LAST as usize + 1])
    }

    const fn with(self, operation: u8, kept: u8) -> Mood {
        let Mood(mut weights) = self;
        weights[operation as usize] = kept;
        Mood(weights)
    }

    /// A random record for this table. Under lock every fourth is an Unlock, so that the lock does
    /// not stay on.
    fn record(&self, rng: &mut Rng, table: &[u8]) -> [u8; RECORD] {
        if View(table).lock() > 0 && rng.one_in(4) {
            return record(op::UNLOCK, 0, 0, 0, 0);
        }
        loop {
            let record = random_record(rng, table);
            let weight = self.0.get(usize::from(record[0])).copied();
            let fits = moves_a_line(View(table), &record) || rng.one_in(4);
            if fits && rng.below(8) < usize::from(weight.unwrap_or(8)) {
                return record;
            }
        }
    }
}

/// Whether a request on mail or units finds a line to join or to serve; true of all others.
fn moves_a_line(view: View, record: &[u8]) -> bool {
    let object = record[1];
    let can_wait = view.running() != INIT && view.lock() == 0;
    let empty = |s: u8| usize::from(s) < SEMAPHORES && view.count(usize::from(s)) == 0;
    match record[0] {
        op::SUSPEND | op::RESUME => {
            usize::from(object) < THREADS && view.wait(usize::from(object)).0 > 0
        }
        op::SEND | op::RECEIVE => can_wait,
        op::MAKE => word(record, 4) == 0,
        op::PEND => can_wait && empty(object),
        op::DROP | op::POST | op::POST_FROM_INTERRUPT => {
            view.waiting((wait::SEMAPHORE, object)) > 0
        }
        _ => true,
    }
}

/// Records that fill a fresh table with threads of one to three ranks and some empty semaphores.
fn filling(rng: &mut Rng) -> Vec<[u8; RECORD]> {
    let ranks = [rng.below(32), rng.below(32), 0].map(|rank| rank as u8);
    let ranks = &ranks[..rng.between(1, 3) as usize];
    let mut records = Vec::new();
    for s in 0..rng.below(SEMAPHORES / 2) {
        records.push(record(op::MAKE, s as u8, 0, 0, 0));
    }
    for i in 1..rng.between(1, THREADS as u32) {
        let turn = rng.between(1, 5);
        records.push(record(op::CREATE, i as u8, rng.pick(ranks), turn, 0));
    }
    records
}

/// A run from a sound table, which becomes the last one: random records in one mood. On a fresh
/// table the run may begin by filling it.
pub fn random_run(
    hold: &mut Hold,
    coverage: &mut Coverage,
    rng: &mut Rng,
    table: &mut [u8; TABLE],
    steps: usize,
) {
    let mood = rng.pick(&Mood::ALL);
    let mut first = Vec::new();
    if View(table).threads() == 1 && !rng.one_in(3) {
        first = filling(rng);
    }
    let mut first = first.into_iter();
    for _ in 0..steps {
        let record = first.next().unwrap_or_else(|| mood.record(rng, table));
        let before = *table;
        let code = hold.step(table, &record);
        coverage.see(&before, &record, code, table);
    }
}
