//! Random request records for a given table: mostly meaningful for it, now and then malformed.

use crate::names::{operation as op, wait, FOREVER, LONGEST, SEMAPHORES, THREADS};
use crate::request::{record, uses, RECORD};
use crate::rng::Rng;
use crate::table::{at, word};

/// A random record. All operations are about equally frequent; fields fit the table most of the
/// time or stand on a boundary. One record in 32 is changed, which mostly makes it malformed.
pub fn random_record(rng: &mut Rng, table: &[u8]) -> [u8; RECORD] {
    let operation = rng.pick(&op::EACH);
    let uses = uses(operation).expect("there is this operation");
    let object = match operation {
        op::MAKE | op::DROP | op::PEND | op::POST | op::POST_FROM_INTERRUPT => {
            semaphore_for(rng, table, operation)
        }
        _ => thread_for(rng, table, operation),
    };
    let priority = priority_for(rng, table, object);
    let number = number_for(rng, table, operation, object);
    let data = rng.data();
    let mut record = record(
        operation,
        if uses.object { object } else { 0 },
        if uses.priority { priority } else { 0 },
        if uses.number { number } else { 0 },
        if uses.data { data } else { 0 },
    );
    if rng.one_in(32) {
        malform(rng, &mut record);
    }
    record
}

/// One byte after the operation becomes something else, or the operation becomes 3 or goes above 24.
/// A byte of a field that is used gives another record that may be well formed.
fn malform(rng: &mut Rng, record: &mut [u8; RECORD]) {
    let any = rng.between(1, 255) as u8;
    match rng.below(3) {
        0 => record[0] = rng.pick(&[op::GONE, op::LAST + 1, 99, 255, any]),
        1 => record[3] = rng.pick(&[1, 255, any]),
        _ => record[rng.between(1, 11) as usize] = rng.pick(&[1, 255, any]),
    }
}

/// A byte of the table, 0 where the table is too short.
fn byte(table: &[u8], offset: usize) -> u8 {
    table.get(offset).copied().unwrap_or(0)
}

/// A byte of thread `i`.
fn field(table: &[u8], i: usize, offset: usize) -> u8 {
    byte(table, at::thread(i) + offset)
}

/// A wide field of thread `i`, 0 where the table is too short.
fn wide(table: &[u8], i: usize, offset: usize) -> u32 {
    let bytes = table.get(at::thread(i) + offset..).unwrap_or(&[]);
    if bytes.len() < 4 {
        return 0;
    }
    word(bytes, 0)
}

/// Mostly a thread on which the operation has something to do, else any thread in use, else any
/// number.
fn thread_for(rng: &mut Rng, table: &[u8], operation: u8) -> u8 {
    let in_use = |i: usize| field(table, i, at::IN_USE) == 1;
    let kind = |i: usize| field(table, i, at::WAIT_KIND);
    let fits = |i: &usize| match operation {
        op::CREATE => !in_use(*i),
        op::SUSPEND => in_use(*i) && field(table, *i, at::SUSPENDED) == 0,
        op::RESUME => field(table, *i, at::SUSPENDED) == 1,
        op::CANCEL => kind(*i) == wait::DELAY,
        op::ABORT => kind(*i) == wait::SEMAPHORE,
        op::SEND => field(table, *i, at::MAILBOX_FULL) == 1,
        op::SEND_FROM_INTERRUPT => in_use(*i) && field(table, *i, at::MAILBOX_FULL) == 0,
        _ => in_use(*i),
    };
    let fitting: Vec<usize> = (0..THREADS).filter(fits).collect();
    let used: Vec<usize> = (0..THREADS).filter(|&i| in_use(i)).collect();
    choose_object(rng, &fitting, &used, &[0, 15, 16, 255])
}

/// Mostly a semaphore on which the operation has something to do, else any in use, else any
/// number.
fn semaphore_for(rng: &mut Rng, table: &[u8], operation: u8) -> u8 {
    let in_use = |s: usize| byte(table, at::semaphore(s)) == 1;
    let fits = |s: &usize| match operation {
        op::MAKE => !in_use(*s),
        op::POST | op::POST_FROM_INTERRUPT => waiters(table, *s) > 0,
        _ => in_use(*s),
    };
    let fitting: Vec<usize> = (0..SEMAPHORES).filter(fits).collect();
    let used: Vec<usize> = (0..SEMAPHORES).filter(|&s| in_use(s)).collect();
    choose_object(rng, &fitting, &used, &[0, 7, 8, 255])
}

fn choose_object(rng: &mut Rng, fitting: &[usize], used: &[usize], others: &[u8]) -> u8 {
    match rng.below(8) {
        0..=3 if !fitting.is_empty() => rng.pick(fitting) as u8,
        4..=6 if !used.is_empty() => rng.pick(used) as u8,
        _ if rng.one_in(2) => rng.pick(others),
        _ => rng.below(others[1] as usize + 1) as u8,
    }
}

/// How many threads wait on the semaphore.
fn waiters(table: &[u8], s: usize) -> u32 {
    let waits = |&i: &usize| {
        field(table, i, at::WAIT_KIND) == wait::SEMAPHORE
            && usize::from(field(table, i, at::WAIT_OBJECT)) == s
    };
    (0..THREADS).filter(waits).count() as u32
}

/// Mostly a priority that some thread has, often the object's own.
fn priority_for(rng: &mut Rng, table: &[u8], object: u8) -> u8 {
    let own = field(table, usize::from(object) % THREADS, at::PRIORITY);
    let neighbour = rng.below(THREADS);
    let other = field(table, neighbour, at::PRIORITY);
    let any = rng.below(32) as u8;
    if rng.one_in(12) {
        rng.pick(&[31, 32, 33, 255])
    } else {
        rng.pick(&[own, own, other, other, 0, 31, any])
    }
}

/// A turn, a delay, a wait number or units, on the boundaries of what they are to the operation.
fn number_for(rng: &mut Rng, table: &[u8], operation: u8, object: u8) -> u32 {
    let few = rng.between(1, 5);
    let any = rng.bits() as u32;
    let edge = rng.pick(&[0, 1, 99, 100, LONGEST, FOREVER, u32::MAX, any]);
    match operation {
        op::POST | op::POST_FROM_INTERRUPT => units_for(rng, table, object, edge),
        op::TICKS => ticks_for(rng, table),
        op::SET_TURN => turn_for(rng, table, object, edge),
        op::MAKE => rng.pick(&[0, 0, 0, 1, few, 98, edge]),
        op::SEND | op::RECEIVE | op::PEND => rng.pick(&[few, few, few, FOREVER, edge]),
        _ => rng.pick(&[few, few, few, few, edge]),
    }
}

/// A turn to be set: few, the one that the thread has, or around what its counter says.
fn turn_for(rng: &mut Rng, table: &[u8], object: u8, edge: u32) -> u32 {
    let i = usize::from(object) % THREADS;
    let (turn, left) = (wide(table, i, at::TURN), wide(table, i, at::COUNTER));
    let few = rng.between(1, 5);
    rng.pick(&[few, few, turn, left, left.saturating_sub(1), edge])
}

/// The most ticks of one record, but for few.
const QUIET: u32 = 400;

/// How many ticks: few, or around the end of the nearest wait and around a round of the rank that
/// runs, or any up to 400; one in 16 on the boundary of −3, and one in 128 the most there are, which
/// take the model long.
fn ticks_for(rng: &mut Rng, table: &[u8]) -> u32 {
    let any = rng.bits() as u32;
    if rng.one_in(128) {
        return LONGEST;
    }
    if rng.one_in(16) {
        return rng.pick(&[0, 0, FOREVER, FOREVER, 1 << 31, u32::MAX, any | FOREVER]);
    }
    let few = rng.between(1, 5);
    let quiet = rng.between(1, QUIET);
    let near = rng.pick(&[nearest(table), round(table)]).min(QUIET);
    let near = rng.pick(&[near, near + 1, near.saturating_sub(1)]);
    rng.pick(&[few, few, near.max(1), near.max(1), quiet])
}

/// The least counter of a timed wait, 0 where there is none.
fn nearest(table: &[u8]) -> u32 {
    let timed = |&i: &usize| field(table, i, at::WAIT_KIND) != wait::NONE;
    let left = (0..THREADS)
        .filter(timed)
        .map(|i| wide(table, i, at::COUNTER));
    left.filter(|&left| left > 0).min().unwrap_or(0)
}

/// The sum of the turns of the ready threads of the rank that runs.
fn round(table: &[u8]) -> u32 {
    let running = usize::from(byte(table, at::RUNNING)) % THREADS;
    let rank = field(table, running, at::PRIORITY);
    let ready = |&i: &usize| {
        let stops = [at::SUSPENDED, at::WAIT_KIND];
        field(table, i, at::IN_USE) == 1 && stops.iter().all(|&stop| field(table, i, stop) == 0)
    };
    let members = (0..THREADS).filter(ready);
    let members = members.filter(|&i| field(table, i, at::PRIORITY) == rank);
    members.fold(0, |sum, i| sum.saturating_add(wide(table, i, at::TURN)))
}

/// Units on the boundaries of the line's length, of the most that Post takes, and where a sum of
/// 32 bits wraps.
fn units_for(rng: &mut Rng, table: &[u8], object: u8, edge: u32) -> u32 {
    let s = usize::from(object) % SEMAPHORES;
    let count = u32::from(byte(table, at::semaphore(s) + at::COUNT));
    let length = waiters(table, s);
    let few = rng.between(1, 5);
    let most = (99 + length).saturating_sub(count);
    rng.pick(&[
        few,
        few,
        length,
        length + 1,
        length.saturating_sub(1),
        most,
        most + 1,
        0u32.wrapping_sub(count),
        1u32.wrapping_sub(count),
        edge,
    ])
}
