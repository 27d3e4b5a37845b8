//! Random sound tables, built from scratch: no run need reach them. Each step writes the bytes of
//! one bullet of soundness, so that every sort of sound table can come out.

use crate::names::{outcome, wait, FULL_COUNT, INIT, LONGEST, PRIORITIES, SEMAPHORES, THREADS};
use crate::rng::Rng;
use crate::table::{at, put_word, word, TABLE, WIDTH};

/// A random sound table.
pub fn random_sound(rng: &mut Rng) -> [u8; TABLE] {
    let mut table = [0; TABLE];
    choose_semaphores(rng, &mut table);
    choose_threads(rng, &mut table);
    choose_waits(rng, &mut table);
    choose_senders(rng, &mut table);
    choose_waiters(rng, &mut table);
    choose_places(rng, &mut table);
    for i in in_use(&table) {
        choose_counter(rng, &mut table, i);
        choose_outcome(rng, &mut table, i);
    }
    choose_running(rng, &mut table);
    note_ready_lines(&mut table);
    table
}

/// The same table with one to three bytes changed, mostly those of threads in use: often unsound,
/// and always close to sound.
pub fn spoil(rng: &mut Rng, table: &mut [u8; TABLE]) {
    let used = in_use(table);
    for _ in 0..rng.between(1, 3) {
        let any = rng.below(TABLE);
        let of_thread = at::thread(rng.pick(&used)) + rng.below(WIDTH);
        let of_word = at::READY_WORD + rng.below(4);
        let of_kernel = rng.pick(&[at::RUNNING, at::LOCK, of_word]);
        let offset = rng.pick(&[any, of_thread, of_thread, of_thread, of_kernel]);
        let (old, other) = (table[offset], rng.bits() as u8);
        let near = [old.wrapping_add(1), old.wrapping_sub(1)];
        table[offset] = rng.pick(&[0, 1, 2, near[0], near[1], 255, other]);
    }
}

/// The threads in use.
fn in_use(table: &[u8]) -> Vec<usize> {
    let threads = 0..THREADS;
    threads.filter(|&i| table[at::thread(i)] == 1).collect()
}

fn kind(table: &[u8], i: usize) -> u8 {
    table[at::thread(i) + at::WAIT_KIND]
}

fn suspended(table: &[u8], i: usize) -> bool {
    table[at::thread(i) + at::SUSPENDED] == 1
}

fn choose_semaphores(rng: &mut Rng, table: &mut [u8]) {
    let sparse = rng.between(1, 4) as usize;
    for s in 0..SEMAPHORES {
        if rng.one_in(sparse) {
            let any = rng.between(0, u32::from(FULL_COUNT)) as u8;
            table[at::semaphore(s)] = 1;
            table[at::semaphore(s) + at::COUNT] = rng.pick(&[0, 0, 0, 1, 98, 99, any]);
        }
    }
}

/// Which threads there are, their priorities and turns, who is suspended and whose mailbox is
/// full. Init is always there, with any turn and any mailbox.
fn choose_threads(rng: &mut Rng, table: &mut [u8]) {
    let sparse = rng.pick(&[1, 1, 2, 2, 3, 6]);
    let any = [rng.below(PRIORITIES) as u8, rng.below(PRIORITIES) as u8];
    let ranks = rng.pick(&[[0, 0, 0], [5, 5, 5], [0, 31, any[0]], [any[0], any[1], 0]]);
    let spread = rng.one_in(6);
    let short_turns = rng.one_in(2);
    let unsuspended = rng.pick(&[2, 4, 16]);
    for i in 0..THREADS {
        if i != INIT && !rng.one_in(sparse) {
            continue;
        }
        let record = &mut table[at::thread(i)..];
        record[at::IN_USE] = 1;
        if i != INIT {
            let any = rng.below(PRIORITIES) as u8;
            record[at::PRIORITY] = if spread { any } else { rng.pick(&ranks) };
            record[at::SUSPENDED] = u8::from(rng.one_in(unsuspended));
        }
        put_word(record, at::TURN, random_turn(rng, short_turns));
        if rng.one_in(2) {
            record[at::MAILBOX_FULL] = 1;
            put_word(record, at::MAILBOX_VALUE, rng.data());
        }
    }
}

fn random_turn(rng: &mut Rng, short: bool) -> u32 {
    let any = rng.between(1, LONGEST);
    let few = rng.between(1, 5);
    if short {
        few
    } else {
        rng.pick(&[1, 2, few, LONGEST - 1, LONGEST, any])
    }
}

/// The wait kinds. A receiver's own mailbox is empty.
fn choose_waits(rng: &mut Rng, table: &mut [u8]) {
    let favourite = rng.below(5) as u8;
    let favoured = rng.pick(&[2, 3, 1_000]);
    for i in in_use(table) {
        if i == INIT {
            continue;
        }
        let record = &mut table[at::thread(i)..];
        let any = rng.pick(&[wait::NONE, wait::NONE, 0, 1, 2, 3, 4]);
        record[at::WAIT_KIND] = if rng.one_in(favoured) { favourite } else { any };
        if record[at::WAIT_KIND] == wait::RECEIVE {
            record[at::MAILBOX_FULL] = 0;
            put_word(record, at::MAILBOX_VALUE, 0);
        }
    }
}

/// Each sender waits on another thread whose mailbox is full; without one it does not wait.
fn choose_senders(rng: &mut Rng, table: &mut [u8]) {
    let favourite = rng.below(THREADS);
    let favoured = rng.pick(&[1, 2, 1_000]);
    for i in in_use(table) {
        if kind(table, i) != wait::SEND {
            continue;
        }
        let full = |j: &usize| table[at::thread(*j) + at::MAILBOX_FULL] == 1;
        let others = in_use(table).into_iter().filter(|&j| j != i).filter(full);
        let others: Vec<usize> = others.collect();
        if others.is_empty() {
            table[at::thread(i) + at::WAIT_KIND] = wait::NONE;
            continue;
        }
        let any = rng.pick(&others);
        let liked = others.contains(&favourite) && rng.one_in(favoured);
        table[at::thread(i) + at::WAIT_OBJECT] = if liked { favourite } else { any } as u8;
    }
}

/// Each waiter waits on a semaphore in use with count 0; without one it does not wait.
fn choose_waiters(rng: &mut Rng, table: &mut [u8]) {
    let empty = |&s: &usize| {
        let record = at::semaphore(s);
        table[record] == 1 && table[record + at::COUNT] == 0
    };
    let mut empty: Vec<usize> = (0..SEMAPHORES).filter(empty).collect();
    if rng.one_in(2) {
        empty.truncate(1);
    }
    for i in in_use(table) {
        if kind(table, i) != wait::SEMAPHORE {
            continue;
        }
        if empty.is_empty() {
            table[at::thread(i) + at::WAIT_KIND] = wait::NONE;
        } else {
            table[at::thread(i) + at::WAIT_OBJECT] = rng.pick(&empty) as u8;
        }
    }
}

/// Whether two threads stand in one line.
fn share_line(table: &[u8], i: usize, j: usize) -> bool {
    let field = |i: usize, offset: usize| table[at::thread(i) + offset];
    let same = |offset: usize| field(i, offset) == field(j, offset);
    match kind(table, i) {
        wait::SEND | wait::SEMAPHORE => same(at::WAIT_KIND) && same(at::WAIT_OBJECT),
        wait::NONE => {
            let ready = |i: usize| kind(table, i) == wait::NONE && !suspended(table, i);
            ready(i) && ready(j) && same(at::PRIORITY)
        }
        _ => false,
    }
}

/// In a random order of all threads, each takes the place behind those of its line before it.
fn choose_places(rng: &mut Rng, table: &mut [u8]) {
    let mut order = in_use(table);
    rng.shuffle(&mut order);
    for (index, &i) in order.iter().enumerate() {
        let before = order[..=index].iter();
        let place = before.filter(|&&j| share_line(table, i, j)).count();
        table[at::thread(i) + at::PLACE] = place as u8;
    }
}

fn choose_counter(rng: &mut Rng, table: &mut [u8], i: usize) {
    let record = &mut table[at::thread(i)..];
    let turn = word(record, at::TURN);
    let left = rng.between(1, LONGEST);
    let left = rng.pick(&[1, 1, 2, LONGEST, left]);
    let counter = match (record[at::WAIT_KIND], record[at::PLACE]) {
        (wait::NONE, 0) => 0,
        (wait::NONE, 1) => {
            let any = rng.between(1, turn);
            rng.pick(&[1, any, turn])
        }
        (wait::NONE, _) => turn,
        (wait::DELAY, _) => left,
        _ => rng.pick(&[0, left, left]),
    };
    put_word(record, at::COUNTER, counter);
}

fn choose_outcome(rng: &mut Rng, table: &mut [u8], i: usize) {
    let record = &mut table[at::thread(i)..];
    let outcomes = [outcome::NONE_YET, outcome::DONE, outcome::FAILED];
    let outcome = match record[at::WAIT_KIND] {
        wait::NONE => rng.pick(&outcomes),
        _ => outcome::NONE_YET,
    };
    record[at::OUTCOME] = outcome as u8;
    if record[at::WAIT_KIND] == wait::SEND || outcome == outcome::DONE {
        put_word(record, at::PARCEL, rng.data());
    }
}

/// Under lock any ready thread may run; otherwise the first of the highest line does.
fn choose_running(rng: &mut Rng, table: &mut [u8]) {
    let any = rng.between(1, 255) as u8;
    table[at::LOCK] = rng.pick(&[0, 0, 0, 1, 1, 254, 255, any]);
    let ready = |&i: &usize| kind(table, i) == wait::NONE && !suspended(table, i);
    let ready: Vec<usize> = in_use(table).into_iter().filter(ready).collect();
    let first = |&i: &usize| table[at::thread(i) + at::PLACE] == 1;
    let priority = |&i: &usize| table[at::thread(i) + at::PRIORITY];
    let heads = ready.iter().copied().filter(first);
    let highest = heads.max_by_key(priority).expect("Init is ready");
    table[at::RUNNING] = match table[at::LOCK] {
        0 => highest as u8,
        _ => rng.pick(&ready) as u8,
    };
}

/// Each ready thread sets the bit of its priority.
fn note_ready_lines(table: &mut [u8]) {
    for i in in_use(table) {
        if kind(table, i) == wait::NONE && !suspended(table, i) {
            let priority = usize::from(table[at::thread(i) + at::PRIORITY]);
            table[at::READY_WORD + priority / 8] |= 1 << (priority % 8);
        }
    }
}
