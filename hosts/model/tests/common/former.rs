//! Set as it was, operation 3 of document 01, which order 8 splits: from its sentence, over the bytes
//! of a table. Order 8 is held to it by this crate's tests and by those of the compiled door.

use model::{at, word, Rng, INIT, LONGEST, PRIORITIES, TABLE, THREADS};

/// The code of a Set of a sound table, and the table after it. "Set −2, −3, −1, −5", "−5 for Init."
pub fn set(before: &[u8; TABLE], i: u8, priority: u8, turn: u32) -> (i32, [u8; TABLE]) {
    let refusals = [
        (usize::from(priority) >= PRIORITIES, -2),
        (turn == 0 || turn > LONGEST, -3),
        (usize::from(i) >= THREADS || !in_use(before, i.into()), -1),
        (usize::from(i) == INIT, -5),
    ];
    let refused = refusals.iter().find(|(holds, _)| *holds);
    let mut table = *before;
    if let Some((_, code)) = refused {
        return (*code, table);
    }
    change(&mut table, i.into(), priority, turn);
    settle(&mut table);
    (0, table)
}

fn byte(table: &[u8], i: usize, field: usize) -> u8 {
    table[at::thread(i) + field]
}

fn in_use(table: &[u8], i: usize) -> bool {
    byte(table, i, at::IN_USE) == 1
}

/// "A thread is ready when in use, not suspended, not waiting"
fn is_ready(table: &[u8], i: usize) -> bool {
    let stops = [at::SUSPENDED, at::WAIT_KIND];
    in_use(table, i) && stops.iter().all(|&field| byte(table, i, field) == 0)
}

/// The members of a ready line, in no order.
fn line(table: &[u8], priority: u8) -> Vec<usize> {
    let member = |&i: &usize| is_ready(table, i) && byte(table, i, at::PRIORITY) == priority;
    (0..THREADS).filter(member).collect()
}

/// "New priority and turn; a ready thread takes a full counter and, only if the priority differs,
/// goes to the new line's tail; any other keeps its counter."
fn change(table: &mut [u8; TABLE], i: usize, priority: u8, turn: u32) {
    let own = at::thread(i);
    table[own + at::TURN..][..4].copy_from_slice(&turn.to_le_bytes());
    if is_ready(table, i) {
        table[own + at::COUNTER..][..4].copy_from_slice(&turn.to_le_bytes());
        if table[own + at::PRIORITY] != priority {
            close_gap(table, i);
            table[own + at::PLACE] = line(table, priority).len() as u8 + 1;
        }
    }
    table[own + at::PRIORITY] = priority;
}

/// "Leaving any line closes the gap."
fn close_gap(table: &mut [u8; TABLE], i: usize) {
    let place = byte(table, i, at::PLACE);
    for j in line(table, byte(table, i, at::PRIORITY)) {
        let behind = byte(table, j, at::PLACE) > place;
        table[at::thread(j) + at::PLACE] -= u8::from(behind);
    }
}

/// The ready word of order 6, and then: "After every step, with lock 0, the running thread is the
/// first of the highest non-empty line; with lock above 0 it doesn't change."
fn settle(table: &mut [u8; TABLE]) {
    let ready: Vec<usize> = (0..THREADS).filter(|&i| is_ready(table, i)).collect();
    let bit = |&i: &usize| 1_u32 << byte(table, i, at::PRIORITY);
    let lines = ready.iter().map(bit).fold(0, |lines, bit| lines | bit);
    table[at::READY_WORD..][..4].copy_from_slice(&lines.to_le_bytes());
    if table[at::LOCK] == 0 {
        let firsts = ready.iter().filter(|&&i| byte(table, i, at::PLACE) == 1);
        let highest = firsts.max_by_key(|&&i| byte(table, i, at::PRIORITY));
        table[at::RUNNING] = *highest.expect("Init is always ready") as u8;
    }
}

/// The thread, priority and turn of a Set to be tried on a table: mostly of a thread in use, of a
/// priority that some thread has, and of a turn around its own or its counter; now and then such that
/// it is refused.
pub fn random_fields(rng: &mut Rng, table: &[u8]) -> (u8, u8, u32) {
    let used: Vec<usize> = (0..THREADS).filter(|&i| in_use(table, i)).collect();
    let (any, neighbour) = (rng.below(18), rng.pick(&used));
    let i = match rng.one_in(16) {
        true => any,
        false => rng.pick(&used),
    };
    let own = i % THREADS;
    let (rank, other) = (
        byte(table, own, at::PRIORITY),
        byte(table, neighbour, at::PRIORITY),
    );
    let near = rng.pick(&[rank + 1, rank.saturating_sub(1), 0, 31, 32]);
    let turn = word(table, at::thread(own) + at::TURN);
    let left = word(table, at::thread(own) + at::COUNTER);
    let few = rng.between(1, 9);
    let edge = rng.pick(&[0, 1, LONGEST, LONGEST + 1, u32::MAX]);
    (
        i as u8,
        rng.pick(&[rank, rank, other, other, near]),
        rng.pick(&[few, few, turn, left.max(1), left.max(2) - 1, edge]),
    )
}
