//! Soundness, on the bytes: one function for each bullet of "A table is sound exactly when", and one
//! for order 6. It shares nothing with the queues.

use crate::names::{outcome, wait, FULL_COUNT, INIT, LONGEST, PRIORITIES, SEMAPHORES, THREADS};
use crate::table::{at, word, TABLE, WIDTH};

/// A line as the bytes name it: its sort and which of that sort.
#[derive(Clone, Copy, PartialEq, Eq)]
enum Line {
    Ready(u8),
    Semaphore(u8),
    Senders(u8),
}

/// "A table is sound exactly when" all its bullets hold. Each bullet may rely on those before it.
pub fn sound(table: &[u8]) -> bool {
    bytes_are_in_range(table)
        && init_is_ready(table)
        && places_are_counted(table)
        && counters_fit(table)
        && wait_objects_fit(table)
        && mail_fits(table)
        && running_is_right(table)
        && ready_word_is_right(table)
}

fn thread(table: &[u8], i: usize) -> &[u8] {
    &table[at::thread(i)..at::thread(i) + WIDTH]
}

fn semaphore(table: &[u8], s: usize) -> &[u8] {
    &table[at::semaphore(s)..at::semaphore(s) + WIDTH]
}

fn in_use(record: &[u8]) -> bool {
    record[at::IN_USE] == 1
}

/// The threads in use.
fn threads(table: &[u8]) -> impl Iterator<Item = (usize, &[u8])> {
    let all = (0..THREADS).map(move |i| (i, thread(table, i)));
    all.filter(|(_, record)| in_use(record))
}

/// "A thread is ready when in use, not suspended, not waiting"
fn ready(record: &[u8]) -> bool {
    in_use(record) && record[at::SUSPENDED] == 0 && record[at::WAIT_KIND] == wait::NONE
}

/// The line of a thread in use, if it is in one.
fn line(record: &[u8]) -> Option<Line> {
    match record[at::WAIT_KIND] {
        wait::SEND => Some(Line::Senders(record[at::WAIT_OBJECT])),
        wait::SEMAPHORE => Some(Line::Semaphore(record[at::WAIT_OBJECT])),
        _ if ready(record) => Some(Line::Ready(record[at::PRIORITY])),
        _ => None,
    }
}

/// "Its length is 600. A free record is all zero (its outcome too, though 0 otherwise means
/// done). Bytes given no meaning are zero, every field is in range."
fn bytes_are_in_range(table: &[u8]) -> bool {
    table.len() == TABLE
        && (0..THREADS).all(|i| thread_is_in_range(thread(table, i)))
        && (0..SEMAPHORES).all(|s| semaphore_is_in_range(semaphore(table, s)))
        && usize::from(table[at::RUNNING]) < THREADS
        && all_zero(&table[at::READY_WORD + 4..])
}

fn all_zero(bytes: &[u8]) -> bool {
    bytes.iter().all(|&byte| byte == 0)
}

/// The ranges of a thread's fields; every byte of a thread has a meaning. The ranges of counter
/// and wait object depend on the state and stand in their own bullets.
fn thread_is_in_range(record: &[u8]) -> bool {
    let outcomes = [outcome::NONE_YET, outcome::DONE, outcome::FAILED];
    match record[at::IN_USE] {
        0 => all_zero(record),
        1 => {
            usize::from(record[at::PRIORITY]) < PRIORITIES
                && record[at::SUSPENDED] <= 1
                && record[at::WAIT_KIND] <= wait::SEMAPHORE
                && record[at::MAILBOX_FULL] <= 1
                && outcomes.contains(&(record[at::OUTCOME] as i8))
                && (1..=LONGEST).contains(&word(record, at::TURN))
        }
        _ => false,
    }
}

fn semaphore_is_in_range(record: &[u8]) -> bool {
    match record[at::IN_USE] {
        0 => all_zero(record),
        1 => record[at::COUNT] <= FULL_COUNT && all_zero(&record[at::COUNT + 1..]),
        _ => false,
    }
}

/// "Thread 0 is in use, priority 0, not suspended, not waiting."
fn init_is_ready(table: &[u8]) -> bool {
    let init = thread(table, INIT);
    ready(init) && init[at::PRIORITY] == 0
}

/// "The n members of each line have places 1 to n, each once. A thread in no line has place 0. A
/// suspended thread that waits on a semaphore or a send stays in that line."
fn places_are_counted(table: &[u8]) -> bool {
    threads(table).all(|(_, record)| match line(record) {
        None => record[at::PLACE] == 0,
        Some(its_line) => line_is_counted(table, its_line),
    })
}

fn line_is_counted(table: &[u8], its_line: Line) -> bool {
    let members = threads(table).filter(|(_, record)| line(record) == Some(its_line));
    let mut places: Vec<u8> = members.map(|(_, record)| record[at::PLACE]).collect();
    places.sort_unstable();
    places.iter().copied().eq(1..=places.len() as u8)
}

/// "Counter: at place 1 of a ready line, 1 to the turn; at a later place, the turn itself; in a
/// delay, 1 to 99,999 left; in another wait, 0 to 99,999, where 0 is forever; else 0."
fn counters_fit(table: &[u8]) -> bool {
    threads(table).all(|(_, record)| {
        let (counter, turn) = (word(record, at::COUNTER), word(record, at::TURN));
        match record[at::WAIT_KIND] {
            wait::NONE if !ready(record) => counter == 0,
            wait::NONE if record[at::PLACE] == 1 => (1..=turn).contains(&counter),
            wait::NONE => counter == turn,
            wait::DELAY => (1..=LONGEST).contains(&counter),
            _ => counter <= LONGEST,
        }
    })
}

/// "Wait object: for a send, another thread that is in use with a full mailbox; for a semaphore,
/// one in use with count 0; else 0. A receiver's own mailbox is empty."
fn wait_objects_fit(table: &[u8]) -> bool {
    threads(table).all(|(i, record)| {
        let object = usize::from(record[at::WAIT_OBJECT]);
        match record[at::WAIT_KIND] {
            wait::SEND => object != i && object < THREADS && has_full_mailbox(table, object),
            wait::SEMAPHORE => object < SEMAPHORES && has_count_0(table, object),
            wait::RECEIVE => object == 0 && record[at::MAILBOX_FULL] == 0,
            _ => object == 0,
        }
    })
}

fn has_full_mailbox(table: &[u8], i: usize) -> bool {
    let record = thread(table, i);
    in_use(record) && record[at::MAILBOX_FULL] == 1
}

fn has_count_0(table: &[u8], s: usize) -> bool {
    let record = semaphore(table, s);
    in_use(record) && record[at::COUNT] == 0
}

/// "An empty mailbox holds value 0. A waiting thread has outcome 1. The parcel is 0 unless the
/// thread is sending or its outcome is 0."
fn mail_fits(table: &[u8]) -> bool {
    threads(table).all(|(_, record)| {
        let waiting = record[at::WAIT_KIND] != wait::NONE;
        let sending = record[at::WAIT_KIND] == wait::SEND;
        let outcome = record[at::OUTCOME] as i8;
        (record[at::MAILBOX_FULL] == 1 || word(record, at::MAILBOX_VALUE) == 0)
            && (!waiting || outcome == outcome::NONE_YET)
            && (word(record, at::PARCEL) == 0 || sending || outcome == outcome::DONE)
    })
}

/// "The running thread is ready. With lock count 0 it has place 1 in the highest non-empty ready
/// line."
fn running_is_right(table: &[u8]) -> bool {
    let running = thread(table, usize::from(table[at::RUNNING]));
    let highest = threads(table)
        .filter(|(_, record)| ready(record))
        .map(|(_, record)| record[at::PRIORITY])
        .max();
    ready(running)
        && (table[at::LOCK] > 0
            || (running[at::PLACE] == 1 && Some(running[at::PRIORITY]) == highest))
}

/// Order 6: "bit p set exactly when ready line p has a member [..] a table where it is wrong is
/// unsound"
fn ready_word_is_right(table: &[u8]) -> bool {
    let word = word(table, at::READY_WORD);
    (0..PRIORITIES as u8).all(|p| {
        let mut members = threads(table).filter(|(_, record)| line(record) == Some(Line::Ready(p)));
        (word >> p & 1 == 1) == members.next().is_some()
    })
}
