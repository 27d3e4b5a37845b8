//! Bytes in and out: the only place where the model knows the table's layout and a thread's place
//! in its line.

use crate::kernel::{Kernel, Thread, Wait};
use crate::names::{outcome, wait, INIT, SEMAPHORES, THREADS};

/// "25 records of 24 bytes, no header"
pub const TABLE: usize = 600;
/// The bytes of one of the table's records.
pub const WIDTH: usize = 24;

/// Where things stand in the table: "Records 0 to 15 are threads, 16 to 23 semaphores, 24 the
/// kernel." The fields are offsets within a record.
pub mod at {
    use super::WIDTH;

    pub const IN_USE: usize = 0;
    pub const PRIORITY: usize = 1;
    pub const SUSPENDED: usize = 2;
    pub const WAIT_KIND: usize = 3;
    pub const WAIT_OBJECT: usize = 4;
    pub const PLACE: usize = 5;
    pub const MAILBOX_FULL: usize = 6;
    pub const OUTCOME: usize = 7;
    pub const TURN: usize = 8;
    pub const COUNTER: usize = 12;
    pub const MAILBOX_VALUE: usize = 16;
    pub const PARCEL: usize = 20;
    pub const COUNT: usize = 1;
    /// The running thread's byte, counted from the table's start.
    pub const RUNNING: usize = 24 * WIDTH;
    /// The lock count's byte, counted from the table's start.
    pub const LOCK: usize = 24 * WIDTH + 1;
    /// The first of the ready word's four bytes, counted from the table's start.
    pub const READY_WORD: usize = 24 * WIDTH + 2;

    /// The first byte of thread `i`.
    pub const fn thread(i: usize) -> usize {
        i * WIDTH
    }

    /// The first byte of semaphore `s`.
    pub const fn semaphore(s: usize) -> usize {
        (16 + s) * WIDTH
    }
}

/// "Wide fields are little-endian."
pub fn word(bytes: &[u8], offset: usize) -> u32 {
    let mut four = [0; 4];
    four.copy_from_slice(&bytes[offset..offset + 4]);
    u32::from_le_bytes(four)
}

/// "Wide fields are little-endian."
pub(crate) fn put_word(bytes: &mut [u8], offset: usize, value: u32) {
    bytes[offset..offset + 4].copy_from_slice(&value.to_le_bytes());
}

/// "Fresh: Init in use, turn 10, counter 10, place 1, outcome 1; everything else 0." Order 6: "A
/// fresh table now holds 1 there."
pub fn fresh() -> [u8; TABLE] {
    let mut table = [0; TABLE];
    let init = &mut table[at::thread(INIT)..at::thread(INIT) + WIDTH];
    init[at::IN_USE] = 1;
    put_word(init, at::TURN, 10);
    put_word(init, at::COUNTER, 10);
    init[at::PLACE] = 1;
    init[at::OUTCOME] = outcome::NONE_YET as u8;
    put_word(&mut table, at::READY_WORD, 1);
    table
}

/// The state that a sound table holds.
pub(crate) fn read(table: &[u8]) -> Kernel {
    let mut kernel = Kernel::empty();
    let mut by_place = Vec::with_capacity(THREADS);
    for i in 0..THREADS {
        let record = &table[at::thread(i)..][..WIDTH];
        if record[at::IN_USE] == 1 {
            kernel.threads[i] = Some(read_thread(record));
            by_place.push((record[at::PLACE], i));
        }
    }
    for s in 0..SEMAPHORES {
        let record = &table[at::semaphore(s)..][..WIDTH];
        if record[at::IN_USE] == 1 {
            kernel.semaphores[s] = Some(record[at::COUNT]);
        }
    }
    by_place.sort_unstable();
    for (_, i) in by_place {
        kernel.join_line(i);
    }
    kernel.running = usize::from(table[at::RUNNING]);
    kernel.lock = table[at::LOCK];
    kernel
}

/// "Thread: byte 0 in use (0/1); 1 priority; 2 suspended (0/1); 3 wait kind (0 none, 1 delay,
/// 2 receive, 3 send, 4 semaphore); 4 wait object; 5 place in line; 6 mailbox full (0/1);
/// 7 outcome, a signed byte (1 none yet, 0 done, −5 failed); 8-11 turn; 12-15 counter;
/// 16-19 mailbox value; 20-23 parcel."
fn read_thread(record: &[u8]) -> Thread {
    let object = usize::from(record[at::WAIT_OBJECT]);
    Thread {
        priority: record[at::PRIORITY],
        suspended: record[at::SUSPENDED] == 1,
        wait: match record[at::WAIT_KIND] {
            wait::DELAY => Wait::Delay,
            wait::RECEIVE => Wait::Receive,
            wait::SEND => Wait::Send(object),
            wait::SEMAPHORE => Wait::Semaphore(object),
            _ => Wait::Nothing,
        },
        mailbox: match record[at::MAILBOX_FULL] {
            1 => Some(word(record, at::MAILBOX_VALUE)),
            _ => None,
        },
        outcome: record[at::OUTCOME] as i8,
        turn: word(record, at::TURN),
        counter: word(record, at::COUNTER),
        parcel: word(record, at::PARCEL),
    }
}

/// The table that holds this state: "A free record is all zero", "Bytes given no meaning are
/// zero", and "The n members of each line have places 1 to n".
pub(crate) fn write(kernel: &Kernel, table: &mut [u8]) {
    table.fill(0);
    for (i, thread) in kernel.threads.iter().enumerate() {
        if let Some(thread) = thread {
            write_thread(thread, &mut table[at::thread(i)..][..WIDTH]);
        }
    }
    // "Semaphore: byte 0 in use, 1 count."
    for (s, semaphore) in kernel.semaphores.iter().enumerate() {
        if let Some(count) = semaphore {
            table[at::semaphore(s) + at::IN_USE] = 1;
            table[at::semaphore(s) + at::COUNT] = *count;
        }
    }
    let lines = kernel.ready.iter().chain(&kernel.waiters);
    for line in lines.chain(&kernel.senders) {
        for (ahead, &i) in line.iter().enumerate() {
            table[at::thread(i) + at::PLACE] = ahead as u8 + 1;
        }
    }
    // "Kernel: byte 0 running thread, 1 lock count."
    table[at::RUNNING] = kernel.running as u8;
    table[at::LOCK] = kernel.lock;
    put_word(table, at::READY_WORD, ready_word(kernel));
}

/// Order 6: "Keep a 32-bit word in kernel bytes 2 to 5, bit p set exactly when ready line p has a
/// member". The model keeps none: it looks at its queues whenever a table is written.
fn ready_word(kernel: &Kernel) -> u32 {
    let lines = kernel.ready.iter().rev();
    lines.fold(0, |word, line| word << 1 | u32::from(!line.is_empty()))
}

/// The thread's record without its place.
fn write_thread(thread: &Thread, record: &mut [u8]) {
    let (kind, object) = match thread.wait {
        Wait::Nothing => (wait::NONE, 0),
        Wait::Delay => (wait::DELAY, 0),
        Wait::Receive => (wait::RECEIVE, 0),
        Wait::Send(to) => (wait::SEND, to),
        Wait::Semaphore(s) => (wait::SEMAPHORE, s),
    };
    record[at::IN_USE] = 1;
    record[at::PRIORITY] = thread.priority;
    record[at::SUSPENDED] = u8::from(thread.suspended);
    record[at::WAIT_KIND] = kind;
    record[at::WAIT_OBJECT] = object as u8;
    record[at::MAILBOX_FULL] = u8::from(thread.mailbox.is_some());
    record[at::OUTCOME] = thread.outcome as u8;
    put_word(record, at::TURN, thread.turn);
    put_word(record, at::COUNTER, thread.counter);
    put_word(record, at::MAILBOX_VALUE, thread.mailbox.unwrap_or(0));
    put_word(record, at::PARCEL, thread.parcel);
}
