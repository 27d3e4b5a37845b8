//! The report program: it replays a trace without printing its lines and then says of each thread
//! how many ticks it was charged and how far it is ahead or behind.

use std::io::{self, BufReader, Read, Write};

use crate::door::{door, AREA};
use crate::kernel::Kernel;
use crate::names::{code, operation as op, INIT, THREADS};
use crate::request::{RECORD, TICK};
use crate::table::{fresh, read, word, TABLE};
use crate::trace::fill;

/// "If whole records are left after 1,000,000"
pub const MOST_RECORDS: usize = 1_000_000;

/// What the report program prints for this input.
pub fn report(input: &[u8]) -> Vec<u8> {
    let mut out = Vec::new();
    report_to(&mut &input[..], &mut out).expect("reading and writing memory does not fail");
    out
}

/// Order 5: "A program replays a trace without printing its lines and then prints a line for each
/// thread in use at the end [..] If whole records are left after 1,000,000, a line `stopped` comes
/// before the report; `short N` isn't printed." Nothing is printed of an input that can't be read.
pub fn report_to(input: &mut dyn Read, out: &mut dyn Write) -> io::Result<()> {
    let mut input = BufReader::new(input);
    let mut record = [0; RECORD];
    let mut run = Run::fresh();
    for _ in 0..MOST_RECORDS {
        if fill(&mut input, &mut record)? < RECORD {
            return run.print(out);
        }
        run.serve(&record);
    }
    if fill(&mut input, &mut record)? == RECORD {
        writeln!(out, "stopped")?;
    }
    run.print(out)
}

/// A run from a fresh table on: the table, and what was charged in each life of each thread.
struct Run {
    table: [u8; TABLE],
    /// A thread's lives, the latest last, each by the ticks charged in it. A life begins at an
    /// accepted Create, Init's at the start.
    lives: [Vec<i128>; THREADS],
}

impl Run {
    fn fresh() -> Run {
        let mut lives: [Vec<i128>; THREADS] = Default::default();
        lives[INIT].push(0);
        Run {
            table: fresh(),
            lives,
        }
    }

    /// One record. A tick that is refused is charged to nobody.
    fn serve(&mut self, record: &[u8; RECORD]) {
        let before = self.table;
        let done = door(&mut self.table, record, &mut [0; AREA]) == code::DONE;
        match record[0] {
            op::CREATE if done => self.lives[usize::from(record[1])].push(0),
            op::TICK if done => self.charge(&read(&before)),
            op::TICKS if done => self.charge_each(read(&before), word(record, 4)),
            _ => {}
        }
    }

    /// A tick is charged to the thread that ran before it, and to nobody while the lock is on.
    fn charge(&mut self, before: &Kernel) {
        if !before.locked() {
            let life = self.lives[before.running].last_mut();
            *life.expect("whoever runs lives") += 1;
        }
    }

    /// Order 7: an accepted operation 21 "as its single ticks", one by one.
    fn charge_each(&mut self, mut kernel: Kernel, ticks: u32) {
        for _ in 0..ticks {
            self.charge(&kernel);
            kernel.step(&TICK).expect("a tick is never refused");
        }
    }

    /// "the ticks charged to it since its creation (Init: since the start)"
    fn charged(&self, i: usize) -> i128 {
        *self.lives[i].last().expect("the thread is in use")
    }

    /// "The lag is charged ticks times the sum of the turns of its rank's ready threads at the
    /// end, less its own turn times all ticks charged to those threads since their creations; it
    /// is negative when the thread is behind. A thread not ready at the end has lag 0."
    fn lag(&self, kernel: &Kernel, i: usize) -> i128 {
        if !kernel.is_ready(i) {
            return 0;
        }
        let turn = |i: usize| i128::from(kernel.thread(i).turn);
        let rank = &kernel.ready[usize::from(kernel.thread(i).priority)];
        let turns: i128 = rank.iter().map(|&member| turn(member)).sum();
        let charges: i128 = rank.iter().map(|&member| self.charged(member)).sum();
        self.charged(i) * turns - turn(i) * charges
    }

    /// "a line for each thread in use at the end, by number: its number, the ticks charged to it
    /// [..], and its lag, in decimal with single spaces."
    fn print(&self, out: &mut dyn Write) -> io::Result<()> {
        let kernel = read(&self.table);
        for i in (0..THREADS).filter(|&i| kernel.threads[i].is_some()) {
            let (charged, lag) = (self.charged(i), self.lag(&kernel, i));
            writeln!(out, "{i} {charged} {lag}")?;
        }
        out.flush()
    }
}
