//! Ticks, operation 21, by the most there are at once, beside as many single ticks. Single ticks are
//! counted here and there in the same run: 99,999 of them one by one would take minutes. `few` has
//! Ticks by small numbers.

use model::{at, fresh, operation as op, record, INIT, LONGEST, RECORD, TABLE};

use crate::cases::{Case, Group};
use crate::few;
use crate::measure::alone;
use crate::worst::{after, ranked};

/// The single ticks that are counted: so many in a row, at so many places of the run.
const IN_A_ROW: u32 = 3;
const PLACES: u32 = 11;

/// A call that ends no wait may take the instructions of so many single ticks.
const QUIET: f64 = 100.;

/// A table, what it is, and whether no wait ends in the ticks.
pub struct Asleep {
    pub name: &'static str,
    pub table: [u8; TABLE],
    quiet: bool,
}

/// What was counted of one of them.
struct Row {
    name: &'static str,
    at_once: f64,
    single: f64,
    /// The most instructions that the call may take.
    most: f64,
}

fn tick() -> [u8; RECORD] {
    record(op::TICK, 0, 0, 0, 0)
}

fn ticks(number: u32) -> [u8; RECORD] {
    record(op::TICKS, 0, 0, number, 0)
}

/// 15 threads wait, and their waits end one after the other, the last of them at the end.
fn waits() -> [u8; TABLE] {
    let wait = |table, i: u8| {
        let made = after(table, record(op::CREATE, i, 5, u32::from(i % 4) + 1, 0));
        let left = LONGEST - 6_661 * (15 - u32::from(i));
        after(made, record(op::DELAY, 0, 0, left, 0))
    };
    (1..16).fold(fresh(), wait)
}

/// Init and 15 others in one rank, all with a turn of 1: a sound table, which no run leaves, since
/// Init's turn can't be set.
fn all_of_1() -> [u8; TABLE] {
    let mut table = ranked(|_| 1);
    for field in [at::TURN, at::COUNTER] {
        table[at::thread(INIT) + field] = 1;
    }
    table
}

pub fn tables() -> [Asleep; 5] {
    let mixed = ranked(|i| u32::from(i) * 37 % 11 + 1);
    let locked = after(mixed, record(op::LOCK, 0, 0, 0, 0));
    let asleep = |name, table, quiet| Asleep { name, table, quiet };
    [
        asleep("Init alone", fresh(), true),
        asleep("a rank of 16, all turns of 1", all_of_1(), true),
        asleep("a rank of 16, turns of 1 to 11", mixed, true),
        asleep("the same under lock", locked, true),
        asleep("15 delays that end at different times", waits(), false),
    ]
}

/// One call of Ticks by this number, as a group.
pub fn at_once(table: [u8; TABLE], number: u32) -> Group {
    let record = ticks(number);
    Group {
        name: format!("Ticks by {number}"),
        cases: vec![Case { table, record }],
    }
}

/// So many single ticks at each of so many places of the same run, as a group.
pub fn single(mut table: [u8; TABLE], in_a_row: u32, places: u32) -> Group {
    let mut cases = Vec::new();
    for place in 0..places {
        if place > 0 {
            table = after(table, ticks(LONGEST / places - in_a_row));
        }
        for _ in 0..in_a_row {
            let record = tick();
            cases.push(Case { table, record });
            table = after(table, record);
        }
    }
    let name = "single ticks".to_string();
    Group { name, cases }
}

fn measured() -> Vec<Row> {
    let tables = tables();
    let each =
        |group: fn([u8; TABLE]) -> Group| alone(&tables.each_ref().map(|of| group(of.table)));
    let each_call = each(|table| at_once(table, LONGEST));
    let each_tick = each(|table| single(table, IN_A_ROW, PLACES));
    let rows = tables.iter().zip(each_call).zip(each_tick);
    let row = |((asleep, at_once), single): ((&Asleep, f64), f64)| Row {
        name: asleep.name,
        at_once,
        single,
        most: single
            * if asleep.quiet {
                QUIET
            } else {
                f64::from(LONGEST)
            },
    };
    rows.map(row).collect()
}

/// Prints the table; gives what is wrong, a sentence for each fault.
pub fn report() -> Vec<String> {
    println!("## Ticks\n");
    println!(
        "Instructions of one call of Ticks, operation 21, by {LONGEST}, and of a single tick:"
    );
    println!(
        "the mean of {}, {IN_A_ROW} in a row at each of {PLACES} places of the same run.",
        IN_A_ROW * PLACES
    );
    println!("No wait ends in the rows but the last, and these may take {QUIET} single ticks; the last may");
    println!("take as many as it does.\n");
    println!("| Table | Ticks | a single tick | as so many single ticks | at most | |");
    println!("|---|---:|---:|---:|---:|---|");
    let rows = measured();
    for row in &rows {
        let (name, at_once, single) = (row.name, row.at_once, row.single);
        let (share, most) = (at_once / single, row.most / single);
        let verdict = if at_once <= row.most { "OK" } else { "OVER" };
        println!("| {name} | {at_once:.0} | {single:.0} | {share:.1} | {most:.0} | {verdict} |");
    }
    println!();
    let mut faults = few::report();
    let over = rows.iter().filter(|row| row.at_once > row.most);
    let fault = |row: &Row| {
        let Row { name, at_once, .. } = row;
        let most = row.most;
        format!("Ticks by {LONGEST}, {name}: {at_once:.0} instructions, and at most {most:.0} are accepted")
    };
    faults.extend(over.map(fault));
    faults
}
