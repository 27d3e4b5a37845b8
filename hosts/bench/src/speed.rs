//! The speed of the door beside the plain kernel: the same calls, in one run, taking turns.

use std::ops::RangeInclusive;

use model::{operation as op, Rng};

use crate::budget::Budget;
use crate::cases::{accepted, Group};
use crate::measure::{steps, sum, time, Pair};
use crate::worst::worst;

/// How many times the plain kernel's instructions the door may take: over all operations, and for any one call.
const OVERALL: Budget = Budget {
    most: 0.85,
    aim: 0.75,
};
const ANY: Budget = Budget {
    most: 1.2,
    aim: 1.0,
};

/// Calls of a group that are timed, and that are counted instruction by instruction.
const TIMED: usize = 32;
const COUNTED: usize = 6;
const ROUNDS: usize = 2_000;

/// What was measured of one group.
struct Row {
    name: String,
    /// Nothing where the program runs under an emulator.
    nanoseconds: Option<Pair>,
    instructions: Pair,
}

impl Row {
    /// What the budget is about: instructions are the same on every machine, and times are not.
    fn ratio(&self) -> f64 {
        self.instructions.ratio()
    }

    fn figures(&self) -> String {
        match self.nanoseconds {
            Some(nanoseconds) => nanoseconds.figures() + " | " + &self.instructions.figures(),
            None => self.instructions.figures(),
        }
    }
}

fn measure(groups: Vec<Group>, counted: usize, emulated: bool) -> Vec<Row> {
    let counts = steps(&groups, counted);
    let times: Vec<Option<Pair>> = match emulated {
        true => vec![None; groups.len()],
        false => time(&groups, ROUNDS).into_iter().map(Some).collect(),
    };
    let rows = groups.into_iter().zip(times).zip(counts);
    rows.map(|((group, nanoseconds), (instructions, _))| Row {
        name: group.name,
        nanoseconds,
        instructions,
    })
    .collect()
}

/// The head of a table whose rows have `Row::figures` between the first column and the others.
fn print_head(first: &str, others: &[&str], emulated: bool) {
    let times = ["door ns", "plain.c ns", "ratio"];
    let counts = ["door instructions", "plain.c instructions", "ratio"];
    let times = if emulated { &[] } else { &times[..] };
    let figures = [times, &counts].concat();
    println!(
        "| {first} | {} |",
        [&figures[..], others].concat().join(" | ")
    );
    let lines = ["---:|".repeat(figures.len()), "---|".repeat(others.len())];
    println!("|---|{}", lines.concat());
}

fn print_rows(title: &str, rows: &[Row], emulated: bool) {
    println!("### {title}\n");
    print_head("Call", &[&format!("at most {}", ANY.most)], emulated);
    for row in rows {
        let within = if ANY.holds(row.ratio()) { "OK" } else { "OVER" };
        println!("| {} | {} | {within} |", row.name, row.figures());
    }
    println!();
}

/// What a table with Init alone accepts too.
const BY_INIT: [u8; 7] = [
    op::MAKE,
    op::DROP,
    op::POST_FROM_INTERRUPT,
    op::LOCK,
    op::UNLOCK,
    op::TICK,
    op::OUTCOME,
];

/// How the cost grows with the threads in use, over operations that a table with Init alone accepts
/// too.
fn print_growth(emulated: bool) {
    println!("### How the cost grows with the threads in use\n");
    println!(
        "The mean over calls of Make, Drop, Post from interrupt, Lock, Unlock, Tick, Outcome.\n"
    );
    print_head("Threads", &[], emulated);
    for threads in [1, 2, 4, 8, 12, 16] {
        let groups = accepted(&mut Rng::new(63), &BY_INIT, threads..=threads, 3);
        let group = Group {
            name: threads.to_string(),
            cases: groups.into_iter().flat_map(|group| group.cases).collect(),
        };
        for row in measure(vec![group], usize::MAX, emulated) {
            println!("| {} | {} |", row.name, row.figures());
        }
    }
    println!();
}

/// Accepted requests of every operation but Ticks, whose calls are many in one: `asleep` has them.
fn mixed(rng: &mut Rng, threads: RangeInclusive<usize>) -> Vec<Group> {
    let but_ticks = op::EACH
        .into_iter()
        .filter(|&operation| operation != op::TICKS);
    accepted(rng, &but_ticks.collect::<Vec<_>>(), threads, TIMED)
}

/// Prints the tables; gives whether the door is within its budget.
pub fn report(emulated: bool) -> bool {
    println!("## Speed\n");
    let mut rng = Rng::new(62);
    let small = measure(mixed(&mut rng, 2..=3), COUNTED, emulated);
    let full = measure(mixed(&mut rng, 16..=16), COUNTED, emulated);
    let worst = measure(worst(), COUNTED, emulated);
    print_rows("Small tables: 2 or 3 threads", &small, emulated);
    print_rows("Full tables: 16 threads", &full, emulated);
    print_rows("The calls that have the most to do", &worst, emulated);
    print_growth(emulated);
    let mix = || small.iter().chain(&full);
    let overall = sum(mix().map(|row| row.instructions)).ratio();
    let all = || mix().chain(&worst);
    let highest = all().max_by(|a, b| a.ratio().total_cmp(&b.ratio()));
    let highest = highest.expect("there are calls");
    println!("| Budget, by instructions | ratio | at most | aim | |\n|---|---:|---:|---:|---|");
    let any = format!("the highest of any call: {}", highest.name);
    for (name, ratio, budget) in [
        (
            "all operations but Ticks, small and full tables",
            overall,
            &OVERALL,
        ),
        (&any, highest.ratio(), &ANY),
    ] {
        println!(
            "| {name} | {ratio:.2} | {} | {} | {} |",
            budget.most,
            budget.aim,
            budget.verdict(ratio)
        );
    }
    println!();
    let count = |limit: f64| all().filter(|row| row.ratio() > limit).count();
    println!(
        "Of {} kinds of calls {} take more than {} times plain.c's instructions, and {} more than {}.\n",
        all().count(),
        count(ANY.most),
        ANY.most,
        count(ANY.aim),
        ANY.aim
    );
    OVERALL.holds(overall) && ANY.holds(highest.ratio())
}
