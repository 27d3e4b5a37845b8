//! The compiled report prints what the model's report prints: over random traces, over traces that end anywhere, and with numbers of every
//! length.

use model::{operation as op, random_trace, record, Rng, LONGEST, RECORD, THREADS};
use programs::{hold, hold_each, Program::Report, BLOCK};
use std::ops::Range;

/// The report, fed all of the trace at once, prints the model's report; gives its text.
fn same(trace: &[u8]) -> String {
    let output = Report.fed(vec![trace.to_vec()]);
    let printed = String::from_utf8_lossy(&output.stdout).into_owned();
    hold(Report, trace, output);
    printed
}

fn tick() -> [u8; RECORD] {
    record(op::TICK, 0, 0, 0, 0)
}

fn create(i: u8, priority: u8, turn: u32) -> [u8; RECORD] {
    record(op::CREATE, i, priority, turn, 0)
}

#[test]
fn empty_input_and_left_over_bytes_give_inits_line() {
    for length in 0..=25 {
        same(&vec![19; length]);
    }
    assert_eq!(Report.fed(vec![]).stdout, b"0 0 0\n");
    assert_eq!(Report.fed(vec![vec![19; 11]]).stdout, b"0 0 0\n");
    assert_eq!(Report.fed_as_file(b"").stdout, b"0 0 0\n");
}

/// A random trace of up to 2,000 records, mostly fewer; one in four has bytes left over.
fn trace(seed: u64) -> Vec<u8> {
    let mut rng = Rng::new(seed);
    let most = rng.pick(&[20, 200, 600, 2_000]);
    let records = rng.below(most + 1);
    let mut trace = random_trace(&mut rng, records);
    if rng.one_in(4) {
        let rest = rng.between(1, 11) as usize;
        trace.extend(&tick()[..rest]);
    }
    trace
}

/// Whether a thread is created more than once in the trace.
fn creates_again(trace: &[u8]) -> bool {
    let answers = String::from_utf8(model::trace(trace)).expect("the trace is text");
    let mut created = [0; THREADS];
    for (record, answer) in trace.chunks_exact(RECORD).zip(answers.lines()) {
        if record[0] == op::CREATE && answer.split(' ').nth(1) == Some("0") {
            created[usize::from(record[1])] += 1;
        }
    }
    created.iter().any(|&times| times > 1)
}

/// In how many traces, and their reports, this is seen.
#[derive(Default, Debug)]
struct Seen {
    /// A thread is behind.
    behind: u32,
    /// Three or more threads are ahead or behind.
    several: u32,
    /// Lags of both signs have five digits or more.
    large: u32,
    /// There are charges and no lag but 0.
    even: u32,
    /// All threads are in use.
    full: u32,
    /// A thread before the last in use is free.
    gap: u32,
    /// A thread was created more than once.
    again: u32,
}

impl Seen {
    fn add(&mut self, trace: &[u8]) {
        let text = String::from_utf8(model::report(trace)).expect("the report is text");
        let numbers = |line: &str| -> Vec<i64> {
            let words = line.split(' ');
            words.map(|word| word.parse().expect("a number")).collect()
        };
        let lines: Vec<Vec<i64>> = text.lines().map(numbers).collect();
        let lags: Vec<i64> = lines.iter().map(|line| line[2]).collect();
        let uneven = lags.iter().filter(|&&lag| lag != 0).count();
        let most = lags.iter().max().copied().unwrap_or(0);
        let least = lags.iter().min().copied().unwrap_or(0);
        let charged = lines.iter().any(|line| line[1] > 0);
        self.behind += u32::from(least < 0);
        self.several += u32::from(uneven >= 3);
        self.large += u32::from(most >= 10_000 && least <= -10_000);
        self.even += u32::from(charged && uneven == 0);
        self.full += u32::from(lines.len() == THREADS);
        self.gap += u32::from(lines[lines.len() - 1][0] as usize >= lines.len());
        self.again += u32::from(creates_again(trace));
    }
}

/// The traces of these seeds are reported as by the model, and have much to report. Which misreadings of the order such traces tell from it is
/// counted by `hosts/model/tests/random_reports.rs`.
fn traces_are_reported(seeds: Range<u64>) {
    let traces: Vec<Vec<u8>> = seeds.map(trace).collect();
    hold_each(Report, &traces);
    let mut seen = Seen::default();
    for trace in &traces[..500] {
        seen.add(trace);
    }
    println!("of 500 {seen:?}");
    let Seen {
        behind,
        several,
        large,
        even,
        full,
        gap,
        again,
    } = seen;
    for number in [behind, several, large, even, full, gap, again] {
        assert!(number >= 20, "of 500 {seen:?}");
    }
}

#[test]
fn random_traces_are_reported_as_by_the_model() {
    traces_are_reported(0..2_000);
}

#[test]
#[ignore = "9,000 runs of the program take minutes"]
fn many_random_traces_are_reported_as_by_the_model() {
    traces_are_reported(2_000..11_000);
}

#[test]
fn long_traces_are_reported_as_by_the_model() {
    let trace = |(seed, records, rest)| {
        let trace = random_trace(&mut Rng::new(seed), records);
        [trace, vec![0; rest]].concat()
    };
    hold_each(
        Report,
        &[(61, 60_000, 0), (62, 30_000, 7), (63, 30_000, 11)].map(trace),
    );
}

#[test]
fn random_bytes_are_reported_as_by_the_model() {
    let mut rng = Rng::new(64);
    let mut inputs = Vec::new();
    for length in [1, 12, 1_000, 2 * BLOCK, 60_005] {
        inputs.push((0..length).map(|_| rng.bits() as u8).collect());
        inputs.push((0..length).map(|_| rng.below(26) as u8).collect());
    }
    hold_each(Report, &inputs);
}

#[test]
fn the_trace_may_end_at_every_place_around_the_edge_of_a_block() {
    let trace = random_trace(&mut Rng::new(65), 2_100);
    for length in (BLOCK - 13..=BLOCK + 13).chain([2 * BLOCK - 1, 2 * BLOCK, 2 * BLOCK + 1]) {
        let part = &trace[..length];
        hold(Report, part, Report.fed_as_file(part));
    }
}

/// Thread 1 is charged so many ticks, and thread 2 of this turn is created then, in the same rank.
fn ahead(charged: usize, turn: u32) -> Vec<u8> {
    let mut trace = create(1, 5, 1).to_vec();
    trace.extend(tick().repeat(charged));
    trace.extend(create(2, 5, turn));
    trace
}

/// With turns 1 and t and c ticks charged to thread 1, its lag is c × (1 + t) − 1 × c = c × t, and that of thread 2 is −t × c. These are
/// the numbers around the powers of ten.
#[test]
fn numbers_of_every_length_are_printed() {
    for (charged, turn) in [
        (0, 1),
        (1, 9),
        (1, 10),
        (9, 11),
        (10, 10),
        (9, 111),
        (10, 100),
        (99, 101),
        (100, 100),
        (1, LONGEST),
        (10, 10_000),
        (11, 90_909),
        (100, 10_000),
        (999, 10_000),
        (1_000, 10_000),
        (2_151, 4_649),
        (9_999, 10_001),
        (10_000, 10_000),
        (12_500, 80_000),
        (99_999, LONGEST),
        (100_000, LONGEST),
        (100_001, LONGEST),
        (125_000, 80_000),
    ] {
        let lag = charged as u64 * u64::from(turn);
        let minus = if lag > 0 { "-" } else { "" };
        let want = format!("0 0 0\n1 {charged} {lag}\n2 0 {minus}{lag}\n");
        assert_eq!(same(&ahead(charged, turn)), want);
    }
}
