//! Order 7 in the compiled programs: Ticks counts as its single ticks in the report, and a trace of them in the place of single ticks ends
//! alike; many large ones are reported in no time, and exactly.

use model::{operation as op, record, Rng, LONGEST, MOST_RECORDS, RECORD};
use programs::{hold, hold_each, Program::List, Program::Report, Program::Trace, Program::Write};
use std::time::{Duration, Instant};

/// A report of a million records may take so long. Their ticks one by one would take days.
const LONG: Duration = Duration::from_secs(240);

fn tick() -> [u8; RECORD] {
    record(op::TICK, 0, 0, 0, 0)
}

fn ticks(number: u32) -> [u8; RECORD] {
    record(op::TICKS, 0, 0, number, 0)
}

fn create(i: u8, priority: u8, turn: u32) -> [u8; RECORD] {
    record(op::CREATE, i, priority, turn, 0)
}

/// What is reported of the trace.
fn reported(trace: &[u8]) -> String {
    let output = Report.fed_as_file(trace);
    assert!(output.stderr.is_empty());
    String::from_utf8(output.stdout).expect("a report is text")
}

/// A number of ticks: few, many, or the most there are, which take the model long.
fn number(rng: &mut Rng) -> u32 {
    let (few, many) = (rng.between(1, 20), rng.between(1, 2_000));
    match rng.below(40) {
        0 => LONGEST,
        1 => rng.pick(&[0, LONGEST + 1, u32::MAX]),
        2..=5 => many,
        _ => few,
    }
}

/// Threads of two ranks come, wait and go, and between their requests time passes, mostly some ticks at once.
fn sleepy_trace(seed: u64, records: usize) -> Vec<u8> {
    let mut rng = Rng::new(seed);
    let ranks = [rng.between(0, 31) as u8, rng.between(0, 31) as u8];
    let longest = rng.pick(&[1, 5, 40, LONGEST]);
    let mut trace = Vec::new();
    for _ in 0..records {
        let (i, turn) = (rng.between(1, 15) as u8, rng.between(1, longest));
        let left = rng.between(1, 300);
        trace.extend(match rng.below(17) {
            0..=2 => create(i, rng.pick(&ranks), turn),
            3 => record(op::DELETE, i, 0, 0, 0),
            4 => record(op::SET_PRIORITY, i, rng.pick(&ranks), 0, 0),
            5 => record(op::SET_TURN, i, 0, turn, 0),
            6 => record(op::SUSPEND, i, 0, 0, 0),
            7 => record(op::RESUME, i, 0, 0, 0),
            8 => record(op::DELAY, 0, 0, left, 0),
            9 => record(op::RECEIVE, 0, 0, left, 0),
            10 => record(rng.pick(&[op::LOCK, op::UNLOCK, op::UNLOCK]), 0, 0, 0, 0),
            11 => record(op::NEAREST, 0, 0, 0, 0),
            12 => tick(),
            _ => ticks(number(&mut rng)),
        });
    }
    trace
}

#[test]
fn random_traces_with_ticks_at_once_are_reported_as_by_the_model() {
    let traces: Vec<Vec<u8>> = (0..120).map(|seed| sleepy_trace(seed, 60)).collect();
    hold_each(Report, &traces);
    hold_each(Trace, &traces[..40]);
    hold_each(List, &traces[..40]);
}

/// The trace with an accepted Ticks in the place of its single ticks; numbers above 2,000 are made smaller first.
fn one_by_one(trace: &[u8]) -> (Vec<u8>, Vec<u8>) {
    let (mut at_once, mut single) = (Vec::new(), Vec::new());
    for record in trace.chunks_exact(RECORD) {
        let number = model::word(record, 4);
        if record[0] == op::TICKS && (1..=LONGEST).contains(&number) {
            let number = number % 2_000 + 1;
            at_once.extend(ticks(number));
            single.extend(tick().repeat(number as usize));
        } else {
            at_once.extend(record);
            single.extend(record);
        }
    }
    (at_once, single)
}

/// The two traces are reported alike, by the compiled program alone.
#[test]
fn ticks_at_once_are_reported_as_single_ones() {
    for seed in 500..520 {
        let (at_once, single) = one_by_one(&sleepy_trace(seed, 60));
        assert_eq!(reported(&at_once), reported(&single), "seed {seed}");
    }
}

/// Lines `21 NUMBER` and `22` are written and listed, both ways.
#[test]
fn ticks_and_nearest_are_written_and_listed() {
    let text: String = [0, 1, 99_999, 100_000, u32::MAX]
        .map(|number| format!("21 {number}\n22\n"))
        .concat();
    let records = Write.fed(vec![text.clone().into_bytes()]);
    hold(Write, text.as_bytes(), records.clone());
    assert_eq!(List.fed(vec![records.stdout]).stdout, text.as_bytes());
    for bad in ["21\n", "21 1 1\n", "21 4294967296\n", "22 0\n"] {
        let text = format!("22\n{bad}").into_bytes();
        hold(Write, &text, Write.fed(vec![text.clone()]));
    }
}

/// Lanes of turns 2 and 3, and N ticks: of N ÷ 5 rounds lane 1 has 2 and lane 2 has 3, and of the rest lane 1 has the first two. With its
/// c ticks lane 1 has the lag c × 5 − 2 × N, and the two lags add up to 0.
#[test]
fn many_large_sleeps_of_two_lanes_are_exact() {
    for records in [1, 2, 3, 4, 5, 50_000] {
        let trace = [
            &create(1, 5, 2)[..],
            &create(2, 5, 3),
            &ticks(LONGEST).repeat(records),
        ];
        let all = records as i64 * i64::from(LONGEST);
        let (rounds, rest) = (all / 5, all % 5);
        let (one, two) = (rounds * 2 + rest.min(2), rounds * 3 + (rest - 2).max(0));
        let lag = one * 5 - 2 * all;
        let want = format!("0 0 0\n1 {one} {lag}\n2 {two} {}\n", -lag);
        assert_eq!(reported(&trace.concat()), want, "{records} records");
    }
}

/// The most that a report can be asked for: Init is charged the ticks of 999,985 records, and then 15 threads of the longest turn are created
/// in its rank. The sum of the turns is 10 + 15 × 99,999; the lags are c × (sum − 10) and −99,999 × c.
#[test]
fn a_million_large_sleeps_are_exact_and_quick() {
    let records = MOST_RECORDS - 15;
    let others: Vec<u8> = (1..=15).flat_map(|i| create(i, 0, LONGEST)).collect();
    let trace = [ticks(LONGEST).repeat(records), others].concat();
    let charged = records as i64 * i64::from(LONGEST);
    let longest = i64::from(LONGEST);
    let ahead = charged * (15 * longest);
    let behind = (1..=15).map(|i| format!("{i} 0 -{}\n", longest * charged));
    let want: String = [format!("0 {charged} {ahead}\n")]
        .into_iter()
        .chain(behind)
        .collect();
    let began = Instant::now();
    assert_eq!(reported(&trace), want);
    assert!(began.elapsed() < LONG, "{:?}", began.elapsed());
}

/// Under lock nobody is charged, however many ticks come.
#[test]
fn large_sleeps_under_lock_are_charged_to_nobody() {
    let lock = record(op::LOCK, 0, 0, 0, 0);
    let trace = [&create(1, 5, 2)[..], &lock, &ticks(LONGEST).repeat(20_000)].concat();
    assert_eq!(reported(&trace), "0 0 0\n1 0 0\n");
}
