//! The compiled report serves 1,000,000 records at the most, and says `stopped` where whole records are left.

use model::{operation as op, random_trace, record, Rng, LONGEST, MOST_RECORDS, RECORD};
use programs::{hold, Program::Report};

fn tick() -> [u8; RECORD] {
    record(op::TICK, 0, 0, 0, 0)
}

fn create(i: u8, turn: u32) -> [u8; RECORD] {
    record(op::CREATE, i, 31, turn, 0)
}

/// What is printed of these parts as one input, held to the model.
fn printed(parts: &[&[u8]]) -> String {
    let input = parts.concat();
    let output = Report.fed(vec![input.clone()]);
    let printed = String::from_utf8_lossy(&output.stdout).into_owned();
    hold(Report, &input, output);
    printed
}

/// Of 1,000,000 records all but the last 10 are refused, and they count. Then come two lanes of turns 3 and 2, which is 5 in all, and 8 ticks. Of these
/// lane 1 has 6: 6 × 5 − 3 × 8 = 6, and 2 × 5 − 2 × 8 = −6. A tick less or more would give other lines.
#[test]
fn a_whole_record_after_1_000_000_stops_the_report_and_is_not_served() {
    let refused = [255; RECORD].repeat(MOST_RECORDS - 10);
    let lanes = [&create(1, 3)[..], &create(2, 2), &tick().repeat(8)].concat();
    let most = [refused, lanes].concat();
    let report = "0 0 0\n1 6 6\n2 2 -6\n";
    for rest in [&[][..], &tick()[..1], &tick()[..11]] {
        assert_eq!(printed(&[&most, rest]), report, "{} bytes", rest.len());
    }
    let stopped = format!("stopped\n{report}");
    let longer = tick().repeat(300_000);
    for rest in [&tick()[..], &[255; RECORD], &longer] {
        assert_eq!(printed(&[&most, rest]), stopped, "{} bytes", rest.len());
    }
}

/// A random trace, over and over: the table goes on from where the one before it ended.
#[test]
fn a_busy_trace_of_more_than_1_000_000_records_is_reported_as_by_the_model() {
    let part = random_trace(&mut Rng::new(71), 9_999);
    let trace = part.repeat(MOST_RECORDS / 9_999 + 1);
    hold(Report, &trace, Report.fed(vec![trace.clone()]));
}

/// Thread 1 is charged all ticks, and then 14 more threads of the longest turn are created in its rank: 15 turns of 99,999 are
/// 1,499,985, and the lags are c × 1,499,985 − 99,999 × c and −99,999 × c.
#[test]
fn the_largest_numbers_are_exact() {
    let others: Vec<u8> = (2..=15).flat_map(|i| create(i, LONGEST)).collect();
    let charged = (MOST_RECORDS - 15) as i64;
    let ticks = tick().repeat(MOST_RECORDS - 15);
    let trace = [&create(1, LONGEST)[..], &ticks, &others].concat();
    let (ahead, behind) = (charged * (1_499_985 - 99_999), charged * 99_999);
    let behind = (2..=15).map(|i| format!("{i} 0 -{behind}\n"));
    let first = format!("0 0 0\n1 {charged} {ahead}\n");
    let want = [first].into_iter().chain(behind).collect::<String>();
    let output = Report.fed_as_file(&trace);
    assert_eq!(String::from_utf8_lossy(&output.stdout), want);
    hold(Report, &trace, output);
}
