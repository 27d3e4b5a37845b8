//! Order 8 in the compiled programs: 23 takes object and priority, 24 object and number, and 3 is a bad line and a bad record; the trace refuses
//! it, and the report goes by the settings at the end.

use model::{operation as op, record, Rng, LONGEST, RECORD};
use programs::{
    hold, hold_each, Program, Program::List, Program::Report, Program::Trace, Program::Write,
};

fn create(i: u8, priority: u8, turn: u32) -> [u8; RECORD] {
    record(op::CREATE, i, priority, turn, 0)
}

fn set_priority(i: u8, priority: u8) -> [u8; RECORD] {
    record(op::SET_PRIORITY, i, priority, 0, 0)
}

fn set_turn(i: u8, turn: u32) -> [u8; RECORD] {
    record(op::SET_TURN, i, 0, turn, 0)
}

/// What the program writes for this input, held to the model: on standard output, and on standard error.
fn made(program: Program, input: &[u8]) -> (Vec<u8>, String) {
    let output = program.fed(vec![input.to_vec()]);
    let said = String::from_utf8_lossy(&output.stderr).into_owned();
    let written = output.stdout.clone();
    hold(program, input, output);
    (written, said)
}

/// Lines `23 OBJECT PRIORITY` and `24 OBJECT NUMBER` are written and listed, both ways.
#[test]
fn set_priority_and_set_turn_are_written_and_listed() {
    let records = [
        set_priority(0, 0),
        set_priority(15, 31),
        set_priority(255, 255),
        set_turn(0, 0),
        set_turn(15, LONGEST),
        set_turn(255, u32::MAX),
    ];
    let text = "23 0 0\n23 15 31\n23 255 255\n24 0 0\n24 15 99999\n24 255 4294967295\n";
    assert_eq!(
        made(Write, text.as_bytes()),
        (records.concat(), String::new())
    );
    let listed = (text.as_bytes().to_vec(), String::new());
    assert_eq!(made(List, &records.concat()), listed);
}

/// Each line stops the writer, wherever it stands, with the records before it out.
#[test]
fn a_line_of_3_or_with_another_field_is_bad() {
    for line in [
        "3",
        "3 1",
        "3 1 5",
        "3 1 5 8",
        "03 1 5 8",
        "003",
        "23",
        "23 1",
        "23 1 5 8",
        "23 256 5",
        "23 1 256",
        "24",
        "24 1",
        "24 1 5 8",
        "24 256 8",
        "24 1 4294967296",
        "25",
        "25 1 5",
        "25 1 5 8",
    ] {
        for before in [0, 1, 300] {
            let text = format!("{}{line}\n19\n", "24 1 8\n".repeat(before));
            let wanted = (
                set_turn(1, 8).repeat(before),
                format!("bad line {before}\n"),
            );
            assert_eq!(made(Write, text.as_bytes()), wanted, "{line}");
        }
    }
}

/// Each record stops the lister, wherever it stands, with the lines before it out.
#[test]
fn a_record_of_3_or_with_another_field_is_bad() {
    for bad in [
        record(3, 1, 5, 8, 0),
        record(3, 0, 0, 0, 0),
        record(op::SET_PRIORITY, 1, 5, 8, 0),
        record(op::SET_PRIORITY, 1, 5, 0, 1),
        record(op::SET_TURN, 1, 5, 8, 0),
        record(op::SET_TURN, 1, 0, 8, 1),
        record(25, 1, 5, 8, 0),
    ] {
        for before in [0, 1, 300] {
            let records = [
                &set_priority(1, 5).repeat(before)[..],
                &bad,
                &set_turn(1, 8),
            ]
            .concat();
            let wanted = (
                "23 1 5\n".repeat(before).into_bytes(),
                format!("bad record {before}\n"),
            );
            assert_eq!(made(List, &records), wanted, "{bad:?}");
        }
    }
}

/// The trace answers operation 3 with −8, whatever its fields say, and goes on.
#[test]
fn the_trace_refuses_operation_3() {
    let gone = record(3, 1, 6, 4, 0);
    let trace = [
        create(1, 5, 8),
        gone,
        record(3, 0, 0, 0, 0),
        set_turn(1, 4),
        set_priority(1, 6),
    ];
    let lines = "0 0 0 1\n1 -8 0 1\n2 -8 0 1\n3 0 0 1\n4 0 0 1\n";
    assert_eq!(
        made(Trace, &trace.concat()),
        (lines.as_bytes().to_vec(), String::new())
    );
}

/// The report goes by the settings at the end. Of 5 ticks the lanes of turns 2 and 3 have 2 and 3; then lane 1 gets the turn 7, which is 10 in all:
/// 2 × 10 − 7 × 5 = −15, and 3 × 10 − 3 × 5 = 15. In another rank each lane has a lag of 0, and so after a refused Set by operation 3.
#[test]
fn the_report_has_the_settings_at_the_end() {
    let ticks = record(op::TICKS, 0, 0, 5, 0);
    let lanes = [create(1, 5, 2), create(2, 5, 3), ticks].concat();
    for (more, report) in [
        (vec![], "0 0 0\n1 2 0\n2 3 0\n"),
        (vec![record(3, 1, 5, 7, 0)], "0 0 0\n1 2 0\n2 3 0\n"),
        (vec![set_turn(1, 7)], "0 0 0\n1 2 -15\n2 3 15\n"),
        (
            vec![set_turn(1, 7), set_priority(1, 6)],
            "0 0 0\n1 2 0\n2 3 0\n",
        ),
    ] {
        let (printed, said) = made(Report, &[lanes.clone(), more.concat()].concat());
        assert_eq!(
            (String::from_utf8_lossy(&printed), said),
            (report.into(), String::new())
        );
    }
}

/// Lanes of two ranks get other priorities and turns over and over, and ticks come between; one change in 16 is asked for by operation 3.
fn unsettled_trace(seed: u64, records: usize) -> Vec<u8> {
    let mut rng = Rng::new(seed);
    let mut trace: Vec<u8> = (1..=6).flat_map(|i| create(i, 5 + i % 2, 4)).collect();
    for _ in 0..records {
        let (i, rank, turn) = (
            rng.between(1, 7) as u8,
            rng.between(4, 7) as u8,
            rng.between(1, 9),
        );
        trace.extend(match rng.below(16) {
            0 => record(3, i, rank, turn, 0),
            1..=3 => set_priority(i, rank),
            4..=6 => set_turn(i, turn),
            7 => record(op::DELAY, 0, 0, turn, 0),
            8 => record(op::SUSPEND, i, 0, 0, 0),
            9 => record(op::RESUME, i, 0, 0, 0),
            10 => record(rng.pick(&[op::LOCK, op::UNLOCK, op::UNLOCK]), 0, 0, 0, 0),
            11 => record(op::TICKS, 0, 0, turn, 0),
            _ => record(op::TICK, 0, 0, 0, 0),
        });
    }
    trace
}

#[test]
fn random_traces_with_changes_of_settings_are_traced_and_reported_as_by_the_model() {
    let traces: Vec<Vec<u8>> = (0..80)
        .map(|seed| unsettled_trace(9_900 + seed, 300))
        .collect();
    hold_each(Trace, &traces);
    hold_each(Report, &traces);
}
