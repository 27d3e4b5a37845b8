//! The trace program: document 01's example line for line, short and empty inputs, streaming.

mod common;

use std::io::{self, ErrorKind, Read, Write};
use std::process::{Command, Stdio};

use common::*;
use model::{record, trace, trace_to};

/// "Records: Create 1 (priority 5, turn 2); Create 2 (5, 3); Tick; Tick; Make 0 with 0; Pend 0
/// for 100,000; Post 0 by 1; Pend 0 for 0; operation 99; Outcome 2; then 3 bytes"
fn example() -> Vec<u8> {
    let records = [
        create(1, 5, 2),
        create(2, 5, 3),
        tick(),
        tick(),
        make(0, 0),
        pend(0, 100_000),
        post(0, 1),
        pend(0, 0),
        record(99, 0, 0, 0, 0),
        outcome_of(2),
    ];
    let mut input = records.concat();
    input.extend([1, 2, 3]);
    input
}

const PRINTED: &str = "\
0 0 0 1
1 0 0 1
2 0 0 1
3 0 0 2
4 0 0 2
5 1 0 1
6 0 0 1
7 -5 0 1
8 -8 0 1
9 0 0 1
short 3
";

fn text(input: &[u8]) -> String {
    String::from_utf8(trace(input)).expect("the trace is text")
}

#[test]
fn the_example_is_printed_line_for_line() {
    assert_eq!(text(&example()), PRINTED);
}

#[test]
fn every_beginning_of_the_example_prints_its_whole_records_and_the_rest() {
    let input = example();
    for length in 0..=120 {
        let (whole, rest) = (length / 12, length % 12);
        let mut want: String = PRINTED.split_inclusive('\n').take(whole).collect();
        if rest > 0 {
            want += &format!("short {rest}\n");
        }
        assert_eq!(text(&input[..length]), want, "{length} bytes");
    }
}

#[test]
fn empty_input_prints_nothing() {
    assert_eq!(text(&[]), "");
}

#[test]
fn inputs_of_1_to_11_bytes_are_short() {
    for length in 1..=11 {
        assert_eq!(text(&vec![0; length]), format!("short {length}\n"));
        assert_eq!(text(&vec![255; length]), format!("short {length}\n"));
    }
    assert_eq!(text(&[0; 12]), "0 0 0 0\n");
}

#[test]
fn the_value_is_printed_without_a_sign() {
    let records = [create(1, 5, 2), interrupt_send(1, u32::MAX), receive(0)];
    assert_eq!(
        text(&records.concat()),
        "0 0 0 1\n1 0 0 1\n2 0 4294967295 1\n"
    );
}

#[test]
fn an_outcome_is_printed_as_a_code() {
    let records = [
        create(1, 5, 2),
        delay(9),
        outcome_of(1),
        cancel(1),
        outcome_of(1),
    ];
    let want = "0 0 0 1\n1 1 0 0\n2 1 0 0\n3 0 0 1\n4 -5 0 1\n";
    assert_eq!(text(&records.concat()), want);
}

/// A reader that gives a byte at a time and is interrupted before each.
struct Dripping<'a> {
    bytes: &'a [u8],
    interrupted: bool,
}

impl Read for Dripping<'_> {
    fn read(&mut self, buffer: &mut [u8]) -> io::Result<usize> {
        self.interrupted = !self.interrupted;
        if self.interrupted {
            return Err(io::Error::from(ErrorKind::Interrupted));
        }
        let length = 1.min(self.bytes.len()).min(buffer.len());
        buffer[..length].copy_from_slice(&self.bytes[..length]);
        self.bytes = &self.bytes[length..];
        Ok(length)
    }
}

#[test]
fn the_streaming_form_prints_the_same_however_the_bytes_come() {
    let bytes = &example()[..];
    let mut input = Dripping {
        bytes,
        interrupted: false,
    };
    let mut out = Vec::new();
    trace_to(&mut input, &mut out).expect("memory does not fail");
    assert_eq!(String::from_utf8_lossy(&out), PRINTED);
}

fn run_program(argument: &str, input: &[u8]) -> (bool, String) {
    let mut child = Command::new(env!("CARGO_BIN_EXE_model"))
        .arg(argument)
        .stdin(Stdio::piped())
        .stdout(Stdio::piped())
        .stderr(Stdio::piped())
        .spawn()
        .expect("the program starts");
    // A program that refuses its argument does not read.
    let _ = child.stdin.take().expect("a pipe").write_all(input);
    let output = child.wait_with_output().expect("the program ends");
    let printed = String::from_utf8(output.stdout).expect("the trace is text");
    (output.status.success(), printed)
}

#[test]
fn the_program_traces_standard_input() {
    let want = (true, String::from(PRINTED));
    assert_eq!(run_program("trace", &example()), want);
    assert_eq!(run_program("trace", &[]), (true, String::new()));
    assert_eq!(run_program("other", &[]), (false, String::new()));
}
