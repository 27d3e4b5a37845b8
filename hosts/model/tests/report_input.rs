//! The report program's input: where it ends, where it is stopped and where it fails, however the
//! bytes come.

mod common;

use std::io::{self, ErrorKind, Read, Write};
use std::process::{Command, Stdio};

use common::*;
use model::{random_trace, report, report_to, Rng, MOST_RECORDS};

/// What is printed of an input that comes by this reader.
fn printed(input: &mut dyn Read) -> String {
    let mut out = Vec::new();
    report_to(input, &mut out).expect("memory does not fail");
    String::from_utf8(out).expect("the report is text")
}

/// A reader of so many ticks.
fn ticks(number: usize) -> impl Read {
    let tick = tick();
    let bytes = (0..number * 12).map(move |at| tick[at % 12]);
    Bytes(bytes)
}

/// A reader over bytes that are made as they are read.
struct Bytes<Made: Iterator<Item = u8>>(Made);

impl<Made: Iterator<Item = u8>> Read for Bytes<Made> {
    fn read(&mut self, buffer: &mut [u8]) -> io::Result<usize> {
        let made = buffer.iter_mut().zip(&mut self.0);
        Ok(made.map(|(place, byte)| *place = byte).count())
    }
}

/// "If whole records are left after 1,000,000, a line `stopped` comes before the report": 11 bytes
/// more are no whole record, and the tick that they begin is not served when it is whole.
#[test]
fn whole_records_after_1_000_000_stop_the_report() {
    let rest = &tick()[..11];
    assert_eq!(
        printed(&mut ticks(MOST_RECORDS).chain(rest)),
        "0 1000000 0\n"
    );
    let more = &mut ticks(MOST_RECORDS + 1);
    assert_eq!(printed(more), "stopped\n0 1000000 0\n");
}

/// Refused records count, as those of bytes 255 are, and the rest of an input without end is left
/// unread.
#[test]
fn an_input_without_end_is_stopped() {
    assert_eq!(printed(&mut io::repeat(255)), "stopped\n0 0 0\n");
}

/// A reader that gives a byte at a time and is interrupted before each; at its end it fails or not.
struct Dripping<'a> {
    bytes: &'a [u8],
    interrupted: bool,
    fails: bool,
}

impl Read for Dripping<'_> {
    fn read(&mut self, buffer: &mut [u8]) -> io::Result<usize> {
        self.interrupted = !self.interrupted;
        if self.interrupted {
            return Err(io::Error::from(ErrorKind::Interrupted));
        }
        let Some((first, rest)) = self.bytes.split_first() else {
            return match self.fails {
                true => Err(io::Error::from(ErrorKind::BrokenPipe)),
                false => Ok(0),
            };
        };
        buffer[0] = *first;
        self.bytes = rest;
        Ok(1)
    }
}

fn dripping(bytes: &[u8], fails: bool) -> Dripping<'_> {
    let interrupted = false;
    Dripping {
        bytes,
        interrupted,
        fails,
    }
}

#[test]
fn the_streaming_form_prints_the_same_however_the_bytes_come() {
    let trace = random_trace(&mut Rng::new(1), 300);
    for length in [0, 1, 11, 12, 13, 3_599, 3_600] {
        let bytes = &trace[..length];
        let whole = String::from_utf8(report(bytes)).expect("the report is text");
        assert_eq!(printed(&mut dripping(bytes, false)), whole);
    }
}

#[test]
fn nothing_is_printed_of_an_input_that_cannot_be_read() {
    let trace = random_trace(&mut Rng::new(2), 30);
    for length in [0, 11, 12, 360] {
        let mut out = Vec::new();
        let ended = report_to(&mut dripping(&trace[..length], true), &mut out);
        assert_eq!(ended.expect_err("it fails").kind(), ErrorKind::BrokenPipe);
        assert_eq!(out, b"");
    }
}

#[test]
fn the_program_reports_standard_input() {
    let mut child = Command::new(env!("CARGO_BIN_EXE_model"))
        .arg("report")
        .stdin(Stdio::piped())
        .stdout(Stdio::piped())
        .spawn()
        .expect("the program starts");
    let input = [create(1, 5, 2), create(2, 5, 3), tick()].concat();
    let mut pipe = child.stdin.take().expect("a pipe");
    pipe.write_all(&input).expect("the program reads");
    drop(pipe);
    let output = child.wait_with_output().expect("the program ends");
    assert!(output.status.success());
    assert_eq!(output.stdout, b"0 0 0\n1 1 3\n2 0 -3\n");
}
