//! The compiled write and list answer a pipe as it speaks: what comes is put out before more is read, and a bad line or record ends them
//! although the pipe stays open. The report waits for the end of the trace, and ends although the pipe stays open where it is stopped.

use model::{list, random_line, random_listing, random_requests, random_trace, write};
use model::{Rng, MOST_RECORDS, RECORD};
use programs::{Open, Program::List, Program::Report, Program::Write};
use std::process::{Command, Stdio};
use std::thread::sleep;
use std::time::Duration;

/// Long enough for the program to read what it was given.
const PAUSE: Duration = Duration::from_millis(30);

#[test]
fn a_record_comes_out_as_its_line_comes_in() {
    let mut rng = Rng::new(31);
    let mut program = Open::start(Write);
    for _ in 0..200 {
        let line = random_line(&mut rng);
        program.put(&line);
        program.gives(&write(&line).records);
    }
    program.put(b"\n");
    program.ends("bad line 200\n");
}

#[test]
fn a_line_comes_out_as_its_record_comes_in() {
    let mut program = Open::start(List);
    for record in random_requests(&mut Rng::new(32), 200).chunks(RECORD) {
        program.put(record);
        program.gives(&list(record).text);
    }
    program.put(&[25; RECORD]);
    program.ends("bad record 200\n");
}

/// The lines before the one that is held come out, and the held one as soon as its line feed comes.
#[test]
fn a_line_is_held_until_its_line_feed_comes() {
    let mut rng = Rng::new(33);
    let mut program = Open::start(Write);
    for lines in [1, 2, 30, 2, 1] {
        let (before, last) = (random_listing(&mut rng, lines), "0".repeat(40));
        program.put(&[&before[..], last.as_bytes()].concat());
        program.gives(&write(&before).records);
        sleep(PAUSE);
        program.put(b"\n");
        program.gives(&[0; RECORD]);
    }
    program.put(b"x\n");
    program.ends("bad line 41\n");
}

#[test]
fn bytes_are_held_until_the_record_is_whole() {
    let mut program = Open::start(List);
    for length in 1..RECORD {
        let records = random_requests(&mut Rng::new(34), 2);
        let (front, back) = records.split_at(RECORD + length);
        program.put(front);
        program.gives(&list(&records[..RECORD]).text);
        sleep(PAUSE);
        program.put(back);
        program.gives(&list(&records[RECORD..]).text);
    }
    program.put(&[255; RECORD]);
    program.ends("bad record 22\n");
}

/// The program takes the good lines and then these parts, of which the last ends it.
fn ends_at(good: usize, parts: &[&[u8]]) {
    let before = random_listing(&mut Rng::new(35), good);
    let mut program = Open::start(Write);
    program.put(&before);
    program.gives(&write(&before).records);
    for part in parts {
        sleep(PAUSE);
        program.put(part);
    }
    program.ends(&format!("bad line {good}\n"));
}

#[test]
fn a_line_of_41_characters_ends_the_writer_although_no_line_feed_comes() {
    for good in [0, 1, 100] {
        ends_at(good, &[&[b'0'; 41]]);
        ends_at(good, &[&[b'0'; 42]]);
        ends_at(good, &[&[b'0'; 40], b"0"]);
        ends_at(good, &[&[b'0'; 20], &[b'0'; 20], b" "]);
        ends_at(good, &[&[b'0'; 30], &[b' '; 30]]);
        ends_at(good, &[&[b'0'; 12_000]]);
    }
}

#[test]
fn a_bad_line_ends_the_writer_although_the_pipe_stays_open() {
    let lines: [&[u8]; 10] = [
        b"\n",
        b"21\n",
        b"22 0\n",
        b"3 1 5 8\n",
        b"24 1 5 8\n",
        b"25\n",
        b"19 \n",
        b" 19\n",
        b"20 256\n",
        b"19\r\n",
    ];
    for line in lines {
        ends_at(3, &[line]);
        ends_at(3, &[&[line, b"19\n"].concat()]);
        ends_at(3, &[&line[..line.len() - 1], b"\n"]);
    }
}

/// The report is open after 1,000,000 records and 11 bytes more, and the byte that makes a whole record of them ends it.
#[test]
fn a_stopped_report_ends_although_the_pipe_stays_open() {
    let mut program = Open::start(Report);
    program.put(&vec![255; MOST_RECORDS * RECORD]);
    for _ in 0..RECORD {
        sleep(PAUSE);
        program.waits();
        program.put(&[19]);
    }
    program.gives(b"stopped\n0 0 0\n");
    program.ends("");
}

/// What `yes` puts out are refused records without end. The closed pipe ends it, and not its time.
#[test]
fn a_stopped_report_ends_although_more_and_more_comes() {
    let mut yes = Command::new("timeout");
    yes.args(["30", "yes"]).stdout(Stdio::piped());
    let mut feeder = yes.spawn().expect("yes starts");
    let pipe = feeder.stdout.take().expect("its standard output");
    let ended = Report.command().stdin(pipe).output();
    let output = ended.expect("the program ends");
    assert_eq!(output.stdout, b"stopped\n0 0 0\n");
    assert_eq!(output.stderr, b"");
    let status = feeder.wait().expect("yes ends");
    assert_ne!(status.code(), Some(124), "its time is over");
}

#[test]
fn nothing_is_reported_while_the_pipe_is_open() {
    let trace = random_trace(&mut Rng::new(36), 3_000);
    let mut program = Open::start(Report);
    for part in trace.chunks(5_000) {
        program.put(part);
        sleep(PAUSE);
        program.waits();
    }
    program.close();
    program.gives(&model::report(&trace));
    program.ends("");
}
