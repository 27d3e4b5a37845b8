//! Order 2: records are listed as lines and lines are written as records, both ways; the lister
//! stops at a record that −8 refuses. `bad_lines.rs` has the lines that stop the writer.

mod common;

use std::io::Write;
use std::process::{Command, Output, Stdio};

use common::*;
use model::{door, fresh, list, random_line, random_listing, random_requests, write};
use model::{random_record, record, Listed, Rng, Written, AREA, RECORD};

/// Each operation with the fields that it uses, as a record and as a line.
fn every_operation() -> [([u8; RECORD], &'static str); 24] {
    [
        (yield_turn(), "0"),
        (create(5, 6, 8), "1 5 6 8"),
        (delete(5), "2 5"),
        (suspend(2), "4 2"),
        (resume(15), "5 15"),
        (delay(20), "6 20"),
        (cancel(1), "7 1"),
        (send(4, 100_000, 4_294_967_295), "8 4 100000 4294967295"),
        (interrupt_send(16, 70_000), "9 16 70000"),
        (receive(4_294_967_295), "10 4294967295"),
        (make(7, 99), "11 7 99"),
        (drop_semaphore(8), "12 8"),
        (pend(1, 50), "13 1 50"),
        (abort(0), "14 0"),
        (post(3, 16_777_216), "15 3 16777216"),
        (interrupt_post(6, 256), "16 6 256"),
        (lock(), "17"),
        (unlock(), "18"),
        (tick(), "19"),
        (outcome_of(255), "20 255"),
        (ticks(99_999), "21 99999"),
        (nearest(), "22"),
        (set_priority(255, 254), "23 255 254"),
        (set_turn(15, 99_999), "24 15 99999"),
    ]
}

/// All of it is written, as these records.
fn written(records: &[u8]) -> Written {
    let records = records.to_vec();
    Written { records, bad: None }
}

/// All of it is listed, as this text.
fn listed(text: &[u8]) -> Listed {
    let text = text.to_vec();
    Listed { text, bad: None }
}

#[test]
fn a_line_is_the_operation_and_the_fields_it_uses_in_record_order() {
    for (record, line) in every_operation() {
        let text = format!("{line}\n").into_bytes();
        assert_eq!(list(&record), listed(&text), "{line}");
        assert_eq!(write(&text), written(&record), "{line}");
    }
    let records = every_operation().map(|(record, _)| record).concat();
    let text = every_operation()
        .map(|(_, line)| format!("{line}\n"))
        .concat();
    assert_eq!(list(&records), listed(text.as_bytes()));
    assert_eq!(write(text.as_bytes()), written(&records));
}

#[test]
fn every_byte_of_a_field_is_listed_and_written() {
    for shift in 0..32 {
        let value = 1 << shift;
        let record = record(8, 1, 0, value, !value);
        let text = format!("8 1 {value} {}\n", !value);
        assert_eq!(list(&record), listed(text.as_bytes()));
        assert_eq!(write(text.as_bytes()), written(&record));
    }
}

#[test]
fn listing_a_record_and_writing_it_again_gives_the_same_bytes() {
    let records = random_requests(&mut Rng::new(1), 100_000);
    let text = list(&records);
    assert_eq!(text.bad, None);
    assert_eq!(write(&text.text), written(&records));
    for record in records.chunks(RECORD).take(1_000) {
        assert_eq!(write(&list(record).text), written(record));
    }
}

/// The line without the zeros in front of its numbers.
fn without_zeros(line: &str) -> String {
    let bare = |word: &str| match word.trim_start_matches('0') {
        "" => String::from("0"),
        digits => String::from(digits),
    };
    let words: Vec<String> = line.trim_end().split(' ').map(bare).collect();
    words.join(" ") + "\n"
}

#[test]
fn writing_a_line_and_listing_it_again_gives_the_same_line_without_leading_zeros() {
    let mut rng = Rng::new(2);
    let mut same = 0;
    for _ in 0..100_000 {
        let line = random_line(&mut rng);
        let again = list(&write(&line).records);
        let line = String::from_utf8(line).expect("a line is text");
        assert_eq!(again, listed(without_zeros(&line).as_bytes()), "{line:?}");
        same += usize::from(again.text == line.as_bytes());
    }
    assert!(same > 30_000, "{same} lines have no leading zeros");
}

#[test]
fn random_lines_are_accepted_and_often_have_40_characters() {
    let text = random_listing(&mut Rng::new(3), 1_000);
    let written = write(&text);
    assert_eq!((written.records.len(), written.bad), (12_000, None));
    let lines = text.split_inclusive(|&byte| byte == b'\n');
    let longest = lines.filter(|line| line.len() == 41).count();
    assert!(longest > 300, "{longest} lines of 40 characters");
}

/// The lister refuses the record, wherever it stands, with the earlier lines out.
fn bad_record(record: &[u8]) {
    for before in [0, 1, 2, 300] {
        let records = [&tick().repeat(before), record].concat();
        let (text, bad) = ("19\n".repeat(before).into_bytes(), Some(before as u64));
        assert_eq!(list(&records), Listed { text, bad }, "{record:?}");
    }
}

#[test]
fn the_lister_stops_at_the_first_record_that_minus_8_refuses() {
    for operation in [3].into_iter().chain(25..=255) {
        bad_record(&record(operation, 0, 0, 0, 0));
        bad_record(&record(operation, 1, 5, 2, 0));
    }
    for (record, _) in every_operation() {
        let mut bent = record;
        bent[3] = 1;
        bad_record(&bent);
    }
    let unused = [
        record(17, 1, 0, 0, 0),
        record(20, 0, 1, 0, 0),
        record(21, 1, 0, 1, 0),
        record(21, 0, 0, 1, 1),
        record(22, 0, 0, 1, 0),
        record(23, 1, 5, 2, 0),
        record(24, 1, 5, 2, 0),
        record(9, 0, 0, 1, 0),
        record(15, 0, 0, 0, 1),
        record(10, 0, 0, 0, 1 << 31),
    ];
    for record in unused {
        bad_record(&record);
        bad_record(&[record, tick()].concat());
        bad_record(&[record, unused[0]].concat());
    }
}

#[test]
fn what_the_lister_refuses_is_what_the_door_answers_minus_8_to() {
    let mut rng = Rng::new(4);
    for _ in 0..100_000 {
        let mut record = random_record(&mut rng, &fresh());
        if rng.one_in(4) {
            record[rng.below(RECORD)] = rng.bits() as u8;
        }
        let code = door(&mut fresh(), &record, &mut [0; AREA]);
        assert_eq!(list(&record).bad.is_some(), code == -8, "{record:?}");
    }
}

#[test]
fn left_over_bytes_are_a_bad_record() {
    for length in 1..RECORD {
        bad_record(&vec![0; length]);
        bad_record(&create(1, 5, 8)[..length]);
    }
}

#[test]
fn no_records_give_an_empty_listing() {
    assert_eq!(list(&[]), listed(b""));
}

/// The model's program with this word, fed this input.
fn program(word: &str, input: &[u8]) -> Output {
    let mut child = Command::new(env!("CARGO_BIN_EXE_model"))
        .arg(word)
        .stdin(Stdio::piped())
        .stdout(Stdio::piped())
        .stderr(Stdio::piped())
        .spawn()
        .expect("the program starts");
    let mut pipe = child.stdin.take().expect("a pipe");
    pipe.write_all(input).expect("the program reads");
    drop(pipe);
    child.wait_with_output().expect("the program ends")
}

/// The program's status, standard output and standard error are these.
fn prints(word: &str, input: &[u8], status: i32, out: &[u8], said: &str) {
    let output = program(word, input);
    assert_eq!(output.status.code(), Some(status), "model {word}");
    assert_eq!(output.stdout, out, "model {word}");
    assert_eq!(String::from_utf8_lossy(&output.stderr), said);
}

#[test]
fn the_program_writes_and_lists() {
    let records = [create(5, 6, 8), tick()].concat();
    let text = b"1 5 6 8\n19\n";
    prints("write", text, 0, &records, "");
    prints("list", &records, 0, text, "");
    prints("write", b"", 0, b"", "");
    prints("list", b"", 0, b"", "");
    prints("write", b"1 5 6 8\n19", 1, &records[..12], "bad line 1\n");
    prints("list", &records[..23], 1, b"1 5 6 8\n", "bad record 1\n");
}
