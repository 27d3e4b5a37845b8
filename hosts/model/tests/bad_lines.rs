//! Order 2: each kind of line that stops the writer, beside a line that is accepted.

use model::{operation, record, write, Written, LONGEST_LINE};

/// A good line, and its record.
const GOOD: &str = "17\n";
const GOOD_RECORD: [u8; 12] = [17, 0, 0, 0, 0, 0, 0, 0, 0, 0, 0, 0];

/// The writer takes the line, given without its line feed, for this record.
fn accepted(line: &str, record: [u8; 12]) {
    let text = format!("{GOOD}{line}\n{GOOD}");
    let records = [GOOD_RECORD, record, GOOD_RECORD].concat();
    let written = write(text.as_bytes());
    assert_eq!(written, Written { records, bad: None }, "{line:?}");
}

/// The writer stops at this text, a line with its line feed or the last line without one: as the
/// first line with nothing out, and as a later one with the earlier records out.
fn bad_text(text: &[u8]) {
    for before in [0, 1, 2, 300] {
        let good = GOOD.repeat(before).into_bytes();
        let written = write(&[&good, text].concat());
        let records = GOOD_RECORD.repeat(before);
        let bad = Some(before as u64);
        assert_eq!(written, Written { records, bad }, "{}", text.escape_ascii());
    }
}

/// The line, given without its line feed, is bad, whether good lines come after it or nothing.
fn bad(line: &[u8]) {
    bad_text(&[line, b"\n"].concat());
    bad_text(&[line, b"\n", GOOD.as_bytes()].concat());
}

#[test]
fn a_line_of_40_characters_is_accepted_and_one_of_41_is_bad() {
    let zeros = |length| "0".repeat(length);
    let tick = record(19, 0, 0, 0, 0);
    accepted(&(zeros(38) + "19"), tick);
    bad((zeros(39) + "19").as_bytes());
    accepted(&zeros(40), record(0, 0, 0, 0, 0));
    for length in [41, 42, 80, 81, 255, 256, 257, 12_288, 12_289, 100_000] {
        bad(zeros(length).as_bytes());
    }
    let send = |zeros: &str| format!("8 255 4294967295 {zeros}4294967295");
    let longest = send(&zeros(LONGEST_LINE - 27));
    accepted(&longest, record(8, 255, 0, u32::MAX, u32::MAX));
    bad(send(&zeros(LONGEST_LINE - 26)).as_bytes());
}

#[test]
fn every_line_ends_in_a_line_feed() {
    accepted("19", record(19, 0, 0, 0, 0));
    for text in ["19", "1", "8 255 1 1", " ", "x", "00", "19\r", "19\0"] {
        bad_text(text.as_bytes());
    }
    bad_text("0".repeat(40).as_bytes());
    bad_text("0".repeat(41).as_bytes());
    assert_eq!(write(b"19\n20 1").records, record(19, 0, 0, 0, 0));
}

#[test]
fn an_operation_that_minus_8_refuses_is_bad() {
    accepted("20 1", record(20, 1, 0, 0, 0));
    accepted("21 1", record(21, 0, 0, 1, 0));
    accepted("22", record(22, 0, 0, 0, 0));
    accepted("23 1 1", record(23, 1, 1, 0, 0));
    accepted("24 1 1", record(24, 1, 0, 1, 0));
    for fields in ["", " 1", " 1 1", " 1 1 1"] {
        for operation in [3].into_iter().chain(25..=600) {
            bad(format!("{operation}{fields}").as_bytes());
        }
        for operation in [1_u64 << 32, (1 << 32) + 17, u64::MAX, u64::MAX - 255 + 17] {
            bad(format!("{operation}{fields}").as_bytes());
        }
    }
    bad(b"18446744073709551616");
    bad(b"18446744073709551633");
    bad("9".repeat(40).as_bytes());
}

#[test]
fn a_number_too_large_for_its_field_is_bad() {
    accepted("1 255 255 4294967295", record(1, 255, 255, u32::MAX, 0));
    bad(b"1 256 255 4294967295");
    bad(b"1 255 256 4294967295");
    bad(b"1 255 255 4294967296");
    accepted("9 255 4294967295", record(9, 255, 0, 0, u32::MAX));
    bad(b"9 256 4294967295");
    bad(b"9 255 4294967296");
    accepted("10 4294967295", record(10, 0, 0, u32::MAX, 0));
    accepted("23 255 255", record(23, 255, 255, 0, 0));
    bad(b"23 256 255");
    bad(b"23 255 256");
    accepted("24 255 4294967295", record(24, 255, 0, u32::MAX, 0));
    bad(b"24 256 4294967295");
    bad(b"24 255 4294967296");
    let wrapping = ["4294967297", "9999999999", "18446744073709551615"];
    let longer = ["18446744073709551616", "18446744073709551617"];
    for large in wrapping.into_iter().chain(longer) {
        bad(format!("10 {large}").as_bytes());
        bad(format!("20 {large}").as_bytes());
        bad(format!("8 1 1 {large}").as_bytes());
        bad(format!("1 1 {large} 1").as_bytes());
    }
    bad(format!("10 {}", "9".repeat(37)).as_bytes());
    bad(format!("10 1{}", "0".repeat(36)).as_bytes());
}

#[test]
fn single_spaces_stand_between_the_numbers_and_nowhere_else() {
    accepted("1 5 6 8", record(1, 5, 6, 8, 0));
    for line in ["1  5 6 8", "1 5  6 8", "1 5 6  8", "1   5 6 8"] {
        bad(line.as_bytes());
    }
    for line in [" 1 5 6 8", "1 5 6 8 ", " 1 5 6 8 ", "  1 5 6 8"] {
        bad(line.as_bytes());
    }
    for line in ["1,5,6,8", "1\t5\t6\t8", "1 5 6\t8", "1_5 6 8", "1568"] {
        bad(line.as_bytes());
    }
    accepted("17", GOOD_RECORD);
    bad(b"17 ");
    bad(b" 17");
    bad(b"1 7");
}

#[test]
fn an_empty_line_is_bad() {
    for line in ["", " ", "  ", "\t", "\r", "\0", "\u{b}", "\u{c}"] {
        bad(line.as_bytes());
    }
    bad_text(b"\n\n");
    assert_eq!(write(b"17\n\n17\n").bad, Some(1));
}

#[test]
fn a_character_that_is_no_digit_and_no_space_is_bad_at_every_place() {
    let (line, good) = (b"1 5 6 8", record(1, 5, 6, 8, 0));
    assert_eq!(write(b"1 5 6 8\n").records, good);
    let others = (0..=255).filter(|byte: &u8| !byte.is_ascii_digit());
    for other in others.filter(|&byte| byte != b' ' && byte != b'\n') {
        for at in 0..=line.len() {
            let (front, back) = line.split_at(at);
            bad(&[front, &[other], back].concat());
            if at < line.len() {
                bad(&[front, &[other], &back[1..]].concat());
            }
        }
    }
}

#[test]
fn signs_points_and_other_notations_are_bad() {
    accepted("6 20", record(6, 0, 0, 20, 0));
    for line in [
        "6 +20", "6 -20", "+6 20", "-6 20", "6 20.", "6 2e1", "6 20u",
    ] {
        bad(line.as_bytes());
    }
    for line in [
        "6 0x14", "6 1_000", "6 1,000", "6 20\r", "6 20;", "6 ２0", "６ 20",
    ] {
        bad(line.as_bytes());
    }
    accepted("6 0", record(6, 0, 0, 0, 0));
    bad(b"6 -0");
    bad(b"6 +0");
}

#[test]
fn a_line_has_exactly_the_fields_that_its_operation_uses() {
    let fields = [
        0, 3, 1, 1, 1, 1, 1, 3, 2, 1, 2, 1, 2, 1, 2, 2, 0, 0, 0, 1, 1, 0, 2, 2,
    ];
    for (operation, uses) in operation::EACH.into_iter().zip(fields) {
        for given in 0..=5 {
            let line = format!("{operation}{}", " 0".repeat(given));
            if given == uses {
                accepted(&line, record(operation, 0, 0, 0, 0));
            } else {
                bad(line.as_bytes());
            }
        }
    }
}

#[test]
fn zeros_in_front_are_accepted() {
    accepted("00", record(0, 0, 0, 0, 0));
    accepted("0017", GOOD_RECORD);
    accepted("06 00", record(6, 0, 0, 0, 0));
    accepted(
        "01 0255 000255 00004294967295",
        record(1, 255, 255, u32::MAX, 0),
    );
    bad(b"01 0256 000255 00004294967295");
    bad(b"01 0255 000255 00004294967296");
    accepted("0023 015 0031", record(23, 15, 31, 0, 0));
    accepted("024 015 000099999", record(24, 15, 0, 99_999, 0));
    bad(b"025");
    bad(b"000025 1");
    bad(b"03 1 5 2");
    bad(b"000003");
}

#[test]
fn the_writer_stops_at_the_first_bad_line() {
    let bad_lines = [
        "", "21", "22 0", "3 1 5 2", "23 1", "24 1 5 2", "25", "19 ", "6 x", "20 256",
    ];
    for first in bad_lines {
        for second in bad_lines {
            let text = format!("17\n17\n{first}\n17\n{second}\n17\n");
            let written = write(text.as_bytes());
            assert_eq!(written.bad, Some(2), "{text:?}");
            assert_eq!(written.records, [GOOD_RECORD, GOOD_RECORD].concat());
        }
    }
}

#[test]
fn an_empty_listing_gives_no_records_and_no_refusal() {
    let records = vec![];
    assert_eq!(write(b""), Written { records, bad: None });
}
