//! Malformed records (−8), unsound tables and areas of a wrong length (−7): −7 is tested first
//! and writes nothing at all.

mod common;

use common::*;
use model::{door, fresh, record, sound, AREA, TABLE};

/// The used fields of the operations, as document 01's table writes them; 21 and 22 are order 7's, and
/// 23 and 24 order 8's: "Operation 3 is gone."
const USES: [(u8, &str); 24] = [
    (0, ""),
    (1, "object priority number"),
    (2, "object"),
    (4, "object"),
    (5, "object"),
    (6, "number"),
    (7, "object"),
    (8, "object number data"),
    (9, "object data"),
    (10, "number"),
    (11, "object number"),
    (12, "object"),
    (13, "object number"),
    (14, "object"),
    (15, "object number"),
    (16, "object number"),
    (17, ""),
    (18, ""),
    (19, ""),
    (20, "object"),
    (21, "number"),
    (22, ""),
    (23, "object priority"),
    (24, "object number"),
];

/// The bytes of each field.
const FIELDS: [(&str, std::ops::Range<usize>); 4] = [
    ("object", 1..2),
    ("priority", 2..3),
    ("number", 4..8),
    ("data", 8..12),
];

#[test]
fn an_unused_field_must_be_zero_and_a_used_one_need_not() {
    for (operation, uses) in USES {
        let uses: Vec<&str> = uses.split_whitespace().collect();
        for (field, bytes) in FIELDS {
            for byte in bytes {
                for value in [1, 128, 255] {
                    let mut record = record(operation, 0, 0, 0, 0);
                    record[byte] = value;
                    let (code, _) = busy().ask(&record);
                    assert_eq!(code != -8, uses.contains(&field), "{operation} {field}");
                }
            }
        }
    }
}

#[test]
fn byte_3_must_be_zero() {
    for operation in 0..=24 {
        for value in 1..=255 {
            let mut record = record(operation, 1, 1, 1, 1);
            record[3] = value;
            busy().refused(record, -8);
            let mut record = common::tick();
            record[0] = operation;
            record[3] = value;
            busy().refused(record, -8);
        }
    }
}

/// Order 8: "−8 for 3 and above 24."
#[test]
fn operation_3_and_those_above_24_are_refused() {
    for operation in [3].into_iter().chain(25..=255) {
        busy().refused(record(operation, 0, 0, 0, 0), -8);
        busy().refused(record(operation, 1, 5, 3, 0), -8);
        busy().refused(record(operation, 1, 5, 0, 0), -8);
        busy().refused(record(operation, 1, 0, 3, 0), -8);
    }
    for (operation, _) in USES {
        assert_ne!(busy().ask(&record(operation, 0, 0, 0, 0)).0, -8);
    }
}

#[test]
fn records_of_any_length_but_12_are_refused() {
    for length in (0..=16).chain([24, 600]) {
        for operation in [0, 3, 17, 19, 20, 21, 24, 25, 255] {
            let mut record = vec![0; length];
            if let Some(first) = record.first_mut() {
                *first = operation;
            }
            let (code, value) = busy().ask(&record);
            assert_eq!(value, 0);
            let malformed = length != 12 || operation == 3 || operation > 24;
            assert_eq!(
                code == -8,
                malformed,
                "length {length}, operation {operation}"
            );
        }
    }
}

#[test]
fn a_good_record_cut_or_lengthened_is_refused() {
    let mut long = create(8, 5, 3).to_vec();
    long.resize(16, 7);
    for length in 0..=16 {
        let want = if length == 12 { 0 } else { -8 };
        assert_eq!(busy().ask(&long[..length]), (want, 0), "length {length}");
    }
}

/// Calls the door, expects −7, and checks that neither table nor area is written.
fn refused_unsound(table: &[u8], record: &[u8], area: usize) {
    let (mut lent, mut answer) = (table.to_vec(), vec![0xA5; area]);
    let code = door(&mut lent, record, &mut answer);
    let results = format!("got {code}, want -7; area of {area} bytes {answer:02x?}");
    let case = case(table, record, &lent, &results);
    assert!(code == -7 && lent == table, "{case}");
    assert!(answer.iter().all(|&byte| byte == 0xA5), "{case}");
}

#[test]
fn areas_of_any_length_but_8_are_refused_and_left_alone() {
    for area in (0..=16).filter(|&area| area != AREA) {
        refused_unsound(&fresh(), &tick(), area);
        refused_unsound(&busy().table, &create(8, 5, 1), area);
    }
    let mut area = [0; 8];
    assert_eq!(door(&mut fresh(), &tick(), &mut area), 0);
}

#[test]
fn tables_of_any_length_but_600_are_refused_and_left_alone() {
    let mut long = fresh().to_vec();
    long.resize(1_200, 0);
    for length in [0, 1, 12, 24, 575, 576, 577, 599, 601, 624, 1_200] {
        assert!(!sound(&long[..length]), "length {length}");
        refused_unsound(&long[..length], &tick(), 8);
    }
    assert!(sound(&long[..TABLE]));
}

#[test]
fn unsound_comes_before_malformed_and_every_other_refusal() {
    let mut unsound = busy().table;
    unsound[599] = 1;
    let refused = [create(0, 32, 0), delete(16), unlock(), post(8, 0)];
    for record in refused {
        refused_unsound(&unsound, &record, 8);
        refused_unsound(&busy().table, &record, 7);
    }
    let mut byte_3 = tick();
    byte_3[3] = 1;
    let malformed: [&[u8]; 5] = [&[], &[0; 11], &[0; 13], &[99; 12], &byte_3];
    for record in malformed {
        refused_unsound(&unsound, record, 8);
        refused_unsound(&unsound, record, 9);
        refused_unsound(&busy().table, record, 0);
        assert_eq!(busy().ask(record), (-8, 0));
    }
    refused_unsound(&unsound, &tick(), 8);
    refused_unsound(&[0; TABLE], &tick(), 8);
}
