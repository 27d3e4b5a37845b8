//! Tables and records as text for a person who reads a failing case.

use crate::request::RECORD;
use crate::table::{at, WIDTH};

/// The table's records that are not all zero, a line each: the record's name and its bytes in
/// hex. The kernel's record is always shown.
pub fn show(table: &[u8]) -> String {
    let mut text = format!("table of {} bytes\n", table.len());
    for (index, record) in table.chunks(WIDTH).enumerate() {
        let start = index * WIDTH;
        if start == at::RUNNING || record.iter().any(|&byte| byte != 0) {
            text += &format!("  {:<12} {}\n", name(index), hex(record));
        }
    }
    text
}

/// The record's bytes in hex.
pub fn show_record(record: &[u8]) -> String {
    let mark = if record.len() == RECORD {
        ""
    } else {
        " (short or long)"
    };
    format!("record {}{mark}", hex(record))
}

fn name(index: usize) -> String {
    match index {
        0..=15 => format!("thread {index}"),
        16..=23 => format!("semaphore {}", index - 16),
        24 => String::from("kernel"),
        _ => String::from("beyond"),
    }
}

fn hex(bytes: &[u8]) -> String {
    let fours = bytes.chunks(4).map(|four| {
        let pairs: Vec<String> = four.iter().map(|byte| format!("{byte:02x}")).collect();
        pairs.join("")
    });
    fours.collect::<Vec<String>>().join(" ")
}
