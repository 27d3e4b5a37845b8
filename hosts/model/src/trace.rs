//! The trace program: it reads request records, starts fresh and prints a line for each.

use std::io::{self, BufReader, BufWriter, ErrorKind, Read, Write};

use crate::door::{door, AREA};
use crate::request::RECORD;
use crate::table::{at, fresh, word};

/// What the trace program prints for this input.
pub fn trace(input: &[u8]) -> Vec<u8> {
    let mut out = Vec::new();
    trace_to(&mut &input[..], &mut out).expect("reading and writing memory does not fail");
    out
}

/// "It reads request records from standard input, starts fresh, and prints per record: record
/// number from 0, code, value, running thread after it, single spaces, line feed. Left-over bytes
/// (1 to 11) give a last line `short N`."
pub fn trace_to(input: &mut dyn Read, out: &mut dyn Write) -> io::Result<()> {
    let mut input = BufReader::new(input);
    let mut out = BufWriter::new(out);
    let mut table = fresh();
    let mut record = [0; RECORD];
    let mut area = [0; AREA];
    for number in 0u64.. {
        let length = fill(&mut input, &mut record)?;
        if length < RECORD {
            if length > 0 {
                writeln!(out, "short {length}")?;
            }
            break;
        }
        let code = door(&mut table, &record, &mut area);
        let (value, running) = (word(&area, 4), table[at::RUNNING]);
        writeln!(out, "{number} {code} {value} {running}")?;
    }
    out.flush()
}

/// Reads until the buffer is full or the input ends; gives the bytes read.
pub(crate) fn fill(input: &mut dyn Read, buffer: &mut [u8]) -> io::Result<usize> {
    let mut length = 0;
    while length < buffer.len() {
        match input.read(&mut buffer[length..]) {
            Ok(0) => break,
            Ok(read) => length += read,
            Err(error) if error.kind() == ErrorKind::Interrupted => {}
            Err(error) => return Err(error),
        }
    }
    Ok(length)
}
