//! Order 2: the listing of a trace. A listing is written into request records, and records are
//! listed as its lines.

use crate::request::{parse, record, uses, Request, RECORD};

/// Order 2: "A line of over 40 characters before it [the line feed] [..] stops the writer there"
pub const LONGEST_LINE: usize = 40;

/// What the writer makes of a listing.
#[derive(Clone, Debug, PartialEq, Eq)]
pub struct Written {
    /// The records of all lines, or of those before the bad one.
    pub records: Vec<u8>,
    /// Order 2: "Refusals: bad line, with its number from 0."
    pub bad: Option<u64>,
}

/// What the lister makes of records.
#[derive(Clone, Debug, PartialEq, Eq)]
pub struct Listed {
    /// The lines of all records, or of those before the bad one.
    pub text: Vec<u8>,
    /// The number from 0 of the record that −8 refuses.
    pub bad: Option<u64>,
}

/// Order 2: "Every line ends in a line feed. A line of over 40 characters before it, an operation
/// that −8 refuses, a number too large for its field or anything else not of this form stops the
/// writer there with the earlier records out."
pub fn write(text: &[u8]) -> Written {
    let mut records = Vec::new();
    let lines = text.split_inclusive(|&byte| byte == b'\n');
    for (number, line) in (0..).zip(lines) {
        let record = line.strip_suffix(b"\n").and_then(record_of);
        let Some(record) = record else {
            let bad = Some(number);
            return Written { records, bad };
        };
        records.extend(record);
    }
    Written { records, bad: None }
}

/// Order 2: "Listing a record that −8 doesn't refuse, then writing it again, gives the same bytes".
/// The lister stops, with the earlier lines out, at a record that −8 refuses; left-over bytes are
/// one, as they are "not 12 bytes".
pub fn list(records: &[u8]) -> Listed {
    let mut text = Vec::new();
    for (number, record) in (0..).zip(records.chunks(RECORD)) {
        let Ok(request) = parse(record) else {
            let bad = Some(number);
            return Listed { text, bad };
        };
        text.extend(line_of(&request).bytes());
    }
    Listed { text, bad: None }
}

/// Order 2: "one request per text line, the operation's number, then the fields it uses in record
/// order, in decimal, single spaces, and out come 12-byte records." Nothing for a line, here
/// without its line feed, that is not of this form.
fn record_of(line: &[u8]) -> Option<[u8; RECORD]> {
    if line.len() > LONGEST_LINE {
        return None;
    }
    let words = line.split(|&byte| byte == b' ');
    let numbers: Vec<u64> = words.map(number).collect::<Option<_>>()?;
    let mut numbers = numbers.into_iter();
    let operation = field(true, &mut numbers)?;
    let uses = uses(operation)?;
    let record = record(
        operation,
        field(uses.object, &mut numbers)?,
        field(uses.priority, &mut numbers)?,
        field(uses.number, &mut numbers)?,
        field(uses.data, &mut numbers)?,
    );
    numbers.next().is_none().then_some(record)
}

/// "in decimal": one digit or more and nothing else. Nothing for 2^64 and above, which no field
/// holds.
fn number(word: &[u8]) -> Option<u64> {
    // Rust's own reading takes a plus sign too.
    let is_decimal = word.iter().all(u8::is_ascii_digit);
    let digits = std::str::from_utf8(word).ok().filter(|_| is_decimal)?;
    digits.parse().ok()
}

/// The value of a field: the next number where the operation uses it, else 0. Nothing for "a
/// number too large for its field", and where there is no number.
fn field<T: TryFrom<u64> + Default>(
    used: bool,
    numbers: &mut impl Iterator<Item = u64>,
) -> Option<T> {
    if used {
        T::try_from(numbers.next()?).ok()
    } else {
        Some(T::default())
    }
}

/// The line that the lister prints for a request.
fn line_of(request: &Request) -> String {
    let uses = uses(request.operation).expect("−8 refuses every other operation");
    let fields = [
        (uses.object, u32::from(request.object)),
        (uses.priority, u32::from(request.priority)),
        (uses.number, request.number),
        (uses.data, request.data),
    ];
    let used = fields.into_iter().filter(|(used, _)| *used);
    let words: String = used.map(|(_, value)| format!(" {value}")).collect();
    format!("{}{words}\n", request.operation)
}
