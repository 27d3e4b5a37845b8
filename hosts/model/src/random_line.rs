//! Random records that −8 does not refuse, and random lines that the writer accepts.

use crate::listing::{list, LONGEST_LINE};
use crate::names::{operation as op, FOREVER, LONGEST};
use crate::request::{record, uses, RECORD};
use crate::rng::Rng;

/// A random record that −8 does not refuse. All operations are equally frequent; the fields that
/// an operation uses hold anything, often a boundary.
pub fn random_request(rng: &mut Rng) -> [u8; RECORD] {
    let operation = rng.pick(&op::EACH);
    let uses = uses(operation).expect("there is this operation");
    let mut small = |used| if used { random_byte(rng) } else { 0 };
    let (object, priority) = (small(uses.object), small(uses.priority));
    let mut large = |used| if used { random_word(rng) } else { 0 };
    let (number, data) = (large(uses.number), large(uses.data));
    record(operation, object, priority, number, data)
}

/// So many random records that −8 does not refuse.
pub fn random_requests(rng: &mut Rng, records: usize) -> Vec<u8> {
    (0..records).flat_map(|_| random_request(rng)).collect()
}

/// A random line that the writer accepts, with its line feed. One in three has zeros in front of
/// its numbers, and one in three so many that it has 40 characters.
pub fn random_line(rng: &mut Rng) -> Vec<u8> {
    let mut line = list(&random_request(rng)).text;
    let room = LONGEST_LINE + 1 - line.len();
    let few = rng.below(room + 1);
    for _ in 0..rng.pick(&[0, few, room]) {
        let begins = |&at: &usize| at == 0 || line[at - 1] == b' ';
        let numbers: Vec<usize> = (0..line.len()).filter(begins).collect();
        line.insert(rng.pick(&numbers), b'0');
    }
    line
}

/// So many random lines that the writer accepts.
pub fn random_listing(rng: &mut Rng, lines: usize) -> Vec<u8> {
    (0..lines).flat_map(|_| random_line(rng)).collect()
}

/// What a field of one byte holds: a boundary of the kernel or of the decimal digits, or anything.
fn random_byte(rng: &mut Rng) -> u8 {
    let any = rng.bits() as u8;
    let edge = rng.pick(&[
        0, 1, 7, 8, 9, 10, 15, 16, 31, 32, 99, 100, 199, 200, 254, 255,
    ]);
    rng.pick(&[any, edge])
}

/// What a field of four bytes holds: a boundary, a number of any count of digits, or anything.
fn random_word(rng: &mut Rng) -> u32 {
    let any = rng.bits() as u32;
    let power = 10_u32.pow(rng.between(0, 9));
    let edge = rng.pick(&[0, LONGEST, FOREVER, u32::MAX - 1, u32::MAX, 1 << 31]);
    rng.pick(&[any, any % power, power - 1, power, edge])
}
