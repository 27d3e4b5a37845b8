//! Damage of a single character of a line, and of a single byte of a record: the compiled write and list take and refuse what the model
//! takes and refuses, and name the same line or record.

use model::{list, random_line, random_listing, random_requests, write, Rng, RECORD};
use programs::{hold, hold_each, Program, Program::List, Program::Write};
use std::collections::BTreeSet;

/// What is put into lines: the digits, the space and the line feed; bytes that are off by one from them or in the top bit; what people
/// and other programs write.
const CHARACTERS: &[u8] = b"0123456789 \n\t\x0b\x1f!/:\xb0\x80\xff\x00\r+-.,ax";

/// What is put into records: the operation that is gone, each side of the last, and of a byte's boundaries.
const BYTES: [u8; 9] = [0, 1, 3, 23, 24, 25, 127, 128, 255];

/// What happened to a character.
#[derive(Clone, Copy, Debug, PartialEq, Eq, PartialOrd, Ord)]
enum Damage {
    Deleted,
    Replaced(u8),
    /// This one stands before it.
    Inserted(u8),
}

/// A damaged line or record, and which damage it has where.
type Damaged<Kind> = (Kind, Vec<u8>);

impl Damage {
    fn every() -> impl Iterator<Item = Damage> {
        let replaced = CHARACTERS.iter().map(|&byte| Damage::Replaced(byte));
        let inserted = CHARACTERS.iter().map(|&byte| Damage::Inserted(byte));
        replaced.chain(inserted).chain([Damage::Deleted])
    }

    /// The line, with its line feed, after this happened to the character at this place.
    fn of(self, line: &[u8], at: usize) -> Vec<u8> {
        let (front, back) = line.split_at(at);
        match self {
            Damage::Deleted => [front, &back[1..]].concat(),
            Damage::Replaced(byte) => [front, &[byte], &back[1..]].concat(),
            Damage::Inserted(byte) => [front, &[byte], back].concat(),
        }
    }
}

/// Every damage of the line, at every place.
fn damaged_line(line: &[u8]) -> Vec<Damaged<(Damage, usize)>> {
    let at_each =
        |damage: Damage| (0..line.len()).map(move |at| ((damage, at), damage.of(line, at)));
    Damage::every().flat_map(at_each).collect()
}

/// The record with each of the bytes at each place; which operation it had, and where the damage is.
fn damaged_record(record: &[u8]) -> Vec<Damaged<(u8, usize)>> {
    let with = |at: usize, byte| {
        let mut bent = record.to_vec();
        bent[at] = byte;
        ((record[0], at), bent)
    };
    let at_each = |at| BYTES.map(|byte| with(at, byte));
    (0..RECORD).flat_map(at_each).collect()
}

/// Those that the model takes make one long input, and the program takes them all.
fn hold_taken<Kind>(program: Program, taken: Vec<Damaged<Kind>>) {
    let input: Vec<u8> = taken.into_iter().flat_map(|(_, bytes)| bytes).collect();
    hold(program, &input, program.fed(vec![input.clone()]));
}

/// So many of those that the model refuses, or all. Each needs a run of its own, and all of them take minutes: there is one of each kind, and the
/// others are any.
fn chosen<Kind: Copy + Ord>(
    rng: &mut Rng,
    mut refused: Vec<Damaged<Kind>>,
    number: usize,
) -> Vec<Vec<u8>> {
    rng.shuffle(&mut refused);
    let mut kinds = BTreeSet::new();
    let is_first = |(kind, _): &Damaged<Kind>| kinds.insert(*kind);
    let (firsts, others): (Vec<_>, Vec<_>) = refused.into_iter().partition(is_first);
    assert!(firsts.len() <= number, "{} kinds of damage", firsts.len());
    let all = firsts.into_iter().chain(others);
    all.take(number).map(|(_, bytes)| bytes).collect()
}

/// The damaged one behind up to all but one of these good ones, and before one of them half the time.
fn among(rng: &mut Rng, good: &[&[u8]], damaged: &[u8]) -> Vec<u8> {
    let before = good[..rng.below(good.len())].concat();
    let after: &[u8] = if rng.one_in(2) { good[0] } else { &[] };
    [&before, damaged, after].concat()
}

/// 200 lines give some 310,000 damaged ones, and the model judges every one of them. The program is tried on all of the 30,000 that the
/// model takes, and on so many of those that it refuses, each behind some of so many good lines.
fn damaged_lines_are_judged(number: usize, good: usize) {
    let mut rng = Rng::new(51);
    let lines: Vec<Vec<u8>> = (0..200).map(|_| random_line(&mut rng)).collect();
    let damaged = lines.iter().flat_map(|line| damaged_line(line));
    let (taken, refused) = damaged.partition(|(_, text)| write(text).bad.is_none());
    hold_taken(Write, taken);
    let text = random_listing(&mut rng, good);
    let good: Vec<&[u8]> = text.split_inclusive(|&byte| byte == b'\n').collect();
    let chosen = chosen(&mut rng, refused, number);
    let inputs = chosen.iter().map(|line| among(&mut rng, &good, line));
    hold_each(Write, &inputs.collect::<Vec<_>>());
}

/// Of those that are refused, every damage at every place, but not every damage of every line.
#[test]
fn a_damaged_character_of_a_line_is_judged_as_by_the_model() {
    damaged_lines_are_judged(3_000, 1_001);
}

#[test]
#[ignore = "280,000 runs of the program take minutes"]
fn every_damaged_character_of_every_line_is_judged_as_by_the_model() {
    damaged_lines_are_judged(usize::MAX, 11);
}

/// 300 records give 32,400 damaged ones. The program is tried on all that the model takes, and on 300 of the 21,000 that it refuses: on every
/// byte whose damage can be refused, of every operation.
#[test]
fn a_damaged_byte_of_a_record_is_judged_as_by_the_model() {
    let mut rng = Rng::new(52);
    let records = random_requests(&mut rng, 300);
    let damaged = records.chunks(RECORD).flat_map(damaged_record);
    let (taken, refused) = damaged.partition(|(_, record)| list(record).bad.is_none());
    hold_taken(List, taken);
    let records = random_requests(&mut rng, 1_001);
    let good: Vec<&[u8]> = records.chunks(RECORD).collect();
    let chosen = chosen(&mut rng, refused, 300);
    let inputs = chosen.iter().map(|record| among(&mut rng, &good, record));
    hold_each(List, &inputs.collect::<Vec<_>>());
}
