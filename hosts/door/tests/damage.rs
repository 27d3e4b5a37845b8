//! Damaged tables: the door refuses exactly those that are unsound, and leaves all bytes alone.

use door::boards::busy;
use door::{Hold, View};
use model::{at, fresh, operation as op, random_record, random_sound, record, show, sound, spoil};
use model::{Rng, TABLE, THREADS, WIDTH};

const AREA: [u8; 8] = [0xA5; 8];

/// How many damaged tables were met, sound all the same and unsound.
#[derive(Default, Debug)]
struct Met {
    sound: u32,
    unsound: u32,
}

impl Met {
    /// Puts the damaged table and, where its threads ask for another ready word, the table with that
    /// word too: so the word does not hide what else is wrong.
    fn put(&mut self, hold: &mut Hold, table: &[u8; TABLE], record: &[u8]) {
        self.put_one(hold, table, record);
        let noted = with_word_noted(table);
        if noted != *table {
            self.put_one(hold, &noted, record);
        }
    }

    fn put_one(&mut self, hold: &mut Hold, table: &[u8], record: &[u8]) {
        let unsound = hold.call(table, record, &AREA).code == -7;
        assert_eq!(unsound, !sound(table));
        if unsound {
            self.unsound += 1;
        } else {
            self.sound += 1;
        }
    }
}

/// The table with the bits of those ready lines set that have a member, and of no other.
fn with_word_noted(table: &[u8; TABLE]) -> [u8; TABLE] {
    let mut noted = *table;
    let has_member = |&line: &u8| View(table).ready_set(line) > 0;
    let word = (0..32)
        .filter(has_member)
        .fold(0u32, |word, line| word | 1 << line);
    noted[at::READY_WORD..at::READY_WORD + 4].copy_from_slice(&word.to_le_bytes());
    noted
}

/// A random sound table with all threads in use.
fn full(rng: &mut Rng) -> [u8; TABLE] {
    loop {
        let table = random_sound(rng);
        if View(&table).threads() == THREADS {
            return table;
        }
    }
}

/// Every byte with every value.
#[test]
fn one_byte_with_every_value() {
    let seed = 51;
    let mut hold = Hold::new(&format!("one byte with every value, seed {seed}"));
    let mut met = Met::default();
    let tick = record(op::TICK, 0, 0, 0, 0);
    for table in [busy(), full(&mut Rng::new(seed))] {
        for offset in 0..TABLE {
            for value in 0..=255 {
                let mut damaged = table;
                damaged[offset] = value;
                met.put(&mut hold, &damaged, &tick);
            }
        }
    }
    hold.finish();
    assert!(met.sound > 10_000 && met.unsound > 100_000, "{met:?}");
}

/// Every byte of many tables with some values.
#[test]
fn one_byte_of_many_tables() {
    let seed = 52;
    let mut hold = Hold::new(&format!("one byte of many tables, seed {seed}"));
    let mut rng = Rng::new(seed);
    let mut met = Met::default();
    for number in 0..30 {
        let table = match number {
            0 => fresh(),
            1..=14 => full(&mut rng),
            _ => random_sound(&mut rng),
        };
        for offset in 0..TABLE {
            let (old, any) = (table[offset], rng.bits() as u8);
            for value in [
                0,
                1,
                2,
                old.wrapping_add(1),
                old.wrapping_sub(1),
                16,
                255,
                any,
            ] {
                let mut damaged = table;
                damaged[offset] = value;
                let record = random_record(&mut rng, &damaged);
                met.put(&mut hold, &damaged, &record);
            }
        }
    }
    hold.finish();
    assert!(met.sound > 10_000 && met.unsound > 50_000, "{met:?}");
}

/// A few bytes; one record in eight has another length.
#[test]
fn few_bytes() {
    let seed = 53;
    let mut hold = Hold::new(&format!("few bytes, seed {seed}"));
    let mut rng = Rng::new(seed);
    let mut met = Met::default();
    for _ in 0..80_000 {
        let mut table = random_sound(&mut rng);
        spoil(&mut rng, &mut table);
        let mut record = random_record(&mut rng, &table).to_vec();
        if rng.one_in(8) {
            record.resize(rng.below(17), 0);
        }
        met.put(&mut hold, &table, &record);
    }
    hold.finish();
    assert!(met.sound > 5_000 && met.unsound > 40_000, "{met:?}");
}

/// Two threads exchange a field, or one takes the other's: every byte is in range, and only the
/// lines, the objects, the counters, the running thread or the ready word can be wrong.
#[test]
fn exchanged_fields() {
    let seed = 54;
    let mut hold = Hold::new(&format!("exchanged fields, seed {seed}"));
    let mut rng = Rng::new(seed);
    let mut met = Met::default();
    for _ in 0..80_000 {
        let mut table = random_sound(&mut rng);
        let (one, other) = (rng.below(THREADS), rng.below(THREADS));
        let (begin, length) = rng.pick(&[
            (at::IN_USE, WIDTH),
            (at::PRIORITY, 1),
            (at::SUSPENDED, 1),
            (at::WAIT_KIND, 1),
            (at::WAIT_KIND, 2),
            (at::WAIT_OBJECT, 1),
            (at::PLACE, 1),
            (at::MAILBOX_FULL, 1),
            (at::OUTCOME, 1),
            (at::TURN, 4),
            (at::COUNTER, 4),
            (at::MAILBOX_VALUE, 4),
            (at::PARCEL, 4),
        ]);
        let take = rng.one_in(2);
        for byte in begin..begin + length {
            let (mine, yours) = (at::thread(one) + byte, at::thread(other) + byte);
            if take {
                table[mine] = table[yours];
            } else {
                table.swap(mine, yours);
            }
        }
        if rng.one_in(4) {
            table[at::RUNNING] = rng.below(THREADS) as u8;
        }
        let record = random_record(&mut rng, &table);
        met.put(&mut hold, &table, &record);
    }
    hold.finish();
    assert!(met.sound > 10_000 && met.unsound > 20_000, "{met:?}");
}

/// The table is refused with −7, and neither it nor the area is written to.
fn is_refused(hold: &mut Hold, table: &[u8], record: &[u8]) {
    let answered = hold.call(table, record, &AREA);
    assert_eq!(answered.code, -7, "{}", show(table));
    assert!(answered.table == table && answered.area == AREA);
}

/// Order 6: "bit p set exactly when ready line p has a member [..] a table where it is wrong is
/// unsound". Each bit is wrong by itself.
#[test]
fn every_bit_of_the_ready_word() {
    let seed = 55;
    let mut hold = Hold::new(&format!("every bit of the ready word, seed {seed}"));
    let mut rng = Rng::new(seed);
    for _ in 0..1_000 {
        let table = random_sound(&mut rng);
        for bit in 0..32 {
            let mut damaged = table;
            damaged[at::READY_WORD + bit / 8] ^= 1 << (bit % 8);
            is_refused(&mut hold, &damaged, &random_record(&mut rng, &table));
        }
    }
    assert_eq!(hold.finish(), 1_000 * 32);
}

/// Order 6: "−7 also for tables saved earlier", in which kernel bytes 2 to 5 are zero.
#[test]
fn tables_saved_earlier() {
    let seed = 56;
    let mut hold = Hold::new(&format!("tables saved earlier, seed {seed}"));
    let mut rng = Rng::new(seed);
    let some = (0..1_000).map(|_| random_sound(&mut rng));
    let tables: Vec<[u8; TABLE]> = some.chain([fresh(), busy()]).collect();
    for table in tables {
        let mut earlier = table;
        earlier[at::READY_WORD..at::READY_WORD + 4].fill(0);
        is_refused(&mut hold, &earlier, &random_record(&mut rng, &table));
    }
    assert_eq!(hold.finish(), 1_002);
}

/// Kernel bytes 6 to 23 have no meaning: each with every value but 0.
#[test]
fn bytes_behind_the_ready_word() {
    let seed = 57;
    let mut hold = Hold::new(&format!("bytes behind the ready word, seed {seed}"));
    let mut rng = Rng::new(seed);
    for table in [fresh(), busy(), full(&mut rng), random_sound(&mut rng)] {
        for offset in at::READY_WORD + 4..TABLE {
            for value in 1..=255 {
                let mut damaged = table;
                damaged[offset] = value;
                is_refused(&mut hold, &damaged, &random_record(&mut rng, &table));
            }
        }
    }
    assert_eq!(hold.finish(), 4 * 18 * 255);
}
