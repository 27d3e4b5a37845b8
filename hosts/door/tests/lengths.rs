//! Tables, records and areas of other lengths: −7 or −8, and nothing written that should not be.

use door::Hold;
use model::{fresh, operation as op, random_record, random_sound, record, Rng};

/// A table of any length: a sound one cut off, or with zeros behind it.
fn lengthened(table: &[u8], length: usize) -> Vec<u8> {
    let mut bytes = table.to_vec();
    bytes.resize(length, 0);
    bytes
}

#[test]
fn tables_of_every_length() {
    let seed = 41;
    let mut hold = Hold::new(&format!("tables of every length, seed {seed}"));
    let mut rng = Rng::new(seed);
    let tick = record(op::TICK, 0, 0, 0, 0);
    for length in 0..=700 {
        for table in [fresh(), random_sound(&mut rng), random_sound(&mut rng)] {
            let code = if length == 600 { 0 } else { -7 };
            hold.expect(&lengthened(&table, length), &tick, &[0xA5; 8], code);
        }
        let bytes: Vec<u8> = (0..length).map(|_| rng.bits() as u8).collect();
        hold.expect(&bytes, &tick, &[0xA5; 8], -7);
    }
    hold.finish();
}

#[test]
fn areas_and_records_of_every_length() {
    let seed = 42;
    let mut hold = Hold::new(&format!("areas and records of every length, seed {seed}"));
    let mut rng = Rng::new(seed);
    for area in 0..=16 {
        for length in 0..=16 {
            for _ in 0..20 {
                let table = random_sound(&mut rng);
                let mut record = random_record(&mut rng, &table).to_vec();
                record.resize(length, 0);
                let answered = hold.call(&table, &record, &vec![0xA5; area]);
                assert_eq!(answered.code == -7, area != 8);
                assert!(area != 8 || length == 12 || answered.code == -8);
            }
        }
    }
    hold.finish();
}

/// All three at once.
#[test]
fn random_lengths() {
    let seed = 43;
    let mut hold = Hold::new(&format!("random lengths, seed {seed}"));
    let mut rng = Rng::new(seed);
    for _ in 0..20_000 {
        let table = random_sound(&mut rng);
        let mut record = random_record(&mut rng, &table).to_vec();
        let near = rng.between(590, 610) as usize;
        let any = rng.below(701);
        let length = rng.pick(&[600, 600, near, any]);
        record.resize(rng.pick(&[12, 12, 0, 11, 13, 16]), 0);
        let area = rng.pick(&[8, 8, 0, 7, 9, 16]);
        hold.call(&lengthened(&table, length), &record, &vec![0x5A; area]);
    }
    hold.finish();
}
