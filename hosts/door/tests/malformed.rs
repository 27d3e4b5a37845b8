//! Malformed records: every length from 0 to 16, every byte of every operation's record, and
//! random bytes.

use door::boards::{busy, locked};
use door::Hold;
use model::{random_record, random_sound, Rng};

const AREA: [u8; 8] = [0x5A; 8];

fn random_bytes<const N: usize>(rng: &mut Rng) -> [u8; N] {
    [0; N].map(|_: u8| rng.bits() as u8)
}

#[test]
fn records_of_every_length() {
    let seed = 31;
    let mut hold = Hold::new(&format!("records of every length, seed {seed}"));
    let mut rng = Rng::new(seed);
    for length in (0..=16).chain([24, 25, 100]) {
        for operation in 0..=255 {
            for bytes in [[0; 100], random_bytes(&mut rng)] {
                let mut record = bytes;
                record[0] = operation;
                for board in [busy(), locked(), random_sound(&mut rng)] {
                    let answered = hold.call(&board, &record[..length], &AREA);
                    assert!(answered.code == -8 || length == 12);
                }
            }
        }
    }
    hold.finish();
}

/// A good record with one byte changed: −8 or another good record.
#[test]
fn every_byte_of_every_operation() {
    let seed = 32;
    let mut hold = Hold::new(&format!("every byte of every operation, seed {seed}"));
    let mut rng = Rng::new(seed);
    let (mut malformed, mut calls) = (0, 0);
    for _ in 0..2_000 {
        let board = random_sound(&mut rng);
        let good = random_record(&mut rng, &board);
        for byte in 0..12 {
            let old = good[byte];
            let any = rng.bits() as u8;
            let near = [old.wrapping_add(1), old.wrapping_sub(1), old ^ 0x80];
            let value = rng.pick(&[0, 1, 2, 3, 25, 255, any, near[0], near[1], near[2]]);
            let mut record = good;
            record[byte] = value;
            malformed += u32::from(hold.call(&board, &record, &AREA).code == -8);
            calls += 1;
        }
    }
    assert!(
        malformed > 5_000 && malformed < calls - 5_000,
        "{malformed} of {calls} malformed"
    );
    hold.finish();
}

#[test]
fn random_bytes_as_records() {
    let seed = 33;
    let mut hold = Hold::new(&format!("random bytes as records, seed {seed}"));
    let mut rng = Rng::new(seed);
    for _ in 0..20_000 {
        let board = random_sound(&mut rng);
        let mut record: [u8; 12] = random_bytes(&mut rng);
        if rng.one_in(2) {
            record[0] %= 28;
            record[3] = 0;
        }
        hold.call(&board, &record, &AREA);
    }
    hold.finish();
}
