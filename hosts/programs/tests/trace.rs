//! The compiled trace program prints what the model's trace prints.

use model::{fresh, random_record, Rng, RECORD};
use programs::{hold, Program::Trace};

/// Records of a run that the model takes from a fresh table on, all operations mixed, now and then malformed.
fn run(seed: u64, records: usize) -> Vec<u8> {
    let mut rng = Rng::new(seed);
    let mut table = fresh();
    let mut area = [0; 8];
    let mut input = Vec::with_capacity(records * RECORD);
    for _ in 0..records {
        let asked = random_record(&mut rng, &table);
        model::door(&mut table, &asked, &mut area);
        input.extend_from_slice(&asked);
    }
    input
}

/// The program, fed all of the input at once, prints the model's trace.
fn same(input: Vec<u8>) {
    let output = Trace.fed(vec![input.clone()]);
    hold(Trace, &input, output);
}

#[test]
fn empty_input_prints_nothing_and_left_over_bytes_are_short() {
    for n in 0..=25 {
        same(vec![19; n]);
    }
    assert_eq!(Trace.fed(vec![vec![1; 11]]).stdout, b"short 11\n");
    assert_eq!(Trace.fed(vec![]).stdout, b"");
}

#[test]
fn long_runs_are_printed_as_by_the_model() {
    for (seed, records, left_over) in [
        (1, 30_000, 0),
        (2, 5_000, 7),
        (3, 1_024, 0),
        (4, 1_025, 11),
        (5, 2_047, 1),
    ] {
        let mut input = run(seed, records);
        input.extend(vec![0xA5; left_over]);
        same(input);
    }
}

#[test]
fn records_may_straddle_reads() {
    let mut input = run(6, 3_000);
    input.extend_from_slice(&[1, 2, 3]);
    for size in [1, 5, 11, 13, 4_096, 12_287, 12_289] {
        let part = if size < 11 {
            &input[..3_001]
        } else {
            &input[..]
        };
        let chunks = part.chunks(size).map(<[u8]>::to_vec).collect();
        hold(Trace, part, Trace.fed(chunks));
    }
}

#[test]
fn random_bytes_are_printed_as_by_the_model() {
    let mut rng = Rng::new(7);
    same((0..60_005).map(|_| rng.bits() as u8).collect());
}

#[test]
fn a_file_is_read_as_a_pipe_is() {
    let input = run(8, 4_000);
    hold(Trace, &input, Trace.fed_as_file(&input));
}
