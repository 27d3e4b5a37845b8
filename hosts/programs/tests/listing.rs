//! The compiled write and list do what the model does: with good records and lines, with random bytes, with left-over bytes and with
//! bad lines and records late in a long input.

use model::{fresh, random_listing, random_record, random_requests, record, Rng, RECORD};
use programs::{hold, hold_each, Program, Program::List, Program::Write, BLOCK};

/// What the program writes for this input, held to the model.
fn output(program: Program, input: &[u8]) -> Vec<u8> {
    let output = program.fed(vec![input.to_vec()]);
    let written = output.stdout.clone();
    hold(program, input, output);
    written
}

#[test]
fn listing_records_and_writing_them_again_gives_the_same_bytes() {
    let records = random_requests(&mut Rng::new(11), 200_000);
    let text = output(List, &records);
    assert!(output(Write, &text) == records, "the records differ");
}

#[test]
fn writing_lines_and_listing_them_again_gives_them_without_leading_zeros() {
    let text = random_listing(&mut Rng::new(12), 50_000);
    let records = output(Write, &text);
    let again = output(List, &records);
    assert!(output(Write, &again) == records, "the records differ");
}

#[test]
fn empty_input_gives_nothing_and_nothing_is_said() {
    for program in [Write, List] {
        for chunks in [vec![], vec![vec![]]] {
            let output = program.fed(chunks);
            assert!(output.stdout.is_empty() && output.stderr.is_empty());
        }
        hold(program, b"", program.fed_as_file(b""));
    }
}

/// A line of this form among good ones, for each of the numbers around some powers of two in the place of its `#`.
fn with_numbers(form: &str) -> Vec<Vec<u8>> {
    let powers = [4, 8, 16, 31, 32, 33, 63, 64, 65, 96, 112];
    let around = |power: u32| [0, 1, 18].map(|more| (1_u128 << power) - 1 + more);
    let line = |number: u128| form.replace('#', &number.to_string());
    let text = |number| format!("19\n{}\n19\n", line(number)).into_bytes();
    powers.into_iter().flat_map(around).map(text).collect()
}

/// The operation and each field: numbers that fit, and numbers that would fit if they wrapped.
#[test]
fn large_numbers_are_judged_as_by_the_model() {
    let forms = [
        "#", "20 #", "21 #", "1 # 1 1", "1 1 # 1", "1 1 1 #", "8 1 1 #", "23 1 #", "24 1 #",
    ];
    let inputs: Vec<Vec<u8>> = forms.into_iter().flat_map(with_numbers).collect();
    hold_each(Write, &inputs);
}

#[test]
fn a_bad_line_has_its_number_however_late_it_comes() {
    let mut rng = Rng::new(13);
    for lines in [
        9, 10, 99, 100, 255, 256, 999, 1_000, 65_535, 65_536, 100_000,
    ] {
        let mut text = random_listing(&mut rng, lines);
        text.extend(b"25\n19\n");
        hold(Write, &text, Write.fed(vec![text.clone()]));
    }
}

#[test]
fn a_bad_record_has_its_number_however_late_it_comes() {
    let mut rng = Rng::new(14);
    for before in [9, 10, 255, 256, 1_023, 1_024, 1_025, 2_048, 65_536, 100_000] {
        let mut records = random_requests(&mut rng, before);
        records.extend(record(25, 0, 0, 0, 0));
        records.extend(record(19, 0, 0, 0, 0));
        hold(List, &records, List.fed(vec![records.clone()]));
    }
}

#[test]
fn left_over_bytes_are_a_bad_record() {
    let records = random_requests(&mut Rng::new(15), 2_050);
    let whole = [0, 1, 2, 1_023, 1_024, 1_025, 2_048];
    let cut = |whole: usize| (0..RECORD).map(move |rest| whole * RECORD + rest);
    let inputs = whole.into_iter().flat_map(cut);
    let inputs: Vec<Vec<u8>> = inputs.map(|length| records[..length].to_vec()).collect();
    hold_each(List, &inputs);
}

/// So many random bytes of this alphabet.
fn random_text(rng: &mut Rng, alphabet: &[u8], bytes: usize) -> Vec<u8> {
    (0..bytes).map(|_| rng.pick(alphabet)).collect()
}

/// A few words of a few digits each, which are a good line now and then.
fn random_words(rng: &mut Rng) -> Vec<u8> {
    let mut line = Vec::new();
    for _ in 0..rng.between(1, 4) {
        let digits = rng.between(1, 3) as usize;
        line.extend(random_text(rng, b"0112", digits));
        line.push(b' ');
    }
    line.pop();
    line.push(b'\n');
    line
}

#[test]
fn random_bytes_are_written_as_by_the_model() {
    let mut rng = Rng::new(16);
    let all: Vec<u8> = (0..=255).collect();
    let alphabets: [&[u8]; 4] = [&all, b"0123456789 \n", b"01\n", b"0\n"];
    let mut inputs = Vec::new();
    for at in 0..80 {
        let length = rng.pick(&[1, 2, 3, 50, 1_000, 2 * BLOCK]);
        inputs.push(random_text(&mut rng, alphabets[at % 4], length));
        inputs.push((0..100).flat_map(|_| random_words(&mut rng)).collect());
    }
    hold_each(Write, &inputs);
}

#[test]
fn random_bytes_are_listed_as_by_the_model() {
    let mut rng = Rng::new(17);
    let all: Vec<u8> = (0..=255).collect();
    let mut inputs = Vec::new();
    for _ in 0..40 {
        let length = rng.pick(&[1, 11, 12, 13, 1_000, 2 * BLOCK]);
        inputs.push(random_text(&mut rng, &all, length));
        let asked = (0..100).flat_map(|_| random_record(&mut rng, &fresh()));
        inputs.push(asked.collect());
    }
    hold_each(List, &inputs);
}
