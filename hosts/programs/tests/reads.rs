//! Where the reads of the compiled write, list and report end makes no difference: lines and records straddle them, bad ones too.

use model::{random_line, random_listing, random_requests, random_trace, Rng};
use programs::{hold, hold_each, Program, Program::List, Program::Report, Program::Write, BLOCK};

/// Sizes of what is fed at once: around a line of 40 characters, around a record, around a block.
const SIZES: [usize; 12] = [1, 2, 7, 11, 13, 40, 41, 42, 4_096, 12_287, 12_288, 12_289];

/// The bytes in chunks of this size.
fn chunks(input: &[u8], size: usize) -> Vec<Vec<u8>> {
    input.chunks(size).map(<[u8]>::to_vec).collect()
}

/// The bytes in chunks of random sizes, up to this one.
fn cut(rng: &mut Rng, mut input: &[u8], longest: usize) -> Vec<Vec<u8>> {
    let mut chunks = Vec::new();
    while !input.is_empty() {
        let length = rng.below(longest.min(input.len())) + 1;
        chunks.push(input[..length].to_vec());
        input = &input[length..];
    }
    chunks
}

/// An input for each program, which is good to its end.
fn good(rng: &mut Rng, units: usize) -> [(Program, Vec<u8>); 3] {
    [
        (Write, random_listing(rng, units)),
        (List, random_requests(rng, units)),
        (Report, random_trace(rng, units)),
    ]
}

#[test]
fn lines_and_records_may_straddle_reads() {
    for size in SIZES {
        let units = if size < 40 { 200 } else { 4_000 };
        for (program, input) in good(&mut Rng::new(21), units) {
            hold(program, &input, program.fed(chunks(&input, size)));
        }
    }
}

#[test]
fn a_slow_pipe_is_read_as_a_fast_one() {
    for (program, input) in good(&mut Rng::new(22), 400) {
        for size in &SIZES[..8] {
            let part = &input[..input.len().min(100 * size)];
            hold(program, part, program.fed_slowly(chunks(part, *size)));
        }
    }
}

#[test]
fn random_cuts_make_no_difference() {
    let mut rng = Rng::new(23);
    for longest in [50, 100, 1_000, 30_000] {
        for (program, input) in good(&mut rng, 2_000) {
            let cuts = cut(&mut rng, &input, longest);
            hold(program, &input, program.fed(cuts));
            let part = &input[..longest.min(5_000)];
            let cuts = cut(&mut rng, part, longest);
            hold(program, part, program.fed_slowly(cuts));
        }
    }
}

#[test]
fn a_file_is_read_as_a_pipe_is() {
    for (program, input) in good(&mut Rng::new(24), 5_000) {
        hold(program, &input, program.fed_as_file(&input));
    }
}

/// A line of 41 bytes straddles the edges of the blocks in each of the 41 ways, as 12,288 and 41 have no divisor in common.
#[test]
fn lines_of_40_characters_straddle_the_blocks_in_every_way() {
    let mut rng = Rng::new(25);
    let longest = std::iter::repeat_with(|| random_line(&mut rng)).filter(|line| line.len() == 41);
    let text: Vec<u8> = longest.take(45 * BLOCK / 41).flatten().collect();
    hold(Write, &text, Write.fed_as_file(&text));
    hold(Write, &text, Write.fed(chunks(&text, BLOCK)));
}

/// Good lines of so many bytes in all, at least 82.
fn filling(rng: &mut Rng, bytes: usize) -> Vec<u8> {
    let mut text = Vec::new();
    while bytes - text.len() > 82 {
        text.extend(random_line(rng));
    }
    let left = bytes - text.len();
    for length in [left / 2, left - left / 2] {
        text.resize(text.len() + length - 1, b'0');
        text.push(b'\n');
    }
    text
}

/// A bad line that begins at this place of a file is found.
fn found_at(rng: &mut Rng, place: usize, bad: &[u8]) {
    let mut text = filling(rng, place);
    text.extend(bad);
    text.extend(random_listing(rng, 20));
    hold(Write, &text, Write.fed_as_file(&text));
}

#[test]
fn a_bad_line_is_found_at_every_place_around_the_edge_of_a_block() {
    let mut rng = Rng::new(26);
    let longer = [&[b'0'; 41][..], b"\n"].concat();
    for before in 0..=42 {
        found_at(&mut rng, BLOCK - before, &longer);
        found_at(&mut rng, BLOCK - before, b"20 256\n");
        found_at(&mut rng, 3 * BLOCK - before, &longer);
        found_at(&mut rng, 3 * BLOCK - before, b"\n");
    }
}

#[test]
fn the_input_may_end_at_every_place_around_the_edge_of_a_block() {
    let mut rng = Rng::new(27);
    let text = random_listing(&mut rng, 2_000);
    for length in (BLOCK - 42..=BLOCK + 42).chain([2 * BLOCK - 1, 2 * BLOCK, 2 * BLOCK + 1]) {
        hold(Write, &text[..length], Write.fed_as_file(&text[..length]));
    }
    let whole = (BLOCK - 3..=BLOCK + 3).map(|length| filling(&mut rng, length));
    hold_each(Write, &whole.collect::<Vec<_>>());
}

#[test]
fn a_bad_line_stops_the_writer_in_the_first_block_and_in_a_later_one() {
    let mut rng = Rng::new(28);
    let good = random_listing(&mut rng, 20_000);
    for bytes in [82, 1_000, 3 * BLOCK + 5_000, 20 * BLOCK + 77] {
        let text = [&filling(&mut rng, bytes)[..], b"1 2 3\n", &good].concat();
        hold(Write, &text, Write.fed_as_file(&text));
        hold(Write, &text, Write.fed(chunks(&text, 10_000)));
    }
}
