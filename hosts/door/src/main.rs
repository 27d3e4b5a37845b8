//! The longer run: `cargo run --release -p door -- --steps N [--seed S]` holds the door to the model
//! over N random steps, half of them from fresh and half from random sound tables, with damaged
//! tables after each run, and prints what was met.

use std::process::ExitCode;

use door::{random_run, Coverage, Hold};
use model::{fresh, random_record, random_sound, spoil, Rng};

/// The steps of a run, and the damaged copies of its last table.
const RUN: usize = 500;
const DAMAGED: usize = 100;

const USAGE: &str = "accepted is: door --steps N [--seed S], with numbers in decimal";

fn main() -> ExitCode {
    let arguments: Vec<String> = std::env::args().skip(1).collect();
    match parse(&arguments) {
        Some((steps, seed)) => {
            run(steps, seed);
            ExitCode::SUCCESS
        }
        None => {
            eprintln!("door: the arguments are {arguments:?}; {USAGE}");
            ExitCode::from(2)
        }
    }
}

/// The steps and the seed.
fn parse(arguments: &[String]) -> Option<(usize, u64)> {
    let (mut steps, mut seed) = (None, 1);
    for pair in arguments.chunks(2) {
        match pair {
            [name, number] if name == "--steps" => steps = Some(number.parse().ok()?),
            [name, number] if name == "--seed" => seed = number.parse().ok()?,
            _ => return None,
        }
    }
    Some((steps?, seed))
}

fn run(steps: usize, seed: u64) {
    let mut coverage = Coverage::default();
    let (mut made, mut unsound) = (0, 0);
    for number in 0.. {
        if made == steps {
            break;
        }
        let mut hold = Hold::new(&format!("--seed {seed}, run {number}"));
        let mut rng = Rng::new(seed.wrapping_mul(1_000_003).wrapping_add(number));
        let mut table = match number % 2 {
            0 => fresh(),
            _ => random_sound(&mut rng),
        };
        let length = RUN.min(steps - made);
        random_run(&mut hold, &mut coverage, &mut rng, &mut table, length);
        made += length;
        for _ in 0..DAMAGED {
            let mut spoilt = table;
            spoil(&mut rng, &mut spoilt);
            let record = random_record(&mut rng, &spoilt);
            unsound += usize::from(hold.call(&spoilt, &record, &[0xA5; 8]).code == -7);
        }
        hold.finish();
    }
    print!("{coverage}");
    println!("{made} random steps and {unsound} unsound tables from seed {seed}: no difference");
}
