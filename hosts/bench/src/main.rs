//! `cargo run --release -p bench` measures the compiled door beside a plain C kernel of the same
//! rules and prints the tables of docs/BENCH.md. It fails where the door takes more than its budget
//! of stack, where no bound on it can be read from the archive, or where Ticks takes more than the
//! single ticks. `-- --strict` fails also where the door is slower than its budget, and `-- --stack`
//! measures the stack and Ticks alone. With `-- --frames FILE` it prints the bound of the door in
//! another object file or archive, and fails where there is none.

mod asleep;
mod budget;
mod cases;
mod few;
mod frames;
mod measure;
mod size;
mod speed;
mod stack;
mod worst;

use std::process::ExitCode;

const USAGE: &str = "accepted are none, --strict, --stack, and --frames FILE";

fn main() -> ExitCode {
    let arguments: Vec<String> = std::env::args().skip(1).collect();
    let words: Vec<&str> = arguments.iter().map(String::as_str).collect();
    let faults = match words[..] {
        [] => measured(true, false),
        ["--strict"] => measured(true, true),
        ["--stack"] => measured(false, false),
        ["--frames", file] => bound_of(file),
        _ => {
            eprintln!("bench: the arguments are {arguments:?}; {USAGE}");
            return ExitCode::from(2);
        }
    };
    for fault in &faults {
        eprintln!("bench: {fault}");
    }
    match faults[..] {
        [] => ExitCode::SUCCESS,
        _ => ExitCode::FAILURE,
    }
}

/// Measures the stack and Ticks, and all the rest too where it is asked for; gives what is wrong.
fn measured(all: bool, strict: bool) -> Vec<String> {
    println!("{}\n", measure::machine());
    let mut faults = stack::report();
    faults.extend(asleep::report());
    if all {
        let slow = !speed::report(measure::emulated());
        let fault = "the door is slower than its budget";
        if slow && strict {
            faults.push(fault.to_string());
        } else if slow {
            eprintln!("bench: {fault}");
        }
        size::report();
    }
    faults
}

/// Prints the bound of the door in a file; gives why there is none.
fn bound_of(file: &str) -> Vec<String> {
    match frames::of_file(file) {
        Ok(bound) => {
            bound.print();
            Vec::new()
        }
        Err(why) => vec![format!("{file}: there is no bound on the stack: {why}")],
    }
}
