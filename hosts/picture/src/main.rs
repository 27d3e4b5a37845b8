//! Prints the picture of the incident; with `--write`, puts it into docs/incident.svg.

use std::fs;
use std::process::ExitCode;

use picture::{drawn, top, PICTURE};

fn main() -> ExitCode {
    let arguments: Vec<String> = std::env::args().skip(1).collect();
    let words: Vec<&str> = arguments.iter().map(String::as_str).collect();
    let is_written = match words[..] {
        [] => false,
        ["--write"] => true,
        _ => {
            eprintln!("picture: the arguments are {arguments:?}; accepted are none and --write");
            return ExitCode::from(2);
        }
    };
    let picture = match drawn() {
        Ok(picture) => picture,
        Err(fault) => {
            eprintln!("picture: {fault}");
            return ExitCode::FAILURE;
        }
    };
    if !is_written {
        print!("{picture}");
    } else if let Err(error) = fs::write(top().join(PICTURE), picture) {
        eprintln!("picture: {PICTURE} cannot be written: {error}");
        return ExitCode::FAILURE;
    }
    ExitCode::SUCCESS
}
