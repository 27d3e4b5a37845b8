//! Prints the picture of the crates by layer; with `--write`, puts it into README.md.

use std::fs;
use std::process::ExitCode;

use docs::layers::{picture, with_picture};
use docs::{text, top};

fn main() -> ExitCode {
    let arguments: Vec<String> = std::env::args().skip(1).collect();
    let words: Vec<&str> = arguments.iter().map(String::as_str).collect();
    match words[..] {
        [] => print!("{}", picture()),
        ["--write"] => {
            let Some(readme) = with_picture(&text("README.md"), &picture()) else {
                eprintln!("layers: README.md does not have the two comments between which the picture stands");
                return ExitCode::FAILURE;
            };
            if let Err(error) = fs::write(top().join("README.md"), readme) {
                eprintln!("layers: README.md cannot be written: {error}");
                return ExitCode::FAILURE;
            }
        }
        _ => {
            eprintln!("layers: the arguments are {arguments:?}; accepted are none and --write");
            return ExitCode::from(2);
        }
    }
    ExitCode::SUCCESS
}
