//! The model as a program: `model trace` reads request records from standard input and prints the
//! trace on standard output, `model report` prints the report of their threads, `model list` prints
//! their listing, and `model write` reads a listing and writes the records.

use std::io::{self, Read, Write};
use std::process::ExitCode;

/// What is refused, if anything.
type Refusal = io::Result<Option<String>>;

fn main() -> ExitCode {
    let arguments: Vec<String> = std::env::args().skip(1).collect();
    let run = match arguments.iter().map(String::as_str).collect::<Vec<_>>()[..] {
        ["trace"] => trace,
        ["report"] => report,
        ["write"] => write,
        ["list"] => list,
        _ => {
            let accepted = "model trace, model report, model write and model list";
            eprintln!("model: the arguments are {arguments:?}; accepted are: {accepted}");
            return ExitCode::from(2);
        }
    };
    match run() {
        Ok(None) => return ExitCode::SUCCESS,
        Ok(Some(refusal)) => eprintln!("{refusal}"),
        Err(error) => eprintln!("model {}: reading or writing failed: {error}", arguments[0]),
    }
    ExitCode::FAILURE
}

fn trace() -> Refusal {
    model::trace_to(&mut io::stdin().lock(), &mut io::stdout().lock())?;
    Ok(None)
}

fn report() -> Refusal {
    model::report_to(&mut io::stdin().lock(), &mut io::stdout().lock())?;
    Ok(None)
}

fn write() -> Refusal {
    let written = model::write(&input()?);
    output(&written.records)?;
    Ok(written.bad.map(|number| format!("bad line {number}")))
}

fn list() -> Refusal {
    let listed = model::list(&input()?);
    output(&listed.text)?;
    Ok(listed.bad.map(|number| format!("bad record {number}")))
}

/// All of standard input.
fn input() -> io::Result<Vec<u8>> {
    let mut bytes = Vec::new();
    io::stdin().read_to_end(&mut bytes)?;
    Ok(bytes)
}

/// Writes all of it on standard output.
fn output(bytes: &[u8]) -> io::Result<()> {
    let mut out = io::stdout().lock();
    out.write_all(bytes)?;
    out.flush()
}
