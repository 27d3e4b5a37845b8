//! What a program writes is held to what the model says that it writes.

use std::process::Output;
use std::thread;

use crate::Program;

/// What the model says that the program writes on standard output, and on standard error.
fn wanted(program: Program, input: &[u8]) -> (Vec<u8>, String) {
    let said = |refusal: &str, bad: Option<u64>| match bad {
        Some(number) => format!("{refusal} {number}\n"),
        None => String::new(),
    };
    match program {
        Program::Trace => (model::trace(input), String::new()),
        Program::Write => {
            let written = model::write(input);
            (written.records, said("bad line", written.bad))
        }
        Program::List => {
            let listed = model::list(input);
            (listed.text, said("bad record", listed.bad))
        }
        Program::Report => (model::report(input), String::new()),
    }
}

/// Some bytes on either side of a place, as a person reads them.
fn around(bytes: &[u8], at: usize) -> String {
    let (from, to) = (at.saturating_sub(40), bytes.len().min(at + 20));
    format!("..{}..", bytes[from.min(to)..to].escape_ascii())
}

/// Where the two begin to differ, and what stands there.
fn difference(ours: &[u8], model: &[u8]) -> String {
    let differ = ours.iter().zip(model).position(|(a, b)| a != b);
    let at = differ.unwrap_or_else(|| ours.len().min(model.len()));
    let (ours, model) = (around(ours, at), around(model, at));
    format!("at byte {at} the program writes\n  {ours}\nand the model\n  {model}")
}

/// The program wrote for this input what the model says: every byte of both streams.
pub fn hold(program: Program, input: &[u8], output: Output) {
    let (out, said) = wanted(program, input);
    let name = program.name();
    let end = around(input, input.len());
    let case = format!("{name}, of {} bytes that end in\n  {end}", input.len());
    assert_eq!(String::from_utf8_lossy(&output.stderr), said, "{case}");
    assert!(
        output.stdout == out,
        "{case}\n{}",
        difference(&output.stdout, &out)
    );
}

/// The same for each of the inputs, on two threads.
pub fn hold_each(program: Program, inputs: &[Vec<u8>]) {
    let hold_all = |inputs: &[Vec<u8>]| {
        for input in inputs {
            hold(program, input, program.fed(vec![input.clone()]));
        }
    };
    let (front, back) = inputs.split_at(inputs.len() / 2);
    thread::scope(|scope| {
        scope.spawn(|| hold_all(front));
        hold_all(back);
    });
}
