//! The proved programs: the recording is put to trace and to report, and what they print is read.

use std::io::{ErrorKind, Write};
use std::process::{Output, Stdio};
use std::thread;

use model::RECORD;
use programs::Program;

use crate::recording::Recording;
use crate::replay::Answer;

/// A line of the report.
#[derive(Clone, Copy, Debug, PartialEq, Eq)]
pub struct Line {
    pub thread: usize,
    pub charged: u64,
    pub lag: i128,
}

/// What the two programs print of a recording.
pub struct Proved {
    /// The trace, an answer for each request.
    pub answers: Vec<Answer>,
    /// The report.
    pub lines: Vec<Line>,
}

impl Proved {
    /// Runs both programs.
    pub fn ask(recording: &Recording) -> Result<Proved, String> {
        let mut counted = recording.bytes.clone();
        let answers = printed(Program::Trace, &counted)?;
        if recording.is_stopped {
            // any whole record behind those that count
            counted.extend([0; RECORD]);
        }
        let lines = printed(Program::Report, &counted)?;
        Proved::read(recording, &answers, &lines)
    }

    /// Reads what they print.
    pub fn read(recording: &Recording, trace: &str, report: &str) -> Result<Proved, String> {
        let answers = trace.lines().enumerate();
        let answers =
            answers.map(|(number, line)| answer(number, line).ok_or(fault(Program::Trace, line)));
        let answers: Vec<Answer> = answers.collect::<Result<_, String>>()?;
        if answers.len() != recording.count() {
            let (has, is) = (recording.count(), answers.len());
            return Err(format!(
                "the recording has {has} requests, and the trace program answers {is}"
            ));
        }
        let report = match recording.is_stopped {
            true => report
                .strip_prefix("stopped\n")
                .ok_or(fault(Program::Report, report))?,
            false => report,
        };
        let lines = report
            .lines()
            .map(|line| report_line(line).ok_or(fault(Program::Report, line)));
        Ok(Proved {
            answers,
            lines: lines.collect::<Result<_, String>>()?,
        })
    }
}

/// What a program prints of these bytes.
fn printed(program: Program, input: &[u8]) -> Result<String, String> {
    let name = program.name();
    let output =
        fed(program, input).map_err(|error| format!("the {name} program can't be run: {error}"))?;
    let said = String::from_utf8_lossy(&output.stderr);
    if !output.status.success() || !said.is_empty() {
        let said = said.lines().last().unwrap_or("nothing");
        return Err(format!(
            "the {name} program ends with {} and says: {said}",
            output.status
        ));
    }
    String::from_utf8(output.stdout)
        .map_err(|_| format!("the {name} program prints what is no text"))
}

fn fed(program: Program, input: &[u8]) -> std::io::Result<Output> {
    let pipes = program
        .command()
        .stdin(Stdio::piped())
        .stdout(Stdio::piped())
        .stderr(Stdio::piped())
        .spawn();
    let mut child = pipes?;
    let mut stream = child.stdin.take().expect("its standard input");
    thread::scope(|scope| {
        let feeder = scope.spawn(move || match stream.write_all(input) {
            Err(error) if error.kind() == ErrorKind::BrokenPipe => Ok(()),
            fed => fed,
        });
        let output = child.wait_with_output();
        feeder.join().expect("feeding does not panic")?;
        output
    })
}

fn fault(program: Program, line: &str) -> String {
    let line: String = line.chars().take(60).collect();
    format!(
        "the {} program prints a line that is not expected: '{line}'",
        program.name()
    )
}

/// "record number from 0, code, value, running thread after it, single spaces"
fn answer(number: usize, line: &str) -> Option<Answer> {
    let mut words = line.split(' ');
    let is_next = words.next()?.parse() == Ok(number);
    let answer = Answer {
        code: words.next()?.parse().ok()?,
        value: words.next()?.parse().ok()?,
        running: words.next()?.parse().ok()?,
    };
    (is_next && words.next().is_none()).then_some(answer)
}

/// "its number, the ticks charged to it since its creation [..], and its lag, in decimal with single spaces"
fn report_line(line: &str) -> Option<Line> {
    let mut words = line.split(' ');
    let read = Line {
        thread: words.next()?.parse().ok()?,
        charged: words.next()?.parse().ok()?,
        lag: words.next()?.parse().ok()?,
    };
    words.next().is_none().then_some(read)
}
