//! An input that can't be read and an output that can't be written are said on standard error, by each of the compiled programs.

use model::{random_requests, Rng, MOST_RECORDS, RECORD};
use programs::{hold, Program};
use std::fs::{self, OpenOptions};
use std::io::Write;
use std::os::fd::OwnedFd;
use std::os::unix::net::UnixStream;
use std::process::{Command, Stdio};
use std::thread::sleep;
use std::time::Duration;

/// Of 700 requests the input is read at once and the output is written at once; 10,000 take several blocks.
const LENGTHS: [usize; 2] = [700, 10_000];

const PAUSE: Duration = Duration::from_millis(30);

/// Each program with an input of so many requests, all good.
fn programs(requests: usize) -> [(Program, Vec<u8>); 4] {
    let records = random_requests(&mut Rng::new(41), requests);
    let text = model::list(&records).text;
    [
        (Program::Trace, records.clone()),
        (Program::Write, text),
        (Program::List, records.clone()),
        (Program::Report, records),
    ]
}

/// What a program says whose input can't be read.
fn unread(program: Program) -> String {
    format!("{}: standard input can't be read\n", program.name())
}

/// What a program says whose output can't be written.
fn unwritten(program: Program) -> String {
    format!("{}: standard output can't be written\n", program.name())
}

/// The command that runs the program in a shell of this setting.
fn under(setting: &str, program: Program) -> Command {
    let (command, mut shell) = (program.command(), Command::new("bash"));
    shell.arg("-c").arg(format!("{setting}; exec \"$@\""));
    shell.arg("bash").arg(command.get_program());
    shell.args(command.get_args());
    shell
}

/// What it says on standard error, fed this input. A pipe for its output is closed before that.
fn said(command: &mut Command, input: &[u8]) -> String {
    let started = command.stdin(Stdio::piped()).stderr(Stdio::piped()).spawn();
    let mut child = started.expect("the program starts");
    drop(child.stdout.take());
    // A process that another test is starting has the pipe too until it runs.
    sleep(PAUSE);
    let mut pipe = child.stdin.take().expect("its standard input");
    // A program that can't write leaves the rest unread.
    let _ = pipe.write_all(input);
    drop(pipe);
    let output = child.wait_with_output().expect("the program ends");
    String::from_utf8(output.stderr).expect("standard error is text")
}

#[test]
fn an_input_that_cannot_be_read_is_no_end() {
    for (program, _) in programs(0) {
        let folder = program.fed_file(&std::env::temp_dir());
        assert_eq!(String::from_utf8_lossy(&folder.stderr), unread(program));
        assert_eq!(folder.stdout, b"");
    }
}

/// A read that would have to wait fails on a stream that is not to be waited for. What was read before it is answered, but the report keeps
/// what it has: it would be the report of another trace.
#[test]
fn an_input_that_fails_after_a_part_is_no_end() {
    for (program, input) in [1, 700, 2_000].into_iter().flat_map(programs) {
        let (mut ours, theirs) = UnixStream::pair().expect("two ends of a stream");
        ours.write_all(&input).expect("the stream has room for it");
        theirs.set_nonblocking(true).expect("a setting of a stream");
        let mut command = program.command();
        let ended = command.stdin(OwnedFd::from(theirs)).output();
        let mut output = ended.expect("the program ends");
        assert_eq!(String::from_utf8_lossy(&output.stderr), unread(program));
        output.stderr.clear();
        match program {
            Program::Report => assert_eq!(output.stdout, b""),
            _ => hold(program, &input, output),
        }
    }
}

#[test]
fn an_output_that_cannot_be_written_is_said() {
    for (program, input) in LENGTHS.into_iter().flat_map(programs) {
        let full = OpenOptions::new().write(true).open("/dev/full");
        let mut command = program.command();
        command.stdout(full.expect("/dev/full"));
        assert_eq!(said(&mut command, &input), unwritten(program));
    }
}

/// A report that is stopped has a line more, and its failure is said once.
#[test]
fn a_stopped_report_that_cannot_be_written_is_said() {
    let full = OpenOptions::new().write(true).open("/dev/full");
    let mut command = Program::Report.command();
    command.stdout(full.expect("/dev/full"));
    let input = vec![255; (MOST_RECORDS + 1) * RECORD];
    assert_eq!(said(&mut command, &input), unwritten(Program::Report));
}

/// A closed pipe ends a program whose output it is. Its start-up has it ignore the system's signal, so that the failure is said, whether the
/// caller ignores that signal or not; the launcher ends quietly where the caller does not (hosts/launcher/tests/streams.sh).
#[test]
fn a_closed_pipe_ends_the_program() {
    for (program, input) in LENGTHS.into_iter().flat_map(programs) {
        for setting in ["trap - PIPE", "trap '' PIPE"] {
            let mut command = under(setting, program);
            let said = said(command.stdout(Stdio::piped()), &input);
            assert_eq!(said, unwritten(program), "{setting}");
        }
    }
}

/// A file that may not grow beyond 5 kilobytes takes the beginning of a write, and nothing of the next. A report is shorter, and gets a file that
/// is full but for 3 bytes.
#[test]
fn an_output_that_takes_only_a_part_is_said() {
    for (program, input) in LENGTHS.into_iter().flat_map(programs) {
        let name = format!("speltmallet-part-{}-{}", program.name(), std::process::id());
        let path = std::env::temp_dir().join(name);
        let before = match program {
            Program::Report => vec![b'-'; 5 * 1_024 - 3],
            _ => vec![],
        };
        fs::write(&path, &before).expect("a file in the temporary folder");
        let file = OpenOptions::new().append(true).open(&path);
        let mut command = under("ulimit -f 5; trap '' XFSZ", program);
        let said = said(command.stdout(file.expect("the file is there")), &input);
        let part = fs::read(&path)
            .expect("the file is there")
            .split_off(before.len());
        fs::remove_file(&path).expect("the file is there");
        let whole = program.fed(vec![input]).stdout;
        assert_eq!(said, unwritten(program));
        assert!(!part.is_empty() && part.len() < whole.len());
        assert!(whole.starts_with(&part), "{}", program.name());
    }
}
