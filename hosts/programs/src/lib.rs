//! The compiled programs, run as a user runs them: bytes go in by standard input, and what they write is read back.

mod held;
mod open;

pub use held::{hold, hold_each};
pub use open::Open;

use std::fs::{self, File};
use std::io::{ErrorKind, Write};
use std::path::{Path, PathBuf};
use std::process::{Child, ChildStdin, Command, Output, Stdio};
use std::sync::atomic::{AtomicUsize, Ordering};
use std::sync::OnceLock;
use std::thread;
use std::time::Duration;

/// A program reads at most so many bytes at a time.
pub const BLOCK: usize = 12_288;

/// A compiled program.
#[derive(Clone, Copy, Debug, PartialEq, Eq)]
pub enum Program {
    /// Records go in, and their trace comes out.
    Trace,
    /// A listing goes in, and its records come out.
    Write,
    /// Records go in, and their listing comes out.
    List,
    /// Records go in, and the report of their threads comes out.
    Report,
}

/// The top of the repository.
pub fn top() -> PathBuf {
    Path::new(env!("CARGO_MANIFEST_DIR")).join("../..")
}

/// The words before a program that run it on this machine. hosts/x86_64 is asked for them once: a run by the script takes three times as
/// long as one without.
fn words_before() -> &'static [String] {
    static WORDS: OnceLock<Vec<String>> = OnceLock::new();
    WORDS.get_or_init(|| {
        let asked = Command::new(top().join("hosts/x86_64"))
            .arg("words")
            .output();
        let asked = asked.expect("hosts/x86_64 runs");
        assert!(
            asked.status.success(),
            "{}",
            String::from_utf8_lossy(&asked.stderr)
        );
        let words = String::from_utf8(asked.stdout).expect("words are text");
        words.lines().map(String::from).collect()
    })
}

impl Program {
    /// Its name, with which it begins what it says of a failure.
    pub fn name(self) -> &'static str {
        match self {
            Program::Trace => "trace",
            Program::Write => "write",
            Program::List => "list",
            Program::Report => "report",
        }
    }

    /// The file: in target/bin, or in the folder that SPELTMALLET_PROGRAMS names.
    fn path(self) -> PathBuf {
        let named = std::env::var_os("SPELTMALLET_PROGRAMS").map(PathBuf::from);
        let folder = named.unwrap_or_else(|| top().join("target/bin"));
        let (path, name) = (folder.join(self.name()), self.name());
        let shown = path.display();
        assert!(
            path.exists(),
            "there is no {shown}: run 'hosts/build {name}' at the top of the repository"
        );
        path
    }

    /// The command that runs the program on this machine.
    pub fn command(self) -> Command {
        let before = words_before().iter().map(PathBuf::from);
        let mut words = before.chain([self.path()]);
        let mut command = Command::new(words.next().expect("the program at least"));
        command.args(words);
        command
    }

    /// The program is started, with a pipe for each of its streams.
    pub(crate) fn start(self) -> Child {
        self.command()
            .stdin(Stdio::piped())
            .stdout(Stdio::piped())
            .stderr(Stdio::piped())
            .spawn()
            .expect("the program starts")
    }

    /// What the program writes when it is fed the chunks one after the other.
    pub fn fed(self, chunks: Vec<Vec<u8>>) -> Output {
        self.fed_with_pauses(chunks, Duration::ZERO)
    }

    /// The same with a pause before each chunk, so that the program mostly reads it by itself.
    pub fn fed_slowly(self, chunks: Vec<Vec<u8>>) -> Output {
        self.fed_with_pauses(chunks, Duration::from_millis(1))
    }

    fn fed_with_pauses(self, chunks: Vec<Vec<u8>>, pause: Duration) -> Output {
        let mut child = self.start();
        let input = child.stdin.take().expect("its standard input");
        let feeder = thread::spawn(move || feed(input, chunks, pause));
        let output = child.wait_with_output().expect("the program ends");
        feeder.join().expect("the input is fed");
        output
    }

    /// What the program writes when its standard input is this file.
    pub fn fed_file(self, path: &Path) -> Output {
        let input = File::open(path).expect("the file is there");
        let ended = self.command().stdin(input).output();
        ended.expect("the program ends")
    }

    /// What the program writes when its standard input is a file of these bytes.
    pub fn fed_as_file(self, input: &[u8]) -> Output {
        static FILES: AtomicUsize = AtomicUsize::new(0);
        let number = FILES.fetch_add(1, Ordering::Relaxed);
        let name = format!("speltmallet-{}-{number}", std::process::id());
        let path = std::env::temp_dir().join(name);
        fs::write(&path, input).expect("a file in the temporary folder");
        let output = self.fed_file(&path);
        fs::remove_file(&path).expect("the file is there");
        output
    }
}

/// Feeds the chunks one after the other. A program that has stopped leaves the rest unread.
fn feed(mut input: ChildStdin, chunks: Vec<Vec<u8>>, pause: Duration) {
    for chunk in chunks {
        thread::sleep(pause);
        match input.write_all(&chunk) {
            Err(error) if error.kind() == ErrorKind::BrokenPipe => return,
            fed => fed.expect("the program reads on"),
        }
    }
}
