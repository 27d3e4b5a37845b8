//! The program as a user runs it: what it writes, what it refuses in a line, and that nothing is lost.

mod told;

use std::fs::{self, File};
use std::io::Read;
use std::path::{Path, PathBuf};
use std::process::{Command, Output, Stdio};

use programs::top;
use told::two_lanes;

/// A folder of a test's own, which goes with it.
struct Room(PathBuf);

impl Room {
    fn new(name: &str) -> Room {
        let path =
            std::env::temp_dir().join(format!("speltmallet-sheet-{name}-{}", std::process::id()));
        fs::create_dir_all(&path).expect("a temporary folder");
        Room(path)
    }

    fn file(&self, name: &str, bytes: &[u8]) -> PathBuf {
        let path = self.0.join(name);
        fs::write(&path, bytes).expect("a temporary file");
        path
    }

    fn names(&self) -> Vec<String> {
        let entries = fs::read_dir(&self.0).expect("the folder");
        let mut names: Vec<String> = entries
            .map(|entry| {
                entry
                    .expect("an entry")
                    .file_name()
                    .to_string_lossy()
                    .into_owned()
            })
            .collect();
        names.sort();
        names
    }
}

impl Drop for Room {
    fn drop(&mut self) {
        let _ = fs::remove_dir_all(&self.0);
    }
}

fn command() -> Command {
    let mut command = Command::new(env!("CARGO_BIN_EXE_sheet"));
    command.args(["--revision", "none"]);
    command
}

fn run(words: &[&Path]) -> Output {
    command()
        .args(words)
        .stdin(Stdio::null())
        .output()
        .expect("the program runs")
}

/// It ends with status 1 and this in the one line that it says.
fn is_refused(output: &Output, said: &str) {
    let line = String::from_utf8_lossy(&output.stderr);
    assert_eq!(output.status.code(), Some(1), "{line}");
    assert!(
        line.starts_with("sheet: ") && line.contains(said),
        "no '{said}' in {line}"
    );
    assert_eq!(line.lines().count(), 1, "{line}");
    assert!(output.stdout.is_empty(), "nothing is printed");
}

fn example() -> PathBuf {
    top().join("examples/two-lanes.trace")
}

#[test]
fn the_page_goes_to_a_file_or_to_standard_output() {
    let room = Room::new("goes");
    let page = room.0.join("page.html");
    let output = run(&[&example(), &page]);
    assert!(
        output.status.success() && output.stdout.is_empty() && output.stderr.is_empty(),
        "{output:?}"
    );
    let written = fs::read(&page).expect("the page");
    assert!(written.starts_with(b"<!DOCTYPE html>"));
    assert_eq!(run(&[&example()]).stdout, written);
    assert_eq!(room.names(), ["page.html"], "nothing else is left");
    // by standard input it has no name
    let fed = command()
        .arg("-")
        .stdin(File::open(example()).expect("the example"))
        .output()
        .expect("the program runs");
    let text = |bytes: &[u8]| String::from_utf8(bytes.to_vec()).expect("text");
    assert_eq!(
        text(&fed.stdout).replace("a recording from standard input", "two-lanes.trace"),
        text(&written)
    );
}

#[test]
fn a_recording_without_a_request_is_refused_in_a_line() {
    let room = Room::new("empty");
    let page = room.file("page.html", b"an older page");
    is_refused(
        &run(&[&room.file("empty", b""), &page]),
        "holds no request: it has 0 bytes, and a request has 12",
    );
    is_refused(
        &run(&[&room.file("short", b"eleven more"), &page]),
        "holds no request: it has 11 bytes",
    );
    is_refused(
        &command().stdin(Stdio::null()).output().expect("it runs"),
        "standard input holds no request",
    );
    assert_eq!(fs::read(&page).expect("the page"), b"an older page");
}

#[test]
fn nothing_is_lost() {
    let room = Room::new("lost");
    let recording = room.file("recording", &two_lanes(9));
    is_refused(
        &run(&[&recording, &recording]),
        "is the recording, and would be lost",
    );
    assert_eq!(fs::read(&recording).expect("the recording"), two_lanes(9));
    is_refused(
        &run(&[&recording, &room.0]),
        "is a folder, and the page is a file",
    );
    is_refused(
        &run(&[&recording, &room.0.join("no/page.html")]),
        "can't be written",
    );
    is_refused(
        &run(&[&recording, Path::new("/dev/full")]),
        "can't be written",
    );
    is_refused(
        &run(&[&room.0.join("none"), &room.0.join("page.html")]),
        "can't be read",
    );
    assert_eq!(room.names(), ["recording"], "nothing else is left");
}

/// To a page that is there, and to one that is not there yet.
#[test]
fn a_link_leads_to_the_page() {
    for older in [Some("an older page"), None] {
        let room = Room::new("link");
        let (page, link) = (room.0.join("page.html"), room.0.join("link"));
        if let Some(older) = older {
            fs::write(&page, older).expect("a temporary file");
        }
        std::os::unix::fs::symlink(&page, &link).expect("a link");
        assert!(run(&[&example(), &link]).status.success());
        assert_eq!(fs::read_link(&link).expect("it is a link still"), page);
        let written = fs::read(&page).expect("the page");
        assert!(written.starts_with(b"<!DOCTYPE html>"), "{older:?}");
        assert_eq!(room.names(), ["link", "page.html"], "nothing else is left");
    }
}

/// The page names the kit of the file KIT, and where another one is at hand it says so.
#[test]
fn another_kit_is_said() {
    let kit = fs::read_to_string(top().join("KIT")).expect("the file KIT");
    let kit = kit.trim();
    let kits = Path::new(env!("CARGO_MANIFEST_DIR")).join("tests/kits");
    for (folder, said) in [
        ("named", kit.to_string()),
        (
            "other",
            format!("another kit, and not {kit}, which the file KIT names"),
        ),
    ] {
        let path = std::env::var("PATH").expect("a PATH");
        let path = format!("{}:{path}", kits.join(folder).display());
        let run = command().arg(example()).env("PATH", path).output();
        let page = String::from_utf8(run.expect("it runs").stdout).expect("text");
        let said = format!("Rattle kit <code>{said}</code>");
        assert!(page.contains(&said), "no '{said}' in {page}");
    }
}

#[test]
fn words_that_are_not_accepted_are_refused() {
    let one = Path::new("one");
    is_refused(
        &run(&[one, one, one]),
        "3 files are named; accepted are [--names NAMES] [FILE [OUT.html]]",
    );
    is_refused(
        &run(&[Path::new("--colour")]),
        "there is no option '--colour'",
    );
    is_refused(&run(&[Path::new("--names")]), "--names takes a text");
    is_refused(
        &run(&[Path::new("--names"), Path::new("1=")]),
        "the name of thread 1 is empty",
    );
}

#[test]
fn a_full_or_closed_output_is_met() {
    let full = File::options()
        .write(true)
        .open("/dev/full")
        .expect("/dev/full");
    let output = command()
        .arg(example())
        .stdout(full)
        .stderr(Stdio::piped())
        .output();
    is_refused(
        &output.expect("it runs"),
        "standard output can't be written",
    );
    let mut child = command()
        .arg(example())
        .stdout(Stdio::piped())
        .stderr(Stdio::piped())
        .spawn()
        .expect("it runs");
    drop(child.stdout.take());
    let status = child.wait().expect("it ends");
    let mut said = String::new();
    let read = child
        .stderr
        .take()
        .expect("its messages")
        .read_to_string(&mut said);
    read.expect("messages are text");
    assert_eq!((status.code(), said.as_str()), (Some(141), ""));
}

#[test]
fn a_locale_makes_no_difference() {
    let names = "1=größe,2=右";
    let page = |locale: &str| {
        let run = command()
            .args(["--names", names])
            .arg(example())
            .env("LC_ALL", locale)
            .env("LANG", locale)
            .output();
        run.expect("it runs").stdout
    };
    let is = page("C");
    assert_eq!(is, page("tr_TR.UTF-8"));
    let text = String::from_utf8(is).expect("the page is UTF-8");
    assert!(text.contains("größe") && text.contains("右"));
}
