//! `sheet [--names NAMES] [--revision TEXT] [--kit TEXT] [FILE [OUT.html]]`: makes the page of a recording, FILE or standard input where it
//! is left out or is -, and writes it to OUT.html or to standard output. Where there is no page, it says why in a line and leaves OUT.html as
//! it was. What the page says of revision and kit is this machine's, unless it is given.

use std::fs::{self, File};
use std::io::{self, ErrorKind, Write};
use std::path::{Path, PathBuf};
use std::process::ExitCode;

use sheet::about::{About, Given};
use sheet::names::Names;
use sheet::proved::Proved;
use sheet::recording::Recording;
use sheet::{event::Event, page::page};

const ACCEPTED: &str = "accepted are [--names NAMES] [FILE [OUT.html]]";
/// The status of a program that a closed pipe has ended.
const PIPE_CLOSED: u8 = 141;

/// What is asked for.
#[derive(Default)]
struct Asked {
    names: Names,
    origin: Given,
    file: Option<PathBuf>,
    out: Option<PathBuf>,
}

fn main() -> ExitCode {
    match asked().and_then(|asked| made(&asked)) {
        Ok(status) => status,
        Err(fault) => {
            eprintln!("sheet: {fault}");
            ExitCode::FAILURE
        }
    }
}

fn asked() -> Result<Asked, String> {
    let mut asked = Asked::default();
    let mut paths = Vec::new();
    let mut words = std::env::args_os().skip(1);
    while let Some(word) = words.next() {
        let mut value = |name: &str| {
            let value = words
                .next()
                .ok_or(format!("{name} takes a text; {ACCEPTED}"))?;
            let text = value.into_string();
            text.map_err(|_| format!("the text of {name} is not UTF-8"))
        };
        match word.to_str() {
            Some("--names") => asked.names = Names::read(&value("--names")?)?,
            Some("--revision") => asked.origin.revision = Some(value("--revision")?),
            Some("--kit") => asked.origin.kit = Some(value("--kit")?),
            Some(option) if option.starts_with('-') && option != "-" => {
                return Err(format!("there is no option '{option}'; {ACCEPTED}"));
            }
            _ => paths.push(PathBuf::from(word)),
        }
    }
    if paths.len() > 2 {
        return Err(format!("{} files are named; {ACCEPTED}", paths.len()));
    }
    let mut paths = paths.into_iter();
    asked.file = paths.next().filter(|file| file.as_os_str() != "-");
    asked.out = paths.next().filter(|out| out.as_os_str() != "-");
    Ok(asked)
}

fn made(asked: &Asked) -> Result<ExitCode, String> {
    let file = asked.file.as_deref();
    let shown = file.map_or(String::from("standard input"), |file| {
        format!("'{}'", file.display())
    });
    if let (Some(file), Some(out)) = (file, &asked.out) {
        fits(file, out)?;
    }
    let recording = match file {
        Some(file) => File::open(file).and_then(Recording::read),
        None => Recording::read(io::stdin().lock()),
    };
    let recording = recording.map_err(|error| format!("{shown} can't be read: {error}"))?;
    if recording.count() == 0 {
        let bytes = recording.left_over;
        return Err(format!(
            "{shown} holds no request: it has {bytes} bytes, and a request has 12"
        ));
    }
    let proved = Proved::ask(&recording)?;
    let event = Event::of(&recording, &proved)?;
    let about = About::of(file, &recording.bytes, &asked.origin)?;
    let page = page(&event, &recording, &asked.names, &about);
    match &asked.out {
        Some(out) => put(out, page.as_bytes()).map(|()| ExitCode::SUCCESS),
        None => print(page.as_bytes()),
    }
}

/// The page does not take the recording's place.
fn fits(file: &Path, out: &Path) -> Result<(), String> {
    if out.is_dir() {
        return Err(format!(
            "'{}' is a folder, and the page is a file",
            out.display()
        ));
    }
    match (fs::canonicalize(file), fs::canonicalize(out)) {
        (Ok(file), Ok(out)) if file == out => Err(format!(
            "'{}' is the recording, and would be lost: name another file for the page",
            out.display()
        )),
        _ => Ok(()),
    }
}

/// Puts the page into a file, which has the old page or the whole new one. A link stays, and the file that it leads to gets the page.
fn put(out: &Path, page: &[u8]) -> Result<(), String> {
    let fault = |error: io::Error| format!("'{}' can't be written: {error}", out.display());
    let leads_nowhere = |_| fs::symlink_metadata(out).is_ok();
    if fs::metadata(out).map_or_else(leads_nowhere, |is| !is.is_file()) {
        return fs::write(out, page).map_err(fault);
    }
    let file = fs::canonicalize(out).unwrap_or_else(|_| out.to_path_buf());
    let name = file
        .file_name()
        .ok_or(format!("'{}' is no file's name", out.display()))?;
    let unfinished = file.with_file_name(format!(
        ".{}.{}",
        name.to_string_lossy(),
        std::process::id()
    ));
    let written = File::create(&unfinished).and_then(|mut new| {
        new.write_all(page)?;
        new.sync_all()?;
        fs::rename(&unfinished, &file)
    });
    written.map_err(|error| {
        let _ = fs::remove_file(&unfinished);
        fault(error)
    })
}

fn print(page: &[u8]) -> Result<ExitCode, String> {
    let mut out = io::stdout().lock();
    match out.write_all(page).and_then(|()| out.flush()) {
        Ok(()) => Ok(ExitCode::SUCCESS),
        Err(error) if error.kind() == ErrorKind::BrokenPipe => Ok(ExitCode::from(PIPE_CLOSED)),
        Err(error) => Err(format!("standard output can't be written: {error}")),
    }
}
