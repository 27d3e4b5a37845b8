//! What a page is of and what it was made with: the recording's name and digest, the version, the kit and the revision.

use std::fs;
use std::io::Write;
use std::path::Path;
use std::process::{Command, Stdio};

use programs::top;

/// A page's origin.
#[derive(Clone, Debug)]
pub struct About {
    /// The recording's name, or nothing where it came by standard input.
    pub file: Option<String>,
    /// The SHA-256 of the requests that count.
    pub digest: String,
    pub version: String,
    pub kit: String,
    pub revision: String,
}

/// What is said of a page's origin in the place of what this machine says.
#[derive(Clone, Debug, Default)]
pub struct Given {
    pub revision: Option<String>,
    pub kit: Option<String>,
}

impl About {
    /// Of this file with these bytes.
    pub fn of(file: Option<&Path>, bytes: &[u8], given: &Given) -> Result<About, String> {
        let name = file.and_then(Path::file_name);
        Ok(About {
            file: name.map(|name| name.to_string_lossy().into_owned()),
            digest: digest(bytes)?,
            version: held("VERSION")?,
            kit: given.kit.clone().map_or_else(kit_here, Ok)?,
            revision: given.revision.clone().unwrap_or_else(revision_here),
        })
    }
}

/// The kit that the checkout names, or the one at hand where that is another.
fn kit_here() -> Result<String, String> {
    let named = held("KIT")?;
    let output = Command::new("rt")
        .arg("version")
        .stderr(Stdio::null())
        .output();
    let output = output.ok().filter(|output| output.status.success());
    let here = output.map(|output| String::from_utf8_lossy(&output.stdout).trim().to_string());
    Ok(match here {
        Some(here) if here != named => format!("{here}, and not {named}, which the file KIT names"),
        _ => named,
    })
}

/// The one line of a file of the checkout.
fn held(name: &str) -> Result<String, String> {
    let text = fs::read_to_string(top().join(name))
        .map_err(|error| format!("the checkout's file {name} can't be read: {error}"))?;
    Ok(text.trim().to_string())
}

fn digest(bytes: &[u8]) -> Result<String, String> {
    let fault = |error| format!("sha256sum can't be run: {error}");
    let mut child = Command::new("sha256sum")
        .stdin(Stdio::piped())
        .stdout(Stdio::piped())
        .spawn()
        .map_err(fault)?;
    child
        .stdin
        .take()
        .expect("its standard input")
        .write_all(bytes)
        .map_err(fault)?;
    let output = child.wait_with_output().map_err(fault)?;
    let text = String::from_utf8_lossy(&output.stdout);
    text.split(' ')
        .next()
        .filter(|word| word.len() == 64)
        .map(String::from)
        .ok_or_else(|| String::from("sha256sum prints no digest"))
}

/// The commit of the checkout, and whether what is proved or what makes the page was changed since.
fn revision_here() -> String {
    let git = |words: &[&str]| {
        let output = Command::new("git")
            .arg("-C")
            .arg(top())
            .args(words)
            .stderr(Stdio::null())
            .output()
            .ok()?;
        output
            .status
            .success()
            .then(|| String::from_utf8_lossy(&output.stdout).trim().to_string())
    };
    match (
        git(&["rev-parse", "HEAD"]),
        git(&[
            "status",
            "--porcelain",
            "--",
            "crates",
            "crates.txt",
            "hosts",
        ]),
    ) {
        (Some(commit), Some(changed)) if changed.is_empty() => commit,
        (Some(commit), _) => format!("{commit}, and changes that are not committed"),
        _ => String::from("unknown: the folder is no clone"),
    }
}
