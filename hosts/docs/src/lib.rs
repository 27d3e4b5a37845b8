//! What the tests over the documents share. They hold docs/, README.md and crates.txt to the sources: `names` finds what a file
//! declares and what a document names, `paths` the files and folders among it and where links lead, `layers` draws README's picture of
//! the crates, `public` finds the functions that a crate lets another one call.

pub mod layers;
pub mod names;
pub mod paths;
pub mod public;

use std::fs;
use std::path::{Path, PathBuf};

/// The top of the repository.
pub fn top() -> PathBuf {
    let top = Path::new(env!("CARGO_MANIFEST_DIR")).join("../..");
    top.canonicalize().expect("the repository has a top")
}

/// The text of a file, by its path from the top.
pub fn text(path: impl AsRef<Path>) -> String {
    let path = path.as_ref();
    fs::read_to_string(top().join(path))
        .unwrap_or_else(|error| panic!("{}: {error}", path.display()))
}

/// What rt makes of a crate, beside its sources and with copies of them: no source.
const MADE: &str = "out";

/// The files below a folder whose names end so, by their paths from the top and in order. A folder that is not there has none, and what
/// rt made is left out.
pub fn files(folder: impl AsRef<Path>, endings: &[&str]) -> Vec<PathBuf> {
    let Ok(entries) = fs::read_dir(top().join(&folder)) else {
        return Vec::new();
    };
    let mut found = Vec::new();
    for entry in entries {
        let entry = entry.expect("a folder can be listed");
        let path = folder.as_ref().join(entry.file_name());
        if top().join(&path).is_dir() {
            if entry.file_name() != MADE {
                found.extend(files(&path, endings));
            }
        } else if endings
            .iter()
            .any(|end| path.to_string_lossy().ends_with(end))
        {
            found.push(path);
        }
    }
    found.sort();
    found
}
