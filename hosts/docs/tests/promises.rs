//! Everything that docs/PROMISES.md and the readings of docs/DECISIONS.md name between back quotes is there: files, folders,
//! statements, proofs, functions, must-fail edits. `links.rs` reads the paths of every document.
//!
//! A path is one from the top, from crates/, or from the folder of the path before it. In a cell of a table a name is declared in the
//! file before it, or in the crate before it where that has a colon behind it; a semicolon ends that. In a paragraph only the names
//! right behind a file and a colon are. Any other name is declared somewhere in crates/.

use std::collections::{BTreeMap, BTreeSet};
use std::path::{Path, PathBuf};
use std::sync::OnceLock;

use docs::layers::crates;
use docs::names::{declared, pieces, Piece, Quoted};
use docs::paths::{find, is_path};
use docs::{files, text, top};

/// Words of Rattle and of C that crates/ does not declare.
const WORDS: [&str; 4] = ["requires", "ensures", "read", "write"];

/// Where a name has to be declared.
enum Scope {
    Anywhere,
    File(PathBuf),
    Crates(Vec<String>),
}

/// What each source file of crates/ declares.
fn sources() -> &'static BTreeMap<PathBuf, BTreeSet<String>> {
    static SOURCES: OnceLock<BTreeMap<PathBuf, BTreeSet<String>>> = OnceLock::new();
    SOURCES.get_or_init(|| {
        let all = files("crates", &[".rt", ".antt"]).into_iter();
        all.map(|path| (path.clone(), declared(&path))).collect()
    })
}

/// Is the name at this place the head of a list, as both are in "`canon`, `places`: all"?
fn heads(quoted: &[Quoted], at: usize) -> bool {
    let is_crate = |name: &&Quoted| crates().iter().any(|part| part.name == name.name);
    let Some(name) = quoted.get(at).filter(is_crate) else {
        return false;
    };
    name.after.starts_with(':') || (name.after == ", " && heads(quoted, at + 1))
}

/// Some file declares the record and the field, or is the file and declares the name.
fn is_member(owner: &str, item: &str) -> bool {
    sources().iter().any(|(path, names)| {
        let is_file = path.file_stem().is_some_and(|stem| stem == owner);
        (is_file || names.contains(owner)) && names.contains(item)
    })
}

impl Scope {
    fn has(&self, file: &Path) -> bool {
        match self {
            Scope::Anywhere => true,
            Scope::File(path) => file == path,
            Scope::Crates(names) => {
                let mut folders = names.iter().map(|name| format!("crates/{name}/src"));
                folders.any(|folder| file.starts_with(folder))
            }
        }
    }

    /// What is wrong with a name, if anything.
    fn fault(&self, name: &str) -> Option<String> {
        if let Some((owner, item)) = name.split_once('.') {
            let fault = format!("nothing in crates/ declares `{name}`");
            return (!is_member(owner, item)).then_some(fault);
        }
        let mut files = sources().iter().filter(|(path, _)| self.has(path));
        if files.any(|(_, names)| names.contains(name)) {
            return None;
        }
        let place = match self {
            Scope::Anywhere => "crates/".to_string(),
            Scope::File(path) => path.display().to_string(),
            Scope::Crates(names) => format!("src/ of the crate {}", names.join(" or ")),
        };
        Some(format!("nothing in {place} declares `{name}`"))
    }
}

/// Reads the names of a cell or a paragraph in their order.
struct Reader<'a> {
    foreign: &'a [&'a str],
    scope: Scope,
    folder: Option<PathBuf>,
}

impl Reader<'_> {
    /// A path: the names behind it are declared in it.
    fn path(&mut self, path: &str) -> Option<String> {
        let found = find(path, self.folder.as_deref());
        let fault = found
            .is_none()
            .then(|| format!("there is no file or folder `{path}`"));
        let place = found.unwrap_or_else(|| Path::new("crates").join(path));
        self.folder = place.parent().map(Path::to_path_buf);
        self.scope = match top().join(&place).is_file() {
            true => Scope::File(place),
            false => Scope::Anywhere,
        };
        fault
    }

    /// The head of a list: the names behind it are functions of the crate, or of one of several.
    fn head(&mut self, name: &str, follows: bool) {
        match &mut self.scope {
            Scope::Crates(names) if follows => names.push(name.to_string()),
            scope => *scope = Scope::Crates(vec![name.to_string()]),
        }
    }

    /// What is wrong with the names.
    fn faults(&mut self, piece: &Piece) -> Vec<(usize, String)> {
        let mut faults = Vec::new();
        let mut after = "";
        for (at, quoted) in piece.quoted.iter().enumerate() {
            let name = quoted.name.as_str();
            if is_path(name) {
                faults.extend(self.path(name).map(|fault| (quoted.line, fault)));
            } else if heads(&piece.quoted, at) {
                self.head(name, after == ", ");
            } else {
                let words = name.split(' ').filter(|word| !self.foreign.contains(word));
                let found = words.filter_map(|word| self.scope.fault(word));
                faults.extend(found.map(|fault| (quoted.line, fault)));
            }
            after = &quoted.after;
            let goes_on = match piece.is_cell {
                true => !after.contains(';'),
                false => [":", ",", ", and", "and"].contains(&after.trim()),
            };
            if !goes_on {
                self.scope = Scope::Anywhere;
            }
        }
        faults
    }
}

/// Fails where a part of a document names something that is not there; `foreign` are words that crates/ does not declare.
fn check(document: &str, part: &str, foreign: &[&str]) {
    let mut found = Vec::new();
    let mut names = 0;
    for piece in pieces(part) {
        names += piece.quoted.len();
        let mut reader = Reader {
            foreign,
            scope: Scope::Anywhere,
            folder: None,
        };
        let faults = reader.faults(&piece).into_iter();
        found.extend(faults.map(|(line, fault)| format!("{document}:{line}: {fault}")));
    }
    assert!(found.is_empty(), "\n{}\n", found.join("\n"));
    assert!(names > 20, "{document}: {names} names are read");
}

#[test]
fn everything_that_the_promises_name_is_there() {
    check("docs/PROMISES.md", &text("docs/PROMISES.md"), &WORDS);
}

#[test]
fn everything_that_the_readings_name_is_there() {
    let document = text("docs/DECISIONS.md");
    let (readings, _) = document
        .split_once("## How the rules are written")
        .expect("docs/DECISIONS.md has the readings first");
    check("docs/DECISIONS.md", readings, &["short", "N"]);
}
