//! crates/tight/specs/ has a theorem for every function that another crate can call, that the function's own promise is tight, and none
//! for a function that is no longer there. Crates that read and write are left out: which bytes a read gives is in no contract. So is what
//! only C can call; `exported.rs` holds that to the functions that it passes on.

use std::collections::{BTreeMap, BTreeSet};
use std::path::{Path, PathBuf};

use docs::layers::crates;
use docs::public::functions;
use docs::{files, text};

/// A field of a record that speaks of functions' promises.
struct Theorem {
    file: PathBuf,
    line: usize,
    record: String,
    field: String,
    /// The functions, as `words::put_word`.
    about: BTreeSet<String>,
}

/// What a function's modules call its promise: a theorem about a function speaks of one of these.
const PROMISE: [&str; 2] = ["Post", "clauses"];

/// Where a crate has the modules of a function.
const MODULES: [&str; 2] = [".proofs.", ".specs.contracts."];

/// The function that a module belongs to: `Rattle.threads.proofs.refusals.bad_ticks.Reads` is `threads::refusals::bad_ticks`, and so is
/// `Rattle.threads.specs.contracts.refusals.bad_ticks`.
fn function(module: &str) -> Option<String> {
    let module = module.strip_prefix("Rattle.")?;
    let (name, path) = MODULES.iter().find_map(|at| module.split_once(at))?;
    let path = path.strip_suffix(".Reads").unwrap_or(path);
    Some(format!("{name}::{}", path.replace('.', "::")))
}

/// A module's whole path: `words.put_word.Reads` is `Rattle.words.proofs.put_word.Reads` where `words` stands for `Rattle.words.proofs`.
fn whole(modules: &BTreeMap<String, String>, head: &str) -> String {
    let (first, rest) = head.split_once('.').unwrap_or((head, ""));
    match modules.get(first) {
        Some(module) if rest.is_empty() => module.clone(),
        Some(module) => format!("{module}.{rest}"),
        None => head.to_string(),
    }
}

/// The theorems of a file: the fields of its records whose types speak of some function's promise.
fn theorems(file: &PathBuf) -> Vec<Theorem> {
    let source = text(file);
    let mut modules = BTreeMap::new();
    let mut found: Vec<Theorem> = Vec::new();
    let mut record = String::new();
    for (at, line) in source.lines().enumerate() {
        let line = line.split("--").next().unwrap_or_default();
        let words: Vec<&str> = line.split_whitespace().collect();
        if let ["use", module, "as", name] = words[..] {
            modules.insert(name.to_string(), module.to_string());
        } else if let Some(at) = words
            .iter()
            .position(|&word| word == "record")
            .filter(|_| !line.starts_with(' '))
        {
            record = words.get(at + 1).unwrap_or(&"").to_string();
        } else if !line.starts_with(' ') && !words.is_empty() {
            record.clear();
        } else if let ["pub", field, ":", ..] = words[..] {
            found.push(Theorem {
                file: file.clone(),
                line: at + 1,
                record: record.clone(),
                field: field.to_string(),
                about: BTreeSet::new(),
            });
        }
        if let Some(theorem) = found
            .last_mut()
            .filter(|theorem| theorem.record == record && !record.is_empty())
        {
            let parts = line.split(|c: char| c.is_whitespace() || "(){},".contains(c));
            let parts = parts.filter_map(|part| part.rsplit_once('.'));
            let heads = parts.filter(|(_, item)| PROMISE.contains(item));
            let modules = heads.map(|(head, _)| whole(&modules, head));
            theorem
                .about
                .extend(modules.filter_map(|module| function(&module)));
        }
    }
    found.retain(|theorem| !theorem.about.is_empty());
    found
}

fn all_theorems() -> Vec<Theorem> {
    let specs = files("crates/tight/specs", &[".antt"]);
    specs.iter().flat_map(theorems).collect()
}

/// By these words a crate's code reaches what is outside of it.
const OUTSIDE: [&str; 3] = ["std::io", "HostRuntime", "libc"];

/// Does a crate's own code read or write?
fn reaches_outside(name: &str) -> bool {
    let sources = files(Path::new("crates").join(name).join("src"), &[".rt"]);
    sources.iter().any(|path| {
        let source = text(path);
        let mut code = source
            .lines()
            .map(|line| line.split("//").next().unwrap_or(""));
        code.any(|line| OUTSIDE.iter().any(|word| line.contains(word)))
    })
}

/// The crates that read and write, by their own code or by that of crates that they stand on. In crates.txt a crate stands behind those
/// that it needs.
fn reading_and_writing() -> BTreeSet<&'static str> {
    let mut found = BTreeSet::new();
    for part in crates() {
        let is_above = part.needs.iter().any(|need| found.contains(need.as_str()));
        if is_above || reaches_outside(&part.name) {
            found.insert(part.name.as_str());
        }
    }
    found
}

fn public() -> BTreeSet<String> {
    let left_out = reading_and_writing();
    let all = crates()
        .iter()
        .filter(|part| !part.is_for_c && !left_out.contains(part.name.as_str()));
    let paths = all.flat_map(|part| {
        functions(&part.name)
            .into_iter()
            .map(|path| format!("{}::{path}", part.name))
    });
    paths.collect()
}

#[test]
fn every_public_function_has_its_theorem() {
    let theorems = all_theorems();
    let functions = public();
    let has_theorem = |function: &&String| {
        theorems
            .iter()
            .any(|theorem| theorem.about.contains(*function))
    };
    let without: Vec<String> = functions
        .iter()
        .filter(|function| !has_theorem(function))
        .map(|function| {
            let (name, path) = function.split_once("::").expect("a crate and a function");
            format!("crate {name}: the public function {path} has no theorem in crates/tight/specs")
        })
        .collect();
    assert!(without.is_empty(), "\n{}\n", without.join("\n"));
    assert!(
        functions.len() > 80,
        "{} functions are read",
        functions.len()
    );
}

#[test]
fn every_theorem_is_about_a_public_function() {
    let functions = public();
    let mut faults = Vec::new();
    for theorem in all_theorems() {
        for function in theorem.about.difference(&functions) {
            let (file, line) = (theorem.file.display(), theorem.line);
            faults.push(format!(
                "{file}:{line}: the field {} is about {function}, which is no public function",
                theorem.field
            ));
        }
    }
    assert!(faults.is_empty(), "\n{}\n", faults.join("\n"));
}

#[test]
fn every_record_of_theorems_is_proved() {
    let proofs: String = files("crates/tight/proofs", &[".antt"])
        .iter()
        .map(text)
        .collect();
    let is_proved = |record: &str| {
        proofs.lines().any(|line| matches!(line.rsplit_once(" : "), Some((name, claim)) if claim == record && !name.starts_with(' ')))
    };
    for theorem in all_theorems() {
        let (file, record) = (theorem.file.display(), &theorem.record);
        assert!(
            is_proved(record),
            "{file}: no definition in crates/tight/proofs has the type {record}"
        );
    }
}

#[test]
fn the_crates_that_read_and_write_are_few() {
    let all = reading_and_writing();
    let expected = ["exchange", "list", "report", "streams", "trace", "write"];
    assert_eq!(all, BTreeSet::from(expected));
}
