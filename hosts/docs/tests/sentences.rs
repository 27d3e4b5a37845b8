//! docs/SENTENCES.md has a row for each sentence of document 01 and of the orders, and everything that it names is there: the definition in the rules,
//! the functions of the model, the tests of the model.

use std::collections::{BTreeMap, BTreeSet};
use std::path::PathBuf;

use docs::names::{cells, declared, pieces, quoted};
use docs::{text, top};

const TABLE: &str = "docs/SENTENCES.md";
const COLUMNS: [&str; 4] = ["Sentence", "Definition", "Model", "Tests"];

/// The sentences and clauses into which document 01 and the orders that have landed are cut.
const SENTENCES: usize = 188;

/// The file that a name of a column stands for, and the item in it.
fn place(column: &str, name: &str) -> Option<(PathBuf, String)> {
    let (file, item) = match column {
        "Definition" => match name.split_once("::") {
            Some((file, item)) => (format!("crates/rules/src/{file}"), item),
            None => {
                let (path, item) = name.rsplit_once('.')?;
                let (part, file) = path.split_once('.').unwrap_or(("rules", path));
                (format!("crates/{part}/specs/{file}.antt"), item)
            }
        },
        "Model" => {
            let (file, item) = name.split_once("::")?;
            (format!("hosts/model/src/{file}"), item)
        }
        _ => {
            let (file, item) = name.split_once("::")?;
            (format!("hosts/model/tests/{file}"), item)
        }
    };
    Some((PathBuf::from(file), item.to_string()))
}

/// What the files declare, each read once.
#[derive(Default)]
struct Known(BTreeMap<PathBuf, BTreeSet<String>>);

impl Known {
    /// What is wrong with a name of a column, if anything.
    fn fault(&mut self, column: &str, name: &str) -> Option<String> {
        let Some((file, item)) = place(column, name) else {
            return Some(format!("`{name}` is no file and name; accepted are `File.name` and `crate.File.name` for a definition and `file.rs::name` else"));
        };
        if !top().join(&file).is_file() {
            return Some(format!("`{name}`: there is no file {}", file.display()));
        }
        let names = self
            .0
            .entry(file.clone())
            .or_insert_with(|| declared(&file));
        let is_there = names.contains(&item);
        (!is_there).then(|| format!("`{name}`: {} declares no {item}", file.display()))
    }
}

/// The rows of the tables, with the numbers of their lines.
fn rows(document: &str) -> impl Iterator<Item = (usize, Vec<&str>)> {
    let lines = document.lines().enumerate();
    let rows = lines.filter(|(_, line)| line.starts_with('|') && !line.starts_with("|---"));
    let rows = rows.map(|(at, line)| (at + 1, cells(line)));
    rows.filter(|(_, row)| row[..] != COLUMNS)
}

#[test]
fn every_name_of_every_column_is_there() {
    let document = text(TABLE);
    let mut known = Known::default();
    let mut faults = Vec::new();
    for (line, row) in rows(&document) {
        if row.len() != COLUMNS.len() {
            faults.push(format!(
                "{TABLE}:{line}: {} cells, and not {}",
                row.len(),
                COLUMNS.len()
            ));
            continue;
        }
        for (column, cell) in COLUMNS.into_iter().zip(&row).skip(1) {
            let names = quoted(cell, line);
            if names.is_empty() {
                faults.push(format!(
                    "{TABLE}:{line}: nothing is named under {column} for: {}",
                    row[0]
                ));
            }
            for name in names {
                let fault = known.fault(column, &name.name);
                faults.extend(fault.map(|fault| format!("{TABLE}:{line}: {column}: {fault}")));
            }
        }
    }
    assert!(faults.is_empty(), "\n{}\n", faults.join("\n"));
}

#[test]
fn every_test_named_in_the_text_is_there() {
    let mut known = Known::default();
    let mut faults = Vec::new();
    let document = text(TABLE);
    let prose = pieces(&document).into_iter().filter(|piece| !piece.is_cell);
    // the forms that names have in the columns
    let forms = ["file.rs::name", "lib.rt::Name"];
    for name in prose.flat_map(|piece| piece.quoted) {
        if name.name.contains("::") && !forms.contains(&name.name.as_str()) {
            let fault = known.fault("Tests", &name.name);
            faults.extend(fault.map(|fault| format!("{TABLE}:{}: {fault}", name.line)));
        }
    }
    assert!(faults.is_empty(), "\n{}\n", faults.join("\n"));
}

#[test]
fn no_sentence_is_missing_or_stands_twice() {
    let document = text(TABLE);
    let mut seen = BTreeMap::new();
    for (line, row) in rows(&document) {
        if let Some(before) = seen.insert(row[0], line) {
            panic!(
                "{TABLE}:{line}: the sentence stands in line {before} too: {}",
                row[0]
            );
        }
    }
    let count = seen.len();
    assert!(
        count >= SENTENCES,
        "{TABLE} has {count} sentences, and document 01 and the orders have {SENTENCES}"
    );
}
