//! docs/READING.md tells an auditor what is there: the rules' files in their order, the statement that it reads aloud, the edit that it tries, and
//! names that crates/ declares.

use std::collections::BTreeSet;

use docs::names::{declared, pieces};
use docs::{files, text};

/// Words of Rattle, of antt and of C that crates/ does not declare.
const WORDS: [&str; 13] = [
    "requires",
    "ensures",
    "use",
    "pub",
    "abbrev",
    "unfoldable",
    "record",
    "declared",
    "antt",
    "read",
    "write",
    "from",
    "steps",
];

/// A part of the document, from its heading to the next.
fn part(heading: &str) -> String {
    let document = text("docs/READING.md");
    let (_, rest) = document
        .split_once(&format!("## {heading}\n"))
        .unwrap_or_else(|| panic!("docs/READING.md has no part \"{heading}\""));
    rest.split("\n## ").next().unwrap_or_default().to_string()
}

#[test]
fn the_rules_are_listed_in_the_order_of_their_lib() {
    let list = text("crates/rules/specs/Lib.antt");
    let modules = list
        .lines()
        .filter_map(|line| line.strip_prefix("pub mod "));
    let wanted: Vec<String> = modules.map(|name| format!("{name}.antt")).collect();
    let cells = pieces(&part("The order"));
    let cell = cells
        .iter()
        .find(|piece| piece.quoted.iter().any(|quoted| quoted.name == wanted[0]));
    let named = cell.expect("a cell has the rules' files").quoted.iter();
    let listed: Vec<String> = named
        .map(|quoted| quoted.name.clone())
        .filter(|name| !name.contains('/'))
        .collect();
    assert_eq!(listed, wanted);
}

#[test]
fn the_statement_that_is_read_aloud_is_the_one_that_is_proved() {
    let part = part("One statement, read aloud");
    let quoted = part.split("```").nth(1).expect("the statement is quoted");
    let quoted = quoted.strip_prefix("text\n").expect("as text");
    let source = text("crates/promises/specs/Demand3.antt");
    let lines = source.lines();
    let code: Vec<&str> = lines
        .filter(|line| !line.trim_start().starts_with("--"))
        .collect();
    let code = code.join("\n");
    for definition in quoted.trim().split("\n\n") {
        assert!(
            code.contains(&format!("\n{definition}\n")),
            "docs/READING.md: crates/promises/specs/Demand3.antt does not say\n{definition}"
        );
    }
    // each row of the table has a piece of it, or of what it stands for
    let flat = |text: &str| text.split_whitespace().collect::<Vec<_>>().join(" ");
    let whole = flat(quoted);
    let rows = part.lines().filter(|line| line.starts_with("| `"));
    let written = rows.filter_map(|row| row.split('`').nth(1));
    for piece in written {
        let piece = piece.strip_prefix("→ ").unwrap_or(piece);
        assert!(
            whole.contains(&flat(piece)),
            "docs/READING.md: the statement does not have `{piece}`"
        );
    }
}

#[test]
fn the_edit_that_is_tried_is_a_must_fail_edit() {
    let document = text("docs/READING.md");
    let edit = text("crates/promises/must-fail/operation_24.edit");
    let edited = text("crates/promises/specs/Malformed.antt");
    assert!(document.contains("'s/unknown : 24 </unknown : 23 </'"));
    assert!(edit.contains("old: unknown : 24 <") && edit.contains("new: unknown : 23 <"));
    assert_eq!(edited.matches("unknown : 24 <").count(), 1);
}

#[test]
fn every_name_is_declared_in_crates() {
    let mut names = BTreeSet::new();
    for path in files("crates", &[".antt", ".rt"]) {
        names.extend(declared(&path));
    }
    let is_name = |word: &&str| {
        let is_part = |c: char| c.is_alphanumeric() || c == '_' || c == '.';
        word.len() > 2 && word.chars().all(is_part) && !word.ends_with(".antt")
    };
    let mut read = 0;
    for heading in [
        "What stands where",
        "One statement, read aloud",
        "\"Assumes nothing\"",
    ] {
        for piece in pieces(&part(heading)) {
            let quoted = piece.quoted.iter().map(|quoted| quoted.name.as_str());
            for name in quoted.filter(is_name).flat_map(|name| name.split('.')) {
                read += 1;
                assert!(
                    names.contains(name) || WORDS.contains(&name),
                    "docs/READING.md, \"{heading}\": nothing in crates/ declares `{name}`"
                );
            }
        }
    }
    assert!(read > 20, "{read} names are read");
}
