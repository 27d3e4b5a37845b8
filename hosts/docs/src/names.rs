//! The names that files declare, and the names that a document has between back quotes.

use std::collections::BTreeSet;
use std::path::Path;

use crate::text;

/// The names that a file of antt, Rattle or Rust declares.
pub fn declared(path: &Path) -> BTreeSet<String> {
    let source = text(path);
    match path.extension().and_then(|end| end.to_str()) {
        Some("antt") => antt(&source),
        _ => rust(&source),
    }
}

/// Definitions, records, data types, and the fields and constructors between them.
fn antt(source: &str) -> BTreeSet<String> {
    let mut names = BTreeSet::new();
    let mut is_type = false;
    for line in source.lines() {
        if line.trim().is_empty() || line.trim_start().starts_with("--") {
            continue;
        }
        let marks = ["pub", "abbrev", "unfoldable", "opaque", "record", "data"];
        let words: Vec<&str> = line.split_whitespace().collect();
        let first = words.iter().take_while(|word| marks.contains(word)).count();
        let (before, words) = words.split_at(first);
        if !line.starts_with(' ') {
            is_type = before.contains(&"record") || before.contains(&"data");
            if is_type {
                names.extend(words.first().map(|name| name.to_string()));
                continue;
            }
        } else if !is_type {
            continue;
        }
        // `name : type`, or several names of one type
        let Some(colon) = words.iter().position(|&word| word == ":") else {
            continue;
        };
        let is_name = |word: &&str| !word.contains(['(', ')', '{', '}', '=']);
        if words[..colon].iter().all(is_name) {
            names.extend(words[..colon].iter().map(|name| name.to_string()));
        }
    }
    names
}

/// Functions, constants, types, modules, and the cases of enums.
fn rust(source: &str) -> BTreeSet<String> {
    let mut names = BTreeSet::new();
    // how far the cases of the enum at hand are indented
    let mut cases = None;
    for line in source.lines() {
        let rest = line.trim_start();
        let indent = line.len() - rest.len();
        if let Some(depth) = cases {
            if indent == depth && rest.starts_with(|first: char| first.is_uppercase()) {
                names.insert(identifier(rest));
            }
            if indent + 4 == depth && rest.starts_with('}') {
                cases = None;
            }
        }
        if let Some((kind, name)) = item(rest) {
            names.insert(name);
            if kind == "enum" && rest.ends_with('{') {
                cases = Some(indent + 4);
            }
        }
    }
    names
}

/// The kind and the name of the item that a line begins.
pub fn item(line: &str) -> Option<(&str, String)> {
    let marks = [
        "pub",
        "pub(crate)",
        "pub(super)",
        "unsafe",
        "extern",
        "\"C\"",
    ];
    let kinds = [
        "fn", "const", "static", "struct", "enum", "type", "trait", "mod",
    ];
    let mut words = line.split_whitespace().peekable();
    while words.next_if(|word| marks.contains(word)).is_some() {}
    let mut kind = words.next().filter(|word| kinds.contains(word))?;
    if kind == "const" {
        kind = words.next_if_eq(&"fn").unwrap_or(kind);
    }
    let name = identifier(words.next()?);
    (!name.is_empty()).then_some((kind, name))
}

/// The identifier that a text begins with.
pub fn identifier(text: &str) -> String {
    let is_part = |&c: &char| c.is_alphanumeric() || c == '_';
    text.chars().take_while(is_part).collect()
}

/// A name between back quotes, with the text from it to the next one, or to the end.
#[derive(Debug, Clone)]
pub struct Quoted {
    /// The number of its line in the document.
    pub line: usize,
    pub name: String,
    pub after: String,
}

/// A cell of a table, or a paragraph: what is read together.
#[derive(Debug)]
pub struct Piece {
    pub is_cell: bool,
    pub quoted: Vec<Quoted>,
}

/// The names of a text that begins at a line.
pub fn quoted(text: &str, line: usize) -> Vec<Quoted> {
    let parts: Vec<&str> = text.split('`').collect();
    let mut line = line;
    let mut found = Vec::new();
    for pair in parts[1..].chunks(2) {
        let before = &parts[found.len() * 2];
        line += before.matches('\n').count();
        let after = pair.get(1).unwrap_or(&"").to_string();
        let name = pair[0].split_whitespace().collect::<Vec<_>>().join(" ");
        found.push(Quoted { line, name, after });
        line += pair[0].matches('\n').count();
    }
    found
}

/// The cells of a table's row. A bar in a cell has a backslash before it.
pub fn cells(row: &str) -> Vec<&str> {
    let row = row.trim().trim_start_matches('|');
    let row = row.strip_suffix('|').unwrap_or(row);
    row.split(" | ").map(str::trim).collect()
}

/// The pieces of a document; what stands in a block of code is none.
pub fn pieces(document: &str) -> Vec<Piece> {
    let mut pieces = Vec::new();
    let mut paragraph = (0, String::new());
    let mut is_code = false;
    let lines = document.lines().chain([""]).enumerate();
    for (number, line) in lines.map(|(at, line)| (at + 1, line)) {
        let is_fence = line.starts_with("```");
        is_code ^= is_fence;
        let is_block = line.starts_with("    ") && paragraph.1.is_empty();
        let is_prose =
            !(line.is_empty() || line.starts_with(['|', '#']) || is_fence || is_block || is_code);
        if is_prose {
            if paragraph.1.is_empty() {
                paragraph.0 = number;
            }
            paragraph.1 += line;
            paragraph.1 += "\n";
            continue;
        }
        let (start, prose) = std::mem::take(&mut paragraph);
        pieces.push(Piece {
            is_cell: false,
            quoted: quoted(&prose, start),
        });
        if line.starts_with('|') {
            pieces.extend(cells(line).into_iter().map(|cell| Piece {
                is_cell: true,
                quoted: quoted(cell, number),
            }));
        }
    }
    pieces
}

#[cfg(test)]
mod tests {
    use super::*;

    fn list(names: BTreeSet<String>) -> Vec<String> {
        names.into_iter().collect()
    }

    #[test]
    fn antt_declares_definitions_fields_and_constructors_and_no_more() {
        let source = "\
-- other : Type
use Rattle.std.specs.Prelude.{◌≡◌}
pub data Line : Type 0 where
  nowhere : Line
  ready waiters : ℕ → Line
pub record On (b : Board) : Type 0 where
  -- gone : ℕ
  pub sems : length s.sems ≡ b.sems
      → (deep : ℕ) → wrapped : ℕ
abbrev pub same : Line → Bool
same nowhere = false
join i s =
  let inner : ℕ = 1 in
  call : s
";
        let names = ["Line", "On", "nowhere", "ready", "same", "sems", "waiters"];
        assert_eq!(list(antt(source)), names);
    }

    #[test]
    fn rust_declares_items_and_the_cases_of_enums_and_no_more() {
        let source = "\
pub enum Wait {
    // Gone is a comment
    Nothing { counter: u32 },
    Delay,
}
pub(crate) const fn most() -> u32 {
    Other::call();
    1
}
pub extern \"C\" fn door(t: &mut [u8]) -> i32
const LIMIT: usize = 16;
mod inner {
    enum Line {
        Ready(u8),
    }
}
";
        let names = [
            "Delay", "LIMIT", "Line", "Nothing", "Ready", "Wait", "door", "inner", "most",
        ];
        assert_eq!(list(rust(source)), names);
    }

    #[test]
    fn a_name_has_its_line_and_what_follows_it() {
        let names = quoted("see `a`: `b\nc`,\nthen `d`", 5);
        let found: Vec<(usize, &str, &str)> = names
            .iter()
            .map(|quoted| (quoted.line, quoted.name.as_str(), quoted.after.as_str()))
            .collect();
        let wanted = [(5, "a", ": "), (5, "b c", ",\nthen "), (7, "d", "")];
        assert_eq!(found, wanted);
    }

    #[test]
    fn a_bar_with_a_backslash_is_part_of_its_cell() {
        assert_eq!(
            cells(r"| 0 Yield \| \| | `a` | `b` |"),
            [r"0 Yield \| \|", "`a`", "`b`"]
        );
    }

    #[test]
    fn code_is_no_piece_and_a_list_goes_on_behind_its_indent() {
        let document = "one `a`\n    goes on `b`\n\n    code `c`\n\n```\n`d`\n```\n| `e` | `f` |\n";
        let names: Vec<Vec<String>> = pieces(document)
            .into_iter()
            .map(|piece| piece.quoted.into_iter().map(|quoted| quoted.name).collect())
            .filter(|names: &Vec<String>| !names.is_empty())
            .collect();
        assert_eq!(names, [vec!["a", "b"], vec!["e"], vec!["f"]]);
    }
}
