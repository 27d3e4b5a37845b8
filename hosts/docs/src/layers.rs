//! The crates by layer, drawn from crates.txt: each below all that stand on it.

use std::collections::{BTreeMap, BTreeSet};
use std::path::Path;
use std::sync::OnceLock;

use crate::names::identifier;
use crate::{files, text, top};

/// A line of crates.txt.
pub struct Crate {
    pub name: String,
    /// A static library: C calls it, and no other crate can.
    pub is_for_c: bool,
    /// What it declares to depend on; the kit's own crates are among it.
    pub needs: Vec<String>,
}

/// The crates of crates.txt, in its order.
pub fn crates() -> &'static [Crate] {
    static CRATES: OnceLock<Vec<Crate>> = OnceLock::new();
    CRATES.get_or_init(|| read(&text("crates.txt")))
}

fn read(list: &str) -> Vec<Crate> {
    let lines = list
        .lines()
        .map(|line| line.split('#').next().unwrap_or_default());
    let parts = lines.filter_map(|line| line.split_once(':'));
    parts
        .filter_map(|(head, needs)| {
            let mut words = head.split_whitespace();
            Some(Crate {
                name: words.next()?.to_string(),
                is_for_c: words.any(|word| word == "staticlib"),
                needs: needs.split_whitespace().map(String::from).collect(),
            })
        })
        .collect()
}

/// The lines of a crate's sources that are no comments.
fn substance(name: &str) -> Vec<String> {
    let sources = files(Path::new("crates").join(name), &[".rt", ".antt"]);
    let lines = sources
        .iter()
        .flat_map(|path| text(path).lines().map(String::from).collect::<Vec<_>>());
    let is_comment =
        |line: &String| line.trim_start().starts_with("//") || line.trim_start().starts_with("--");
    lines.filter(|line| !is_comment(line)).collect()
}

/// Does a line name the other crate, as `Rattle.NAME` or as `NAME::`?
fn names(line: &str, other: &str) -> bool {
    let is_whole = |before: &str| {
        !before.ends_with(|c: char| c.is_alphanumeric() || c == '_' || c == ':' || c == '.')
    };
    let begins = |head: &str| {
        let places = line.match_indices(head);
        let whole = places.filter(|(at, _)| is_whole(&line[..*at]));
        whole
            .map(|(at, _)| &line[at + head.len()..])
            .collect::<Vec<_>>()
    };
    let in_antt = begins("Rattle.")
        .into_iter()
        .any(|rest| identifier(rest) == other);
    in_antt || !begins(&format!("{other}::")).is_empty()
}

/// What a crate declares to depend on, and names nowhere.
pub fn unused(part: &Crate) -> Vec<&str> {
    let lines = substance(&part.name);
    let needs = part.needs.iter().map(String::as_str);
    needs
        .filter(|need| !lines.iter().any(|line| names(line, need)))
        .collect()
}

/// What a crate is for: the first sentence of its first source file.
fn purpose(name: &str) -> String {
    let folder = Path::new("crates").join(name).join("src");
    let candidates = [folder.join("lib.rt"), folder.join("main.rt")];
    let Some(path) = candidates.iter().find(|path| top().join(path).is_file()) else {
        panic!("{} has neither lib.rt nor main.rt", folder.display());
    };
    let source = text(path);
    let comment = source.lines().map_while(|line| line.strip_prefix("//"));
    let words = comment.flat_map(str::split_whitespace);
    let mut sentence = String::new();
    for word in words {
        sentence += word;
        if word.ends_with(['.', '?']) {
            return sentence;
        }
        sentence += " ";
    }
    panic!(
        "{} does not open with a sentence that says what the crate is for",
        path.display()
    );
}

/// Where a crate stands: above how many layers, and above which crates.
struct Place<'a> {
    height: usize,
    below: BTreeSet<&'a str>,
}

/// What a crate depends on in this repository.
fn needs<'a>(part: &'a Crate, parts: &[Crate]) -> Vec<&'a str> {
    let is_ours = |need: &&str| parts.iter().any(|other| other.name == *need);
    let needs = part.needs.iter().map(String::as_str);
    needs.filter(is_ours).collect()
}

/// A crate is placed once all that it depends on are, so the list may have any order.
fn places(parts: &[Crate]) -> BTreeMap<&str, Place<'_>> {
    let mut places: BTreeMap<&str, Place> = BTreeMap::new();
    while places.len() < parts.len() {
        let before = places.len();
        for part in parts {
            let needs = needs(part, parts);
            let found: Option<Vec<&Place>> = needs.iter().map(|need| places.get(need)).collect();
            let Some(found) = found else {
                continue;
            };
            let height = found.iter().map(|place| place.height + 1).max();
            let further = found.iter().flat_map(|place| place.below.iter().copied());
            let below = needs.iter().copied().chain(further).collect();
            let height = height.unwrap_or(0);
            places.insert(&part.name, Place { height, below });
        }
        assert!(
            places.len() > before,
            "crates.txt: some crates depend on each other in a circle"
        );
    }
    places
}

/// The columns of the picture.
const NAME: usize = 14;
const PURPOSE: usize = 78;
const ARROWS: usize = 44;

/// A text in lines of a width.
fn wrapped(text: &str, width: usize) -> Vec<String> {
    let mut lines = vec![String::new()];
    for word in text.split_whitespace() {
        let line = lines.last_mut().expect("there is a line");
        if line.is_empty() {
            *line += word;
        } else if line.chars().count() + 1 + word.chars().count() <= width {
            *line += " ";
            *line += word;
        } else {
            lines.push(word.to_string());
        }
    }
    lines
}

fn row(name: &str, purpose: &str, arrows: &str) -> String {
    let row = format!("{name:NAME$} {purpose:PURPOSE$}  {arrows}");
    row.trim_end().to_string()
}

/// A crate's lines: its name, what it is for, and the crates that it stands on and reaches by no other path.
fn drawn(part: &Crate, parts: &[Crate], places: &BTreeMap<&str, Place>) -> Vec<String> {
    let needs = needs(part, parts);
    let is_direct = |need: &&str| !needs.iter().any(|other| places[other].below.contains(need));
    let direct: Vec<&str> = needs.iter().copied().filter(is_direct).collect();
    let purpose = wrapped(&purpose(&part.name), PURPOSE);
    let mut arrows = wrapped(&direct.join(" "), ARROWS - 2);
    if !direct.is_empty() {
        arrows[0].insert_str(0, "↓ ");
        arrows[1..]
            .iter_mut()
            .for_each(|line| line.insert_str(0, "  "));
    }
    let cell = |column: &[String], at: usize| column.get(at).cloned().unwrap_or_default();
    let lines = 0..purpose.len().max(arrows.len());
    lines
        .map(|at| {
            let name = if at == 0 { &part.name } else { "" };
            row(name, &cell(&purpose, at), &cell(&arrows, at))
        })
        .collect()
}

/// The picture: the highest layer first, a line between two layers.
pub fn picture() -> String {
    let parts = crates();
    let places = places(parts);
    let highest = places.values().map(|place| place.height).max().unwrap_or(0);
    let mut lines = vec![row("crate", "what it is for", "stands on")];
    for height in (0..=highest).rev() {
        lines.push("─".repeat(NAME + 1 + PURPOSE + 2 + ARROWS));
        let layer = parts
            .iter()
            .filter(|part| places[part.name.as_str()].height == height);
        lines.extend(layer.flat_map(|part| drawn(part, parts, &places)));
    }
    lines.join("\n") + "\n"
}

/// What stands before and behind the picture in README.md.
const BEGIN: &str = "<!-- layers: hosts/docs/layers draws this from crates.txt -->\n```text\n";
const END: &str = "```\n<!-- end of layers -->\n";

/// README.md with another picture in it. Nothing where its two comments are not found.
pub fn with_picture(readme: &str, picture: &str) -> Option<String> {
    let (before, rest) = readme.split_once(BEGIN)?;
    let (_, after) = rest.split_once(END)?;
    Some([before, BEGIN, picture, END, after].concat())
}

#[cfg(test)]
mod tests {
    use super::*;

    #[test]
    fn a_crate_stands_above_all_that_it_needs_in_any_order() {
        let parts = read("# a comment\ntop staticlib: mid low io   # behind\nmid: low\nlow:\n");
        let places = places(&parts);
        let heights: Vec<usize> = ["low", "mid", "top"]
            .map(|name| places[name].height)
            .to_vec();
        assert_eq!(heights, [0, 1, 2]);
        assert_eq!(needs(&parts[0], &parts), ["mid", "low"]);
        assert_eq!(
            parts.iter().map(|part| part.is_for_c).collect::<Vec<_>>(),
            [true, false, false]
        );
    }

    #[test]
    fn a_crate_is_named_by_its_whole_name() {
        assert!(names("ghost use Rattle.mail.specs.Post.{Post};", "mail"));
        assert!(names("(Rattle.mail.specs.Post.Post)", "mail"));
        assert!(names("    mail::send(t)", "mail"));
        assert!(!names("use Rattle.mailbox.specs", "mail"));
        assert!(!names("use Rattle.rules.specs.mail", "mail"));
        assert!(!names("use Other.Rattle.mail", "mail"));
        assert!(!names("    email::send(t)", "mail"));
        assert!(!names("    rules::mail::send(t)", "mail"));
    }

    #[test]
    fn a_picture_goes_between_the_comments() {
        let readme = ["before\n", BEGIN, "old\n", END, "after\n"].concat();
        let drawn = ["before\n", BEGIN, "new\n", END, "after\n"].concat();
        assert_eq!(with_picture(&readme, "new\n"), Some(drawn));
        assert_eq!(with_picture("no comments\n", "new\n"), None);
    }
}
