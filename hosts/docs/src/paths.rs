//! The files and folders that a document names, between back quotes and by its links.

use std::fs;
use std::path::{Path, PathBuf};

use crate::layers::crates;
use crate::{files, top};

/// The documents for readers, by their paths from the top: those at the top, in docs/ and in examples/.
pub fn documents() -> Vec<PathBuf> {
    let entries = fs::read_dir(top()).expect("the top can be listed");
    let names = entries.map(|entry| PathBuf::from(entry.expect("it has a name").file_name()));
    let mut found: Vec<PathBuf> = names
        .filter(|name| name.extension().is_some_and(|end| end == "md"))
        .collect();
    found.sort();
    found.extend(
        ["docs", "examples"]
            .iter()
            .flat_map(|at| files(at, &[".md"])),
    );
    found
}

/// Is this a path, and one that can be of this repository? What is built is not there yet, and a word in capitals stands for a name
/// that the reader puts there; NAME alone is a crate's.
pub fn is_path(name: &str) -> bool {
    let endings = [
        ".antt", ".rt", ".rs", ".edit", ".md", ".c", ".h", ".sh", ".txt",
    ];
    let is_elsewhere = name.starts_with(['/', '~', '$', '-', '<'])
        || name.starts_with("target/")
        || name.contains("::")
        || name.contains("://");
    let is_open = |part: &str| part != "NAME" && part.len() > 1 && is_capitals(part);
    !name.contains(' ')
        && !is_elsewhere
        && (name.contains('/') || endings.iter().any(|end| name.ends_with(end)))
        && !name.split('/').any(is_open)
}

fn is_capitals(part: &str) -> bool {
    part.chars().all(|c| c.is_ascii_uppercase() || c == '_')
}

/// The paths of what stands between two back quotes: the whole, or the words of a command that begin at a folder of the top.
pub fn paths(name: &str) -> Vec<&str> {
    if !name.contains(' ') {
        return Vec::from_iter(is_path(name).then_some(name));
    }
    let begins_here = |word: &&str| {
        let first = word.strip_prefix("./").unwrap_or(word).split('/').next();
        word.contains('/') && first.is_some_and(|first| top().join(first).exists())
    };
    let words = name.split(' ').filter(|word| is_path(word));
    words.filter(begins_here).collect()
}

/// The file or folder that a path names, from the top, from crates/ or from a folder. NAME stands for any crate, and so does a path
/// that begins inside of one. A star stands for anything, so the folder before it is what is named.
pub fn find(path: &str, folder: Option<&Path>) -> Option<PathBuf> {
    let path = path.strip_prefix("./").unwrap_or(path);
    let path = match path.split_once('*') {
        Some((before, _)) => before.rsplit_once('/').map_or("", |(folder, _)| folder),
        None => path,
    };
    let mut places = vec![PathBuf::from(path), Path::new("crates").join(path)];
    places.extend(folder.map(|folder| folder.join(path)));
    for part in crates() {
        places.push(PathBuf::from(path.replace("NAME", &part.name)));
        places.push(Path::new("crates").join(&part.name).join(path));
    }
    places.into_iter().find(|place| top().join(place).exists())
}

/// Where a link leads, with the number of its line.
#[derive(Debug, PartialEq)]
pub struct Link {
    pub line: usize,
    pub target: String,
}

/// The links of a document, `[text](target)` and `[name]: target`; what stands in code is none.
pub fn links(document: &str) -> Vec<Link> {
    let mut found = Vec::new();
    let mut is_code = false;
    for (at, line) in document.lines().enumerate() {
        let is_fence = line.trim_start().starts_with("```");
        is_code ^= is_fence;
        if is_code || is_fence {
            continue;
        }
        // every second part stands between back quotes
        let prose = line.split('`').step_by(2).collect::<Vec<_>>().join("");
        let inline = prose.split("](").skip(1);
        let inline = inline.filter_map(|rest| rest.split([')', ' ']).next());
        let defined = prose
            .strip_prefix('[')
            .and_then(|rest| rest.split_once("]: "));
        let defined = defined.and_then(|(_, rest)| rest.split_whitespace().next());
        let line = at + 1;
        found.extend(inline.chain(defined).map(|target| Link {
            line,
            target: target.to_string(),
        }));
    }
    found
}

#[cfg(test)]
mod tests {
    use super::*;

    #[test]
    fn a_path_of_the_repository_is_told_from_other_words() {
        for name in ["hosts/door", "Lib.antt", "crates/NAME/src", "./speltmallet"] {
            assert!(is_path(name), "{name}");
        }
        for name in [
            "/opt/rattle",
            "target/bin/trace",
            "PREFIX/include/speltmallet.h",
            "https://example.org/a.md",
            "mail.rs::send",
            "rt check NAME",
            "too_many",
        ] {
            assert!(!is_path(name), "{name}");
        }
    }

    #[test]
    fn a_command_names_the_paths_that_begin_at_the_top() {
        let command = "hosts/bench/programs.sh target/staticlib n/a ./speltmallet docs/NONE.md";
        let named = ["hosts/bench/programs.sh", "./speltmallet", "docs/NONE.md"];
        assert_eq!(paths(command), named);
        assert_eq!(paths("hosts/door"), ["hosts/door"]);
        assert!(paths("bash it").is_empty());
    }

    #[test]
    fn a_star_stands_for_anything_in_its_folder() {
        let found = |path: &str| find(path, None).is_some();
        assert!(found("docs/*.md"));
        assert!(found("crates/rules/must-fail/*.edit"));
        assert!(!found("nowhere/*.md"));
    }

    #[test]
    fn links_are_found_in_prose_and_not_in_code() {
        let document =
            "see [a](b.md#c), `[d](e)` and ![f](g.png \"h\")\n```\n[i](j)\n```\n[k]: l.md\n";
        let links: Vec<(usize, String)> = links(document)
            .into_iter()
            .map(|link| (link.line, link.target))
            .collect();
        let wanted = [(1, "b.md#c"), (1, "g.png"), (5, "l.md")];
        assert_eq!(
            links,
            wanted.map(|(line, target)| (line, target.to_string()))
        );
    }
}
