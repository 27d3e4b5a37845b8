//! Every file and folder that a document names between back quotes is there, and every relative link leads to one. The documents are
//! found, so that a new one is read without a line here.

use std::path::{Path, PathBuf};

use docs::names::pieces;
use docs::paths::{documents, find, links, paths};
use docs::{text, top};

/// The folder of the files that a document names by their names alone.
fn home(document: &Path) -> PathBuf {
    match document.to_str() {
        Some("docs/DECISIONS.md") => PathBuf::from("crates/rules/specs"),
        Some("docs/READING.md") => PathBuf::from("crates/promises/specs"),
        _ => document.parent().unwrap_or(Path::new("")).to_path_buf(),
    }
}

/// What is wrong with the paths between a document's back quotes. A name alone is also looked for in the folder of the path before it.
fn faults(document: &Path) -> Vec<String> {
    let mut faults = Vec::new();
    for piece in pieces(&text(document)) {
        let home = home(document);
        let mut folder = home.clone();
        for quoted in &piece.quoted {
            for path in paths(&quoted.name) {
                let found = find(path, Some(&folder)).or_else(|| find(path, Some(&home)));
                match found {
                    Some(found) if top().join(&found).is_dir() => folder = found,
                    Some(found) => folder = found.parent().unwrap_or(&home).to_path_buf(),
                    None => faults.push(format!(
                        "{}:{}: there is no file or folder `{path}`",
                        document.display(),
                        quoted.line
                    )),
                }
            }
        }
    }
    faults
}

#[test]
fn every_path_that_a_document_names_is_there() {
    let faults: Vec<String> = documents().iter().flat_map(|path| faults(path)).collect();
    assert!(faults.is_empty(), "\n{}\n", faults.join("\n"));
}

#[test]
fn every_relative_link_leads_to_a_file() {
    let mut faults = Vec::new();
    for document in documents() {
        let folder = document.parent().unwrap_or(Path::new(""));
        for link in links(&text(&document)) {
            let (path, _) = link.target.split_once('#').unwrap_or((&link.target, ""));
            let is_relative = !path.is_empty() && !path.contains(':');
            if is_relative && !top().join(folder).join(path).exists() {
                let (document, line) = (document.display(), link.line);
                faults.push(format!(
                    "{document}:{line}: the link leads to {path}, which is not there"
                ));
            }
        }
    }
    assert!(faults.is_empty(), "\n{}\n", faults.join("\n"));
}

#[test]
fn the_readme_names_the_kit_that_the_file_kit_names() {
    let kit = text("KIT");
    let name = kit.split_whitespace().next().expect("KIT names a kit");
    let readme = text("README.md");
    assert!(
        readme.contains(&format!("proved with `{name}`")),
        "README.md does not say that this is proved with `{name}`, which the file KIT names"
    );
}

#[test]
fn the_documents_are_found() {
    let found = documents();
    for known in [
        "README.md",
        "CONTRIBUTING.md",
        "docs/PROMISES.md",
        "examples/README.md",
    ] {
        assert!(found.contains(&PathBuf::from(known)), "{known} is not read");
    }
}
