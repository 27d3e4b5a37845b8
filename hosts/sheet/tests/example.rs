//! The example's sheet in docs/ is the one that the program makes, and its figures are those of the report.

use std::fs;
use std::process::Command;

use programs::{top, Program};

const SHEET: &str = "docs/two-lanes.html";
const NAMES: &str = "1=left lane (odd seats),2=right lane (even seats),3=cutter,4=feed";
const EXAMPLE: &str = "examples/two-lanes.trace";

/// What stands between the two texts.
fn between<'a>(text: &'a str, before: &str, behind: &str) -> &'a str {
    let from = text.find(before).unwrap_or_else(|| panic!("no {before}")) + before.len();
    let to = text[from..]
        .find(behind)
        .unwrap_or_else(|| panic!("no {behind}"));
    &text[from..from + to]
}

#[test]
fn the_sheet_in_docs_is_the_programs() {
    let is = fs::read_to_string(top().join(SHEET)).expect("the sheet is there");
    // a commit cannot name itself: the sheet names the one with which it was made, and the kit
    let revision = between(&is, "revision <code>", "</code>");
    let kit = between(&is, "Rattle kit <code>", "</code>");
    let made = Command::new(env!("CARGO_BIN_EXE_sheet"))
        .args(["--names", NAMES, "--revision", revision, "--kit", kit])
        .arg(top().join(EXAMPLE))
        .output()
        .expect("the program runs");
    assert!(
        made.status.success(),
        "{}",
        String::from_utf8_lossy(&made.stderr)
    );
    assert!(
        is.as_bytes() == made.stdout,
        "{SHEET} is not what the program makes: run ./speltmallet sheet --names \"{NAMES}\" {EXAMPLE} {SHEET}"
    );
}

#[test]
fn its_figures_are_the_reports() {
    let is = fs::read_to_string(top().join(SHEET)).expect("the sheet is there");
    let report = Program::Report.fed_file(&top().join(EXAMPLE));
    let report = String::from_utf8(report.stdout).expect("the report is text");
    for line in report.lines() {
        let words: Vec<&str> = line.split(' ').collect();
        let row = between(
            &is,
            &format!(r#"<tbody data-thread="{}">"#, words[0]),
            "</tbody>",
        );
        let charged = between(row, r#"data-figure="charged">"#, "</td>");
        let lag = between(row, r#"data-figure="lag">"#, "</td>");
        // after whole rounds every lag is 0
        assert_eq!(
            (charged, lag.split('<').next()),
            (words[1], Some(words[2])),
            "{line}"
        );
    }
}
