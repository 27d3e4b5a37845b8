//! examples/rounds.listing has the requests of the picture. What the lane report says of them under either rule is what Incident.antt states as
//! proved, and what examples/README.md shows.

use std::fs;

use model::{list, operation as op, word, INIT};
use picture::incident::{Incident, Rule};
use picture::run::{charged, run};
use picture::{source, top};

fn text(path: &str) -> String {
    fs::read_to_string(top().join(path)).expect("the file is there")
}

fn incident() -> Incident {
    Incident::read(&source().expect("the file is there")).expect("it is read")
}

#[test]
fn the_listing_has_the_requests_of_the_picture() {
    let incident = incident();
    let claim = incident.claim("ruled").expect("the claim is there");
    let requests = [&incident.lanes[..], &claim.requests].concat();
    let listed = list(&requests.concat());
    assert_eq!(text("examples/rounds.listing").into_bytes(), listed.text);
}

/// The turn that a thread is created with.
fn turn(incident: &Incident, thread: usize) -> i64 {
    let creates = |record: &&[u8; 12]| record[0] == op::CREATE && usize::from(record[1]) == thread;
    let created = incident.lanes.iter().find(creates);
    i64::from(word(created.expect("the thread is created"), 4))
}

/// The lane report of a claim's run. Of a lane the lag is "charged ticks times the sum of the turns of its rank's ready threads at the end,
/// less its own turn times all ticks charged to those threads"; Init is alone in its rank, and the cutter waits.
fn report(name: &str, rule: Rule) -> String {
    let incident = incident();
    let claim = incident.claim(name).expect("the claim is there");
    assert_eq!(claim.rule, rule);
    let steps = run(&incident, claim).unwrap_or_else(|fault| panic!("{fault}"));
    let ticks = |thread: usize| charged(&steps, |one| one == thread) as i64;
    let lanes = [incident.left, incident.right];
    let turns: i64 = lanes.iter().map(|&lane| turn(&incident, lane)).sum();
    let all: i64 = lanes.iter().map(|&lane| ticks(lane)).sum();
    let lag = |thread| match lanes.contains(&thread) {
        true => ticks(thread) * turns - turn(&incident, thread) * all,
        false => 0,
    };
    let mut threads = [INIT, incident.left, incident.right, incident.cutter];
    threads.sort_unstable();
    let lines = threads.map(|thread| format!("{thread} {} {}\n", ticks(thread), lag(thread)));
    lines.concat()
}

/// Of `OddSeatsReported`: `  pub NAME : reported DOOR (RUN) ≡ reads "LEFT\n" "RIGHT\n"`.
#[test]
fn the_reports_are_those_that_the_file_states() {
    let source = source().expect("the file is there");
    for (name, rule) in [
        ("behind", Rule::Incident),
        ("nothing", Rule::Incident),
        ("ruled", Rule::Rules),
        ("ruled_at_once", Rule::Rules),
    ] {
        let field = format!("  pub {name} : reported ");
        let stated = source.lines().find(|line| line.starts_with(&field));
        let stated = stated.unwrap_or_else(|| panic!("no field {name}"));
        let report = report(name, rule);
        let lines: Vec<&str> = report.lines().collect();
        let reads = format!(r#" ≡ reads "{}\n" "{}\n""#, lines[1], lines[2]);
        assert!(stated.ends_with(&reads), "{stated}\nand not{reads}");
    }
}

#[test]
fn the_report_is_shown_under_either_rule() {
    let page = text("examples/README.md");
    let begins = "\n## Whole rounds, and the rule of the incident\n";
    let (_, rest) = page.split_once(begins).expect("the heading is there");
    let part = rest.split("\n## ").next().unwrap_or(rest);
    // every second part of a row stands between back quotes
    let column = |number: usize| -> String {
        let rows = part.lines().filter(|row| row.starts_with("| `"));
        let shown = rows.filter_map(|row| row.split('`').nth(2 * number + 1));
        shown.map(|line| format!("{line}\n")).collect()
    };
    assert_eq!(column(0), report("ruled", Rule::Rules));
    assert_eq!(column(1), report("behind", Rule::Incident));
}
