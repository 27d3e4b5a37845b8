//! What README.md and examples/README.md show of the examples is what the compiled programs print of them.

use model::{operation as op, record, FOREVER, RECORD};
use programs::{top, Program};
use std::fs;

/// The requests of the table, in its order.
fn requests() -> [[u8; RECORD]; 16] {
    let pend = |number| record(op::PEND, 1, 0, number, 0);
    [
        record(op::MAKE, 1, 0, 1, 0),
        record(op::CREATE, 5, 6, 8, 0),
        pend(FOREVER),
        record(op::DELAY, 0, 0, 20, 0),
        record(op::CREATE, 3, 9, 4, 0),
        pend(FOREVER),
        record(op::CREATE, 1, 5, 8, 0),
        pend(FOREVER),
        record(op::CREATE, 2, 5, 8, 0),
        pend(FOREVER),
        record(op::SUSPEND, 2, 0, 0, 0),
        record(op::CREATE, 4, 7, 2, 0),
        pend(50),
        record(op::POST_FROM_INTERRUPT, 1, 0, 1, 0),
        pend(FOREVER),
        record(op::OUTCOME, 4, 0, 0, 0),
    ]
}

fn page(path: &str) -> String {
    fs::read_to_string(top().join(path)).expect("the page is there")
}

/// What a page has under a heading, up to the next.
fn section<'a>(page: &'a str, heading: &str) -> &'a str {
    let begins = format!("\n## {heading}\n");
    let (_, rest) = page.split_once(&begins).expect("the heading is there");
    rest.split("\n## ").next().unwrap_or(rest)
}

/// The cells of a page's tables that stand between back quotes, by row and column.
fn cells(page: &str) -> Vec<Vec<Option<&str>>> {
    let rows = page.lines().filter_map(|line| line.strip_prefix("| "));
    rows.map(|row| row.split(" | ").map(quoted).collect())
        .collect()
}

fn quoted(cell: &str) -> Option<&str> {
    cell.strip_prefix('`')?.strip_suffix('`')
}

/// The column of the rows that have a text in it, and none to its left.
fn column(page: &str, number: usize) -> String {
    let rows = cells(page);
    let firsts = rows
        .iter()
        .map(|row| row.iter().position(|cell| cell.is_some()));
    let shown = rows
        .iter()
        .zip(firsts)
        .filter(|(_, first)| *first == Some(0));
    let texts = shown.filter_map(|(row, _)| *row.get(number)?);
    texts.map(|text| format!("{text}\n")).collect()
}

#[test]
fn the_line_for_the_motors_current() {
    let path = top().join("examples/ahead.trace");
    assert_eq!(fs::read(&path).expect("the example"), requests().concat());
    let output = Program::Trace.fed_file(&path);
    let printed = String::from_utf8_lossy(&output.stdout);
    let page = page("examples/README.md");
    let shown = column(section(&page, "Who is ahead in a line"), 0);
    assert_eq!(printed, shown, "examples/README.md shows otherwise");
    assert!(output.stderr.is_empty());
}

/// The program makes of the one example exactly the other, and says nothing.
fn makes(program: Program, from: &str, to: &str) {
    let output = program.fed_file(&top().join(from));
    let wanted = fs::read(top().join(to)).expect("the example");
    assert!(output.stdout == wanted, "{from} does not give {to}");
    assert!(output.stderr.is_empty());
}

#[test]
fn the_listing_of_the_two_lane_printers_event() {
    let (trace, listing) = ("examples/two-lanes.trace", "examples/two-lanes.listing");
    makes(Program::List, trace, listing);
    makes(Program::Write, listing, trace);
}

#[test]
fn the_lines_that_are_explained_are_those_of_the_listing() {
    let listing = page("examples/two-lanes.listing");
    let lines: Vec<&str> = listing.lines().collect();
    let mut explained = 0;
    for row in page("examples/README.md").lines() {
        let mut cells = row.trim_start_matches("| ").split(" | ");
        let number = cells.next().and_then(|cell| cell.parse::<usize>().ok());
        let text = cells.next().and_then(quoted);
        if let (Some(number), Some(text)) = (number, text) {
            assert_eq!(lines[number], text, "line {number}");
            explained += 1;
        }
    }
    assert!(explained > 10, "{explained} lines are explained");
}

/// Under a heading of the page stands the listing, line by line, each with what is printed of it.
fn shows(path: &str, heading: &str, example: &str) {
    let page_text = page(path);
    let table = section(&page_text, heading);
    let listing = page(example);
    assert_eq!(column(table, 0), listing, "{path} shows other lines");
    let records = Program::Write.fed(vec![listing.into_bytes()]).stdout;
    let answers = Program::Trace.fed(vec![records]).stdout;
    let answers = String::from_utf8_lossy(&answers);
    assert_eq!(column(table, 1), answers, "{path} shows other answers");
}

#[test]
fn the_listing_that_is_typed_by_hand() {
    let heading = "Requests typed by hand";
    shows("README.md", heading, "examples/typed.listing");
}

#[test]
fn a_whole_roll_at_once() {
    let heading = "A whole roll at once";
    shows("examples/README.md", heading, "examples/roll.listing");
}

#[test]
fn a_lanes_turn_without_its_priority() {
    let heading = "A lane's turn, without its priority";
    shows("examples/README.md", heading, "examples/settings.listing");
}

/// The lines that are shown of the battery printer's event are those of its listing, each with what the trace prints of it: an answer begins
/// with its line's number.
#[test]
fn the_battery_printers_event() {
    let (trace, listing) = ("examples/battery.trace", "examples/battery.listing");
    makes(Program::List, trace, listing);
    makes(Program::Write, listing, trace);
    let printed = Program::Trace.fed_file(&top().join(trace)).stdout;
    let printed = String::from_utf8_lossy(&printed);
    let (answers, listing) = (printed.lines().collect::<Vec<_>>(), page(listing));
    let lines: Vec<&str> = listing.lines().collect();
    let page = page("examples/README.md");
    let table = section(&page, "A battery printer asleep");
    let (shown, answered) = (column(table, 0), column(table, 1));
    assert!(shown.lines().count() > 20, "{shown}");
    for (line, answer) in shown.lines().zip(answered.lines()) {
        let number = number_behind(answer, "");
        assert_eq!((lines[number], answers[number]), (line, answer));
    }
    assert!(table.contains(&format!("the {} requests", lines.len())));
}

#[test]
fn the_report_of_the_battery_printers_event() {
    let records = fs::read(top().join("examples/battery.trace")).expect("the example");
    let heading = "The report of the battery printer";
    reports("examples/README.md", heading, 0, &report(&records));
}

/// The page shows what the battery printer said of its wake-ups, which `hosts/printer/check.sh` holds to the printer.
#[test]
fn the_wake_ups_of_the_battery_printer() {
    let page_text = page("examples/README.md");
    let shown = section(&page_text, "A battery printer asleep");
    for line in page("examples/battery.wakes").lines() {
        assert!(shown.contains(&format!("\n    {line}\n")), "{line}");
    }
}

/// The report of these records, of which nothing is said on standard error.
fn report(records: &[u8]) -> String {
    let output = Program::Report.fed(vec![records.to_vec()]);
    assert!(output.stderr.is_empty());
    String::from_utf8(output.stdout).expect("a report is text")
}

/// A column of the table under a heading of the page is this report.
fn reports(path: &str, heading: &str, number: usize, report: &str) {
    let page = page(path);
    let shown = column(section(&page, heading), number);
    assert_eq!(shown, report, "{path} shows another report");
}

/// The number behind these words of a text.
fn number_behind(text: &str, words: &str) -> usize {
    let (_, rest) = text.split_once(words).expect("the words are there");
    let number = rest.split_whitespace().next();
    let number = number.and_then(|number| number.parse().ok());
    number.expect("a number")
}

#[test]
fn the_report_of_the_two_lane_printers_event() {
    let (examples, heading) = ("examples/README.md", "The report of the recording");
    let records = fs::read(top().join("examples/two-lanes.trace")).expect("the example");
    reports("README.md", "The lane report", 0, &report(&records));
    reports(examples, heading, 0, &report(&records));
    let first = number_behind(section(&page(examples), heading), "head -n ");
    let first = report(&records[..first * RECORD]);
    reports(examples, heading, 1, &first);
}

/// The lanes never wait, and nobody yields or is deleted, set or suspended: so from record 4 on they are the ready threads of their rank,
/// on the terms by which the pages say that the lags have to be 0.
#[test]
fn the_lanes_of_the_event_stay_ready() {
    let path = top().join("examples/two-lanes.trace");
    let records = fs::read(&path).expect("the example");
    let printed = Program::Trace.fed_file(&path).stdout;
    let printed = String::from_utf8_lossy(&printed);
    let mut running = "0";
    for (record, line) in records.chunks(RECORD).zip(printed.lines()) {
        let set = [op::SET_PRIORITY, op::SET_TURN].contains(&record[0]);
        let unsettling = [op::YIELD, op::DELETE, op::SUSPEND].contains(&record[0]);
        assert!(!set && !unsettling, "{line}");
        let answer: Vec<&str> = line.split(' ').collect();
        let waits = answer[1] == "1";
        assert!(!(waits && ["1", "2"].contains(&running)), "{line}");
        running = answer[3];
    }
}

/// Each line of the printer's own count, as `1 left lane  charged 128 ticks`, has the number and the ticks of the report's.
#[test]
fn the_report_counts_the_ticks_that_the_printer_counted() {
    let records = fs::read(top().join("examples/two-lanes.trace")).expect("the example");
    let report = report(&records);
    let shares = page("examples/two-lanes.shares");
    let counted = shares.lines().filter(|line| line.contains(" charged "));
    let counted = counted.map(|line| (number_behind(line, ""), number_behind(line, " charged ")));
    let reported = report
        .lines()
        .map(|line| (number_behind(line, ""), number_behind(line, " ")));
    assert_eq!(reported.collect::<Vec<_>>(), counted.collect::<Vec<_>>());
}

#[test]
fn the_report_after_whole_rounds() {
    let listing = page("examples/rounds.listing").into_bytes();
    let records = Program::Write.fed(vec![listing]).stdout;
    let heading = "Whole rounds, and the rule of the incident";
    reports("examples/README.md", heading, 0, &report(&records));
}
