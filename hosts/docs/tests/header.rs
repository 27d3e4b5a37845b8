//! What include/speltmallet.h says of each operation, its name, its fields and the order of its refusals, is what document 01's table says,
//! and orders 7 and 8 of the operations that they add and take away, as docs/SENTENCES.md quotes them.

use docs::names::cells;
use docs::text;

/// An operation: its number, its name, the fields that it uses, its refusals in order.
type Operation = (usize, String, Vec<String>, Vec<i32>);

/// Fields without what is said of them in parentheses: "object (thread), number (wait)".
fn fields(list: &str) -> Vec<String> {
    let names = list
        .split(", ")
        .map(|field| field.split(" (").next().unwrap_or(""));
    let used = names.map(str::trim).filter(|name| !name.is_empty());
    used.map(str::to_string).collect()
}

/// The rows of document 01's table; a row of two operations is two.
fn quoted() -> Vec<Operation> {
    let document = text("docs/SENTENCES.md");
    let rows = document.lines().filter(|line| line.starts_with("| "));
    let mut found = Vec::new();
    for row in rows.map(|row| cells(row)[0]) {
        let parts: Vec<&str> = row.split(r"\|").map(str::trim).collect();
        let [operations, uses, refusals] = parts[..] else {
            continue;
        };
        for operation in operations.split(", ") {
            let Some((number, name)) = operation.split_once(' ') else {
                continue;
            };
            let Ok(number) = number.parse() else {
                continue;
            };
            let codes = refusals.split(", ").filter(|code| !code.is_empty());
            let codes = codes.map(|code| code.replace('−', "-").parse().expect("a refusal"));
            found.push((number, name.to_string(), fields(uses), codes.collect()));
        }
    }
    found
}

/// What orders 7 and 8 say of operations: of those that they add no row of document 01's table says anything.
const ORDERS: [&str; 8] = [
    "Operation 21 takes a number from 1 to 99,999 and does that many ticks",
    "Operation 22 gives as value the least number of ticks after which, if only ticks come, some timed wait ends, and 0 if there is none",
    "−3 for 21 with 0 or above 99,999",
    "Operation 3 is gone.",
    "23 uses object and priority, 24 object and number.",
    "Refusals: 23: −2, −1, −5;",
    "24: −3, −1, −5;",
    "Init gets −5 in both;",
];

/// The operation of document 01 that order 8 has taken away.
const GONE: usize = 3;

/// The operations that are added, as these sentences have them; the orders give them no names.
fn ordered() -> Vec<Operation> {
    let operation =
        |number, name: &str, uses, codes| (number, name.to_string(), fields(uses), codes);
    vec![
        operation(21, "Ticks", "number", vec![-3]),
        operation(22, "Nearest", "", vec![]),
        operation(23, "Set priority", "object, priority", vec![-2, -1, -5]),
        operation(24, "Set turn", "object, number", vec![-3, -1, -5]),
    ]
}

/// All operations there are.
fn wanted() -> Vec<Operation> {
    let stays = |operation: &Operation| operation.0 != GONE;
    let stayed = quoted().into_iter().filter(stays);
    stayed.chain(ordered()).collect()
}

/// The comment before each operation of the header: "Name, gloss: fields.", then the refusals, each with its number first.
fn declared() -> Vec<Operation> {
    let header = text("include/speltmallet.h");
    let mut found = Vec::new();
    for (before, after) in header
        .match_indices("#define SPELTMALLET_OP_")
        .map(|(at, _)| header.split_at(at))
    {
        let define = after.lines().next().unwrap_or("");
        let number = define.split(' ').nth(2).expect("an operation's number");
        let comment = before
            .rsplit("/* ")
            .next()
            .expect("a comment")
            .trim_end()
            .trim_end_matches("*/");
        let (head, refusals) = comment.split_once('\n').unwrap_or((comment, ""));
        let (name, uses) = head.split_once(": ").expect("a name and its fields");
        let name = name.split(',').next().unwrap_or(name);
        let uses = match uses.starts_with("no fields") {
            true => "",
            false => uses.trim().trim_end_matches('.'),
        };
        let refusals = refusals.trim_start_matches([' ', '*']);
        let clauses = refusals.split(". ").next().unwrap_or("").split("; ");
        let codes = clauses.filter_map(|clause| clause.split(' ').next()?.parse().ok());
        found.push((
            number.parse().expect("a number"),
            name.to_string(),
            fields(uses),
            codes.collect(),
        ));
    }
    found
}

#[test]
fn each_operation_of_the_header_is_as_in_document_01_and_the_orders() {
    let quoted = quoted().len();
    assert_eq!(quoted, 21, "docs/SENTENCES.md quotes 21 operations");
    assert_eq!(declared(), wanted());
}

#[test]
fn the_sentences_of_the_orders_are_quoted() {
    let document = text("docs/SENTENCES.md");
    for sentence in ORDERS {
        let quoted = document.contains(sentence);
        assert!(quoted, "docs/SENTENCES.md does not quote: {sentence}");
    }
}

#[test]
fn the_names_that_the_header_prints_are_those_of_the_operations() {
    let header = text("include/speltmallet.h");
    let (_, rest) = header
        .split_once("names[SPELTMALLET_OPERATIONS] = {")
        .expect("the header has the names of the operations");
    let (list, _) = rest.split_once('}').expect("the list ends");
    let names: Vec<&str> = list.split('"').skip(1).step_by(2).collect();
    let mut wanted: Vec<String> = wanted().into_iter().map(|(_, name, ..)| name).collect();
    wanted.insert(GONE, "no operation".to_string());
    assert_eq!(names, wanted);
}
