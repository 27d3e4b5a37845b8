//! The answer: two sentences for each rank that threads share, and a table with every thread's figures.

use std::cmp::Reverse;
use std::fmt::Write;

use model::THREADS;

use crate::event::Event;
use crate::names::Names;
use crate::stretches::{Got, Lane, LaneGot, Set};
use crate::text::{escape, grouped, listed, many, quotient, share, signed_quotient};

/// So many sets of a thread have a row of their own.
const MOST_SETS: usize = 4;

/// So many others of a rank are named.
const MOST_NAMES: usize = 2;

/// The answer of an event.
pub fn answer(event: &Event, names: &Names) -> String {
    let mut page = String::from(r#"<section id="answer"><h2>The answer</h2>"#);
    let stretches = &event.ruled.stretches;
    let mains = stretches.main_sets();
    for (set, got) in &mains {
        let others = stretches.sets_at(set.rank) - 1;
        let _ = write!(
            page,
            r#"<p class="answer">{} {}</p>{}"#,
            promised(set, got, others == 0, names),
            bounded(set, got),
            shared_otherwise(set.rank, others)
        );
    }
    if mains.is_empty() {
        let _ = write!(page, r#"<p class="answer">{}</p>"#, unshared(event));
    }
    page + &table(event, names) + "</section>"
}

fn unshared(event: &Event) -> String {
    let requests = many(event.requests as u64, "request");
    if event.refused == event.requests {
        return format!("All {requests} of this recording were refused. Nothing changed by them, and no tick was charged to anybody.");
    }
    if event.ruled.rows.iter().all(|row| row.total == 0) {
        return format!("In the {requests} of this recording no tick was charged to anybody. So nothing was shared out.");
    }
    String::from("No two threads were ready at the same rank while a tick was charged to it. So there was nothing to share out.")
}

/// What the two sentences leave to the table.
fn shared_otherwise(rank: usize, others: usize) -> String {
    if others == 0 {
        return String::new();
    }
    let ways = many(others as u64, "other way");
    format!(
        r#"<p class="note">Rank {rank} was shared in {ways} too, by other threads or with other turns: the table has those with the most ticks.</p>"#
    )
}

/// The first sentence: what was promised and what came of it, to the rank's only set or to the one with the most ticks.
fn promised(set: &Set, got: &Got, is_only: bool, names: &Names) -> String {
    let lanes = set
        .lanes
        .iter()
        .map(|lane| format!("<b>{}</b>", escape(&names.of(lane.thread))));
    let lanes = listed(&lanes.collect::<Vec<String>>());
    let turn = set.lanes[0].turn;
    let promise = match set.is_even() {
        true => format!(
            "each promised {}, {} of {}",
            share(turn, set.sum()),
            grouped(turn),
            grouped(set.sum())
        ),
        false => format!(
            "promised {} of {}",
            each(set.lanes.iter().map(|lane| lane.turn)),
            grouped(set.sum())
        ),
    };
    let charged = || got.lanes.iter().map(|lane| lane.charged);
    let came = match charged().all(|some| some == got.lanes[0].charged) {
        true => format!("each got {}", grouped(got.lanes[0].charged)),
        false => format!("they got {}", each(charged())),
    };
    let both = if set.lanes.len() == 2 {
        "both"
    } else {
        "all of them"
    };
    let (rank, ticks) = (set.rank, many(got.ticks, "tick"));
    let counted = match got.stretches {
        1 if is_only => format!("{ticks} in this recording"),
        1 => {
            format!("{ticks} in one stretch of this recording, in which the promise's terms held,")
        }
        some => format!(
            "{ticks} in {} stretches of this recording, in each of which the promise's terms held,",
            grouped(some)
        ),
    };
    format!("Of the ticks charged to rank {rank} while {both} are ready, {lanes} are {promise}: of the {counted} {came}.")
}

fn each(numbers: impl Iterator<Item = u64>) -> String {
    listed(&numbers.map(grouped).collect::<Vec<String>>())
}

/// The second sentence: how far and how late at the worst.
fn bounded(set: &Set, got: &Got) -> String {
    let neither = if set.lanes.len() == 2 {
        "neither"
    } else {
        "none"
    };
    let within = if got.stretches == 1 {
        "At"
    } else {
        "Within each of these, at"
    };
    if !set.is_even() {
        return format!(
            "{within} every moment each of them was as near its share as is proved, and {neither} waited longer than is proved: the table has the figures."
        );
    }
    let (lane, sum) = (&set.lanes[0], set.sum());
    let furthest = got
        .lanes
        .iter()
        .map(|lane| lane.furthest)
        .max()
        .unwrap_or(0);
    let longest = got.lanes.iter().map(|lane| lane.longest).max().unwrap_or(0);
    let far = quotient(furthest, sum);
    let s = if far == "1" { "" } else { "s" };
    format!(
        "{within} no moment was {} of them more than {far} tick{s} from its share (proved: at most {}), and {neither} waited for more than {} of their rank (proved: at most {}).",
        if set.lanes.len() == 2 { "either" } else { "any" },
        quotient(set.far_bound(lane), sum),
        many(longest, "tick"),
        grouped(set.late_bound(lane)),
    )
}

/// The threads that share a rank, and then the others, the highest rank first.
fn in_order(event: &Event) -> Vec<usize> {
    let lanes = event.lanes.clone();
    let mut others: Vec<usize> = (0..THREADS).filter(|i| !lanes.contains(i)).collect();
    others.sort_by_key(|&i| Reverse(event.ranks[i]));
    [lanes, others].concat()
}

/// A row for each thread and each set in which it was charged or waited.
fn table(event: &Event, names: &Names) -> String {
    let mut rows = String::new();
    let mut others = 0;
    for thread in in_order(event) {
        let stretches = &event.ruled.stretches;
        let sets = stretches.main_sets_of(thread, MOST_SETS);
        others += stretches.sets_of(thread).count() - sets.len();
        if event.line(thread).is_some() || !sets.is_empty() {
            rows += &thread_rows(event, names, thread, &sets);
        }
    }
    let left_out = match others {
        0 => String::new(),
        _ => format!(
            " A thread has {MOST_SETS} rows at the most: first those of a rank that it shared, and of these those with the most ticks. The bounds held in the {} others too.",
            grouped(others as u64)
        ),
    };
    format!(
        r#"<div class="wide"><table class="figures"><thead><tr><th>Thread</th><th>Ticks charged</th><th>Lag, in ticks</th><th>Rank</th><th>Turn</th><th>Promised share</th><th>Furthest from its share</th><th>Longest wait</th><th>Proved bounds</th></tr></thead>{rows}</table></div>
<p class="note">Ticks charged and lag are the proved report's, of the thread's whole life at the end. A lag is what the thread has more (+) or less (−) than its share of what its rank's ready threads have, whatever it missed by waiting, yielding or being created later; of a thread that is not ready at the end it is 0. The columns behind it are of the stretches below, in which demand 3's premise held: how far from its share the thread was at the most between any two moments, in ticks, and for how many ticks of its rank it waited at the most; under each figure stands the most that is proved.{left_out}</p>"#
    )
}

fn thread_rows(event: &Event, names: &Names, thread: usize, sets: &[(&Set, &Got)]) -> String {
    let span = sets.len().max(1);
    let number = if names.has(thread) {
        format!("<small>thread {thread}</small>")
    } else {
        String::new()
    };
    let head = format!(
        r#"<th scope="row" rowspan="{span}">{}{number}</th>"#,
        escape(&names.of(thread))
    );
    let (charged, lag) = match event.line(thread) {
        Some(line) => (grouped(line.charged), lag(event, thread, line.lag)),
        None => (
            String::from("—<small>not in use at the end</small>"),
            String::from("—"),
        ),
    };
    let own = format!(
        r#"<td rowspan="{span}" data-label="Ticks charged" data-figure="charged">{charged}</td><td rowspan="{span}" data-label="Lag, in ticks" data-figure="lag">{lag}</td>"#
    );
    let rows: Vec<String> = match sets {
        [] => vec![String::from(
            r#"<td class="none" colspan="6">no tick was charged to its rank while it was ready</td>"#,
        )],
        _ => sets
            .iter()
            .map(|(set, got)| set_cells(names, thread, set, got))
            .collect(),
    };
    format!(
        r#"<tbody data-thread="{thread}"><tr>{head}{own}{}</tr></tbody>"#,
        rows.join("</tr><tr>")
    )
}

/// The report's lag, divided by the sum of the turns at the end.
fn lag(event: &Event, thread: usize, lag: i128) -> String {
    let sum = event.sum(thread);
    match (event.end.threads[thread].is_ready(), lag) {
        (false, _) => String::from("0<small>not ready</small>"),
        (true, 0) => String::from("0"),
        (true, _) => {
            let sign = if lag < 0 { "−" } else { "" };
            let (times, sum_said) = (grouped(lag.unsigned_abs()), grouped(sum));
            format!(
                "{}<small>{sign}{times} ÷ {sum_said}</small>",
                signed_quotient(lag, sum)
            )
        }
    }
}

fn set_cells(names: &Names, thread: usize, set: &Set, got: &Got) -> String {
    let pair = set
        .lanes
        .iter()
        .zip(&got.lanes)
        .find(|(lane, _)| lane.thread == thread);
    let Some((lane, own)) = pair else {
        return String::new();
    };
    let with = with(names, thread, set);
    let (sum, turn) = (set.sum(), grouped(lane.turn));
    let promise = if set.is_shared() {
        format!(
            "{}<small>{turn} of {}</small>",
            share(lane.turn, sum),
            grouped(sum)
        )
    } else {
        String::from("all")
    };
    let cell = |label: &str, is: String| format!(r#"<td data-label="{label}">{is}</td>"#);
    [
        cell("Rank", format!("{}<small>{with}</small>", set.rank)),
        cell("Turn", turn),
        cell("Promised share", promise),
        cell(
            "Furthest from its share",
            most(
                quotient(own.furthest, sum),
                quotient(set.far_bound(lane), sum),
            ),
        ),
        cell(
            "Longest wait",
            most(grouped(own.longest), grouped(set.late_bound(lane))),
        ),
        cell("Proved bounds", held(set, lane, own)),
    ]
    .concat()
}

/// Who else is ready at the rank.
fn with(names: &Names, thread: usize, set: &Set) -> String {
    let others: Vec<&Lane> = set
        .lanes
        .iter()
        .filter(|lane| lane.thread != thread)
        .collect();
    match others[..] {
        [] => String::from("alone"),
        _ if others.len() > MOST_NAMES => format!("with {} others", others.len()),
        _ => {
            let others = others.iter().map(|lane| escape(&names.of(lane.thread)));
            format!("with {}", listed(&others.collect::<Vec<String>>()))
        }
    }
}

/// A figure, and the most that it can be.
fn most(is: String, proved: String) -> String {
    format!("{is}<small>at most {proved}</small>")
}

fn held(set: &Set, lane: &Lane, got: &LaneGot) -> String {
    String::from(if set.keeps(lane, got) {
        "held"
    } else {
        "NOT HELD"
    })
}
