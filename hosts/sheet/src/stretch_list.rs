//! Where demand 3's premise held: the stretches of the ranks that threads share, what ended each, and the whole rounds in it.

use std::fmt::Write;

use crate::event::Event;
use crate::names::Names;
use crate::stretch::Stretch;
use crate::stretches::Stretches;
use crate::text::{escape, grouped, listed, many};

/// The stretches of an event.
pub fn stretch_list(event: &Event, names: &Names) -> String {
    let stretches = &event.ruled.stretches;
    let mut page =
        String::from(r#"<section id="stretches"><h2>Where the promise's terms held</h2>"#);
    if stretches.kept.is_empty() {
        return page + "<p>No rank was shared by two ready threads while a tick was charged to it. A thread that is alone in its rank gets every tick of it.</p></section>";
    }
    page += "<p>Demand 3 speaks of a stretch in which a rank's set of ready threads stays the same, none of them yields and none is given a turn or a priority. A round is as many ticks of the rank as the threads' turns sum to. Requests are numbered from 0.</p>";
    page += r#"<div class="wide"><table class="list"><thead><tr><th>Requests</th><th>Rank</th><th>Threads and turns</th><th>Ticks of the rank</th><th>Whole rounds</th><th>Each got in a round</th><th>Over</th><th>Ended by</th></tr></thead><tbody>"#;
    let mut kept: Vec<&Stretch> = stretches.kept.iter().collect();
    kept.sort_by_key(|stretch| (stretch.first, stretch.rank));
    for stretch in kept {
        page += &row(stretch, event.requests, names);
    }
    page += "</tbody></table></div>";
    page += &rest(stretches);
    page + "</section>"
}

fn row(stretch: &Stretch, requests: usize, names: &Names) -> String {
    let lanes = stretch.members.iter();
    let turns: Vec<String> = lanes
        .clone()
        .map(|lane| format!("{}: {}", escape(&names.of(lane.thread)), grouped(lane.turn)))
        .collect();
    // a line is broken between two of them, if it can be
    let turns = turns.join(r#",</span> <span class="each">"#);
    let rounds = stretch.rounds;
    let in_round: Vec<String> = lanes.clone().map(|lane| grouped(lane.turn)).collect();
    let over: Vec<String> = lanes
        .map(|lane| grouped(lane.charged - rounds * lane.turn))
        .collect();
    let left = stretch.ticks - rounds * stretch.sum;
    let over = if left == 0 {
        String::from("0")
    } else {
        format!("{} ({})", grouped(left), listed(&over))
    };
    let in_round = if rounds == 0 {
        String::from("—")
    } else {
        listed(&in_round)
    };
    let is_end = stretch.ending.deeds.is_empty();
    let (last, ended) = match is_end {
        true => (requests.saturating_sub(1), stretch.ending.words(names)),
        false => (
            match stretch.ending.is_inside {
                true => stretch.last,
                false => stretch.last.saturating_sub(1),
            },
            format!(
                "request {}: {}",
                grouped(stretch.last as u64),
                stretch.ending.words(names)
            ),
        ),
    };
    let cell = |label: &str, is: &str| format!(r#"<td data-label="{label}">{is}</td>"#);
    let mut row = String::from("<tr>");
    row += &cell(
        "Requests",
        &format!(
            r#"<span class="whole">{} to {}</span>"#,
            grouped(stretch.first as u64),
            grouped(last as u64)
        ),
    );
    row += &cell("Rank", &stretch.rank.to_string());
    row += &cell(
        "Threads and turns",
        &format!(r#"<span><span class="each">{turns}</span></span>"#),
    );
    row += &cell("Ticks of the rank", &grouped(stretch.ticks));
    row += &cell(
        "Whole rounds",
        &format!("{} of {}", grouped(rounds), grouped(stretch.sum)),
    );
    row += &cell("Each got in a round", &in_round);
    row += &cell("Over", &over);
    row += &cell("Ended by", &escape(&ended));
    row + "</tr>"
}

fn rest(stretches: &Stretches) -> String {
    let mut page = String::new();
    if stretches.others > 0 {
        let _ = write!(
            page,
            r#"<p class="note">These are the {} longest. In {} more, with {} in all, what is proved held too.</p>"#,
            Stretches::MOST,
            many(stretches.others, "stretch").replace("stretchs", "stretches"),
            many(stretches.others_ticks, "tick")
        );
    }
    page
}
