//! The same requests under the rule of the incident, beside what happened.

use std::fmt::Write;

use crate::counts::Counts;
use crate::event::Event;
use crate::names::Names;
use crate::over_time::{ink, labels, shown};
use crate::plot::{bars, course};
use crate::stretches::{LaneGot, Set};
use crate::text::{escape, grouped, many, quotient};

/// A small picture has so many columns at the most.
const MOST_COLUMNS: usize = 360;

/// What would have happened to the lanes of an event.
pub fn would_be(event: &Event, names: &Names) -> String {
    let mut page = String::from(
        r#"<section id="incident"><h2>The same requests under the rule of the incident</h2>"#,
    );
    if event.lanes.is_empty() {
        return page + "<p>No rank was shared, so that this rule has nobody to send behind another.</p></section>";
    }
    page += "<p>By that rule a thread that a higher rank breaks into goes to the back of its line, and what is left of its turn is gone. The requests are the recorded ones: a printer under that rule would soon have made others.</p>";
    if event.lanes.iter().all(|&i| is_same(event, i)) {
        page += "<p>Here it would have changed nothing that this page shows.</p>";
    }
    page += r#"<div class="pairs">"#;
    for &thread in &event.lanes {
        let reach = event.ruled.rows[thread]
            .course
            .reach()
            .max(event.incident.rows[thread].course.reach());
        let reach = shown(reach);
        let _ = write!(
            page,
            r#"<div class="pair {}"><h3>{}</h3>"#,
            ink(event, thread),
            escape(&names.of(thread))
        );
        page += &half(&event.ruled, "By these rules", thread, reach);
        page += &half(
            &event.incident,
            "By the rule of the incident",
            thread,
            reach,
        );
        page += "</div>";
    }
    page + "</div></section>"
}

/// A lane has the same ticks and the same distances under both rules.
fn is_same(event: &Event, thread: usize) -> bool {
    let (one, other) = (&event.ruled.rows[thread], &event.incident.rows[thread]);
    one.ticks == other.ticks && one.course.extremes == other.course.extremes
}

/// A lane under one of the rules, small.
fn half(counts: &Counts, rule: &str, thread: usize, reach: f64) -> String {
    let row = &counts.rows[thread];
    let by = counts.bands.count().div_ceil(MOST_COLUMNS).max(1);
    let bands = counts.bands.thinned(by);
    let ticks: Vec<u64> = row.ticks.chunks(by).map(|some| some.iter().sum()).collect();
    let own = row.course.thinned(by);
    let said = format!("{}{}", many(row.total, "tick"), worst(counts, thread));
    format!(
        r#"<figure><figcaption><b>{rule}:</b> {said}</figcaption><div class="small"><div class="scale"></div><div class="graph bars">{}</div>{}<div class="graph tall" role="img" aria-label="{rule}: {said}">{}</div></div></figure>"#,
        bars(&ticks, bands),
        labels(&own, reach),
        course(&own, bands, reach)
    )
}

/// The worst that the lane met, by the set in which it came furthest.
fn worst(counts: &Counts, thread: usize) -> String {
    let sets = counts.stretches.sets_of(thread);
    let shared = sets.filter(|(set, _)| set.is_shared());
    let own = shared.filter_map(|(set, got)| {
        let mut pairs = set.lanes.iter().zip(&got.lanes);
        pairs
            .find(|(lane, _)| lane.thread == thread)
            .map(|(lane, got)| (set, lane, got))
    });
    let furthest = own.max_by(|a, b| times(a.0, a.2).total_cmp(&times(b.0, b.2)));
    furthest.map_or(String::new(), |(set, lane, got)| {
        format!(
            ", up to {} from its share (proved here: {}), waits of up to {} (proved here: {})",
            quotient(got.furthest, set.sum()),
            quotient(set.far_bound(lane), set.sum()),
            grouped(got.longest),
            grouped(set.late_bound(lane))
        )
    })
}

fn times(set: &Set, got: &LaneGot) -> f64 {
    got.furthest as f64 / set.sum() as f64
}
