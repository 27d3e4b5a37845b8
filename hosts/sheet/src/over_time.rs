//! The picture over time: who was charged each tick, where a higher rank broke in, where the lock was on, and under it how far each lane was
//! from its share.

use std::cmp::Reverse;
use std::fmt::Write;

use model::THREADS;

use crate::bands::{Bands, Course};
use crate::event::Event;
use crate::names::Names;
use crate::plot::{axis, bars, course, marks};
use crate::text::{escape, grouped, many};

/// A course's picture goes so much further than the course.
const ROOM: f64 = 1.2;

/// As far from 0 as a picture goes whose course reaches so far.
pub fn shown(reach: f64) -> f64 {
    ROOM * reach.max(0.5)
}

/// The picture of an event.
pub fn over_time(event: &Event, names: &Names) -> String {
    let counts = &event.ruled;
    let bands = counts.bands;
    if bands.ticks == 0 {
        return String::from(
            r#"<section id="time"><h2>Over time</h2><p>No tick passed in this recording.</p></section>"#,
        );
    }
    let thinned = match bands.width {
        1 => String::from("Each tick is a column."),
        width => format!("Each column stands for {}: a bar is as high as the part of them that was charged, and a distance is drawn from its lowest to its highest value.", many(width, "tick")),
    };
    let mut page = format!(
        r#"<section id="time"><h2>Over time</h2><p>{} from left to right. {thinned}</p><h3>Who was charged</h3><p class="note">A short line under a thread's bars: there a higher rank broke in.</p><div class="plot">"#,
        many(bands.ticks, "tick")
    );
    page += &tracks(event, names);
    page += &scale(bands);
    page += "</div>";
    if !event.lanes.is_empty() {
        page += r#"<h3>How far each lane was from its share, in ticks</h3><p class="note">Above 0 it is ahead, below 0 behind. The shaded part lies between the proved bounds; each stretch in which the promise's terms held begins at 0, and where there is no line the lane was not ready or was alone in its rank.</p><div class="plot">"#;
        for &thread in &event.lanes {
            page += &distance(event, names, thread);
        }
        page += &scale(bands);
        page += "</div>";
    }
    page + "</section>"
}

/// A row for each thread that was charged, the highest rank first, and one for the lock.
fn tracks(event: &Event, names: &Names) -> String {
    let counts = &event.ruled;
    let mut threads: Vec<usize> = (0..THREADS).filter(|&i| counts.rows[i].total > 0).collect();
    threads.sort_by_key(|&i| Reverse(event.ranks[i]));
    let mut page = String::new();
    for thread in threads {
        page += &thread_track(event, names, thread);
    }
    let locked: u64 = counts.locked.iter().sum();
    if locked > 0 {
        let said = format!("{}, charged to nobody", many(locked, "tick"));
        let bars = bars(&counts.locked, counts.bands);
        page += &track("lock", "scheduler locked", &said, &bars, "");
    }
    page
}

fn thread_track(event: &Event, names: &Names, thread: usize) -> String {
    let counts = &event.ruled;
    let row = &counts.rows[thread];
    let ticks = many(row.total, "tick");
    let mut said = format!("rank {}: {ticks}", event.ranks[thread]);
    let mut below = String::new();
    if row.broken > 0 {
        said += &format!(", broken into {}", many(row.broken, "time"));
        let marks = marks(&row.breaks, counts.bands);
        below = format!(r#"<div class="marks">{marks}</div>"#);
    }
    let bars = bars(&row.ticks, counts.bands);
    track(ink(event, thread), &names.of(thread), &said, &bars, &below)
}

/// What a thread is drawn in: a lane and the next one differ, in every picture.
pub fn ink(event: &Event, thread: usize) -> &'static str {
    match event.lanes.iter().position(|&lane| lane == thread) {
        Some(at) if at % 2 == 0 => "lane",
        Some(_) => "lane other",
        None => "alone",
    }
}

fn track(ink: &str, name: &str, said: &str, bars: &str, below: &str) -> String {
    let name = escape(name);
    format!(
        r#"<div class="row track {ink}"><div class="name"><b class="label">{name}</b> <small class="label">{said}</small></div><div class="graph" role="img" aria-label="{name}: {said}"><div class="bars">{bars}</div>{below}</div></div>"#
    )
}

/// The distance of a lane, with its bounds.
fn distance(event: &Event, names: &Names, thread: usize) -> String {
    let counts = &event.ruled;
    let own = &counts.rows[thread].course;
    let reach = shown(own.reach());
    let (ink, name) = (ink(event, thread), escape(&names.of(thread)));
    let bound = said(own.bound());
    format!(
        r#"<div class="row chart {ink}"><div class="name"><b class="label">{name}</b></div>{}<div class="graph tall" role="img" aria-label="{name}: its distance from its share over time, between −{bound} and +{bound} ticks">{}</div></div>"#,
        labels(own, reach),
        course(own, counts.bands, reach)
    )
}

/// The labels beside a course: 0, and the bounds where there is room for them, or else the furthest that is shown.
pub fn labels(own: &Course, reach: f64) -> String {
    let bound = own.bound();
    let at = |value: f64| 50.0 - 50.0 * value / reach;
    let mut page = String::from(r#"<div class="scale">"#);
    let mut label = |value: f64, text: String| {
        let _ = write!(
            page,
            r#"<span class="label" style="top:{:.1}%">{text}</span>"#,
            at(value)
        );
    };
    let shown = if bound / reach > 0.3 {
        bound
    } else {
        reach / ROOM
    };
    label(shown, format!("+{}", said(shown)));
    label(0.0, String::from("0"));
    label(-shown, format!("−{}", said(shown)));
    page + "</div>"
}

/// A number of ticks, to a tenth where it is below 100.
fn said(ticks: f64) -> String {
    let tenths = (ticks * 10.0).round() as u64;
    match (tenths % 10, tenths / 10) {
        (0, whole) => grouped(whole),
        (_, whole) if whole >= 100 => grouped(ticks.round() as u64),
        (tenth, whole) => format!("{whole}.{tenth}"),
    }
}

/// The time below a picture.
fn scale(bands: Bands) -> String {
    let mut page = String::from(r#"<div class="row"><div class="name"></div><div class="axis">"#);
    for (number, (tick, percent)) in axis(bands).into_iter().enumerate() {
        let side = match percent {
            at if at < 1.0 => " left",
            at if at > 88.0 => " right",
            _ => "",
        };
        let some = if number % 2 == 1 { " odd" } else { "" };
        let word = if number == 0 { "tick " } else { "" };
        let _ = write!(
            page,
            r#"<span class="label{side}{some}" style="left:{percent:.2}%">{word}{}</span>"#,
            grouped(tick)
        );
    }
    page + "</div></div>"
}
