//! The page: one file of HTML with its style in it, and nothing from outside.

use std::fmt::Write;

use crate::about::About;
use crate::answer::answer;
use crate::event::Event;
use crate::names::Names;
use crate::over_time::over_time;
use crate::recording::Recording;
use crate::stretch_list::stretch_list;
use crate::text::{escape, grouped, many};
use crate::theorems::THEOREMS;
use crate::would_be::would_be;

const STYLE: &str = include_str!("style.css");

/// The page of an event.
pub fn page(event: &Event, recording: &Recording, names: &Names, about: &About) -> String {
    let file = about
        .file
        .as_deref()
        .unwrap_or("a recording from standard input");
    let file = escape(file);
    let mut page = format!(
        r#"<!DOCTYPE html>
<html lang="en"><head><meta charset="utf-8"><meta name="viewport" content="width=device-width, initial-scale=1"><title>Lane sheet: {file}</title><style>{STYLE}</style></head><body>
<header><p class="kicker">Speltmallet · lane sheet · {file}</p><h1>What share of the processor was each lane promised, and did it get it?</h1>
"#
    );
    page += &summary(event, recording);
    page += "</header>\n";
    page += &answer(event, names);
    page.push('\n');
    page += &over_time(event, names);
    page.push('\n');
    page += &stretch_list(event, names);
    page.push('\n');
    page += &would_be(event, names);
    page.push('\n');
    page += &theorems(about);
    page.push('\n');
    page += &origin(recording, about, &file);
    page + "</body></html>\n"
}

fn summary(event: &Event, recording: &Recording) -> String {
    let mut text = format!(
        "The recording has {}, of which {} refused, and {}.",
        many(event.requests as u64, "request"),
        match event.refused {
            0 => String::from("none was"),
            1 => String::from("1 was"),
            some => format!("{} were", grouped(some as u64)),
        },
        many(event.ruled.bands.ticks, "tick")
    );
    if recording.is_stopped {
        text +=
            " More requests come behind these; as in the report, only the first 1,000,000 count.";
    }
    if recording.left_over > 0 {
        let _ = write!(
            text,
            " Its last {} are no whole request and are left out.",
            many(recording.left_over as u64, "byte")
        );
    }
    format!(r#"<p class="summary">{text}</p>"#)
}

/// What is proved, and how a reader checks it.
fn theorems(about: &About) -> String {
    let mut page = String::from(
        r#"<section id="theorems"><h2>What is proved, and where</h2><p>These are theorems of every table, every request and every run, checked by a machine. This page only shows what came of them in one recording.</p><div class="wide"><table class="list"><thead><tr><th>What it says</th><th>Name</th><th>File</th></tr></thead><tbody>"#,
    );
    for theorem in &THEOREMS {
        let _ = write!(
            page,
            r#"<tr><td data-label="What it says">{}</td><td data-label="Name"><code>{}</code></td><td data-label="File"><code>{}</code></td></tr>"#,
            escape(theorem.says),
            escape(theorem.name),
            escape(theorem.file).replace('/', "/<wbr>")
        );
    }
    let _ = write!(
        page,
        r#"</tbody></table></div><p>Speltmallet {}, revision <code>{}</code>; Rattle kit <code>{}</code>. In a clone of that revision, <code>bash .ci/run</code> proves all of it from nothing and runs every test; <code>rt ci lateness</code> proves the bounds alone, and <code>rt ci tight</code> that the kernel's code keeps them.</p></section>"#,
        escape(&about.version),
        escape(&about.revision),
        escape(&about.kit)
    );
    page
}

/// Where the figures come from, and what they do not say.
fn origin(recording: &Recording, about: &About, file: &str) -> String {
    let requests = grouped(recording.count() as u64);
    let digested = match recording.is_stopped || recording.left_over > 0 {
        true => format!(" of the first {} bytes", recording.bytes.len()),
        false => String::new(),
    };
    format!(
        r#"<section id="origin"><h2>Where the figures come from</h2><p>The answers are those of the proved program <code>trace</code>, ticks charged and lags those of the proved program <code>report</code>. The picture, the stretches and the distances are counted besides, by the project's independent model: all {requests} of its answers are the trace's and all of its ticks and lags the report's, or there would be no page. The rule of the incident is the model's alone.</p>
<p>That the recording is what the printer did, and which lane prints which seats, is the maker's word. How many ticks a rank gets, and when, is not promised: a higher rank can take the processor for as long as it likes.</p>
<p class="note">{file}, SHA-256{digested} <code class="digest">{}</code></p></section>
"#,
        escape(&about.digest)
    )
}
