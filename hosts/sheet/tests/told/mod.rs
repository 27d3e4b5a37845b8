//! What the tests share: events of which the model says what the proved programs would print, so that none has to be run.

// no test uses all of it
#![allow(dead_code)]

use model::{operation as op, record, RECORD};
use sheet::about::About;
use sheet::event::Event;
use sheet::names::Names;
use sheet::page::page;
use sheet::proved::Proved;
use sheet::recording::Recording;

/// The recording of these bytes.
pub fn recording(bytes: &[u8]) -> Recording {
    Recording::read(bytes).expect("memory can be read")
}

/// What the model prints as trace and as report.
pub fn printed(recording: &Recording) -> (String, String) {
    let mut counted = recording.bytes.clone();
    let trace = model::trace(&counted);
    if recording.is_stopped {
        counted.extend([0; RECORD]);
    }
    let text = |bytes| String::from_utf8(bytes).expect("what is printed is text");
    (text(trace), text(model::report(&counted)))
}

/// The event of these bytes.
pub fn event(bytes: &[u8]) -> Event {
    let recording = recording(bytes);
    let (trace, report) = printed(&recording);
    let proved = Proved::read(&recording, &trace, &report).expect("the model prints as expected");
    Event::of(&recording, &proved).unwrap_or_else(|fault| panic!("{fault}"))
}

/// The origin of a page that no checkout made.
pub fn about() -> About {
    About {
        file: Some(String::from("a.trace")),
        digest: String::from("none"),
        version: String::from("0"),
        kit: String::from("none"),
        revision: String::from("none"),
    }
}

/// The page of these bytes.
pub fn page_of(bytes: &[u8], names: &Names, about: &About) -> String {
    page(&event(bytes), &recording(bytes), names, about)
}

/// The same with no names.
pub fn plain_page(bytes: &[u8]) -> String {
    page_of(bytes, &Names::default(), &about())
}

pub fn create(thread: u8, rank: u8, turn: u32) -> [u8; RECORD] {
    record(op::CREATE, thread, rank, turn, 0)
}

pub fn ticks(count: usize) -> Vec<u8> {
    record(op::TICK, 0, 0, 0, 0).repeat(count)
}

/// Two lanes of one rank with turns of 8, and so many ticks.
pub fn two_lanes(count: usize) -> Vec<u8> {
    [&create(1, 5, 8)[..], &create(2, 5, 8), &ticks(count)].concat()
}
