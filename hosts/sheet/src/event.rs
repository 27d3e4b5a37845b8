//! The event of a sheet: the recording as the proved programs see it, and all that is counted besides. What is counted is held against
//! them, request by request and thread by thread; where one figure differs there is no event.

use std::cmp::Reverse;

use model::{code, operation as op, word, RECORD, THREADS};
use picture::incident::Rule;

use crate::bands::Bands;
use crate::counts::Counts;
use crate::proved::{Line, Proved};
use crate::recording::Recording;
use crate::replay::Replay;
use crate::view::{numbers, View};

/// An event.
pub struct Event {
    pub requests: usize,
    pub refused: usize,
    /// The proved report.
    pub lines: Vec<Line>,
    /// By the rules, and how the table stands at the end.
    pub ruled: Counts,
    pub end: View,
    /// The rank of each thread: that at which most ticks were charged while it was ready, or else its rank at the end.
    pub ranks: [usize; THREADS],
    /// The threads that ever share a rank, the highest rank first.
    pub lanes: Vec<usize>,
    /// The same requests by the rule of the incident.
    pub incident: Counts,
}

impl Event {
    /// Counts the recording, and holds it against what the proved programs print.
    pub fn of(recording: &Recording, proved: &Proved) -> Result<Event, String> {
        let ticks: u64 = asked(recording, proved)
            .map(|(request, code)| ticks_of(request, code))
            .sum();
        let bands = Bands::of(ticks);
        let (ruled, end) = ruled(recording, proved, bands)?;
        let incident = incident(recording, proved, bands);
        let stretches = &ruled.stretches;
        let ranks = std::array::from_fn(|i| stretches.rank(i).unwrap_or(end.threads[i].rank));
        let mut lanes: Vec<usize> = (0..THREADS).filter(|&i| stretches.shares(i)).collect();
        lanes.sort_by_key(|&i| Reverse(ranks[i]));
        let event = Event {
            requests: recording.count(),
            refused: asked(recording, proved)
                .filter(|(request, code)| is_refused(request, *code))
                .count(),
            lines: proved.lines.clone(),
            ruled,
            end,
            ranks,
            lanes,
            incident,
        };
        event.is_reported()?;
        promised(&event.ruled)?;
        Ok(event)
    }

    /// The report's line of a thread.
    pub fn line(&self, thread: usize) -> Option<&Line> {
        self.lines.iter().find(|line| line.thread == thread)
    }

    /// What is counted is what the report says.
    fn is_reported(&self) -> Result<(), String> {
        let used = (0..THREADS).filter(|&i| self.end.threads[i].is_used);
        let counted: Vec<Line> = used.map(|i| self.counted(i)).collect();
        if counted == self.lines {
            return Ok(());
        }
        let differs = |i: &usize| counted.iter().find(|line| line.thread == *i) != self.line(*i);
        let thread = (0..THREADS).find(differs).unwrap_or_default();
        let said = self.line(thread).map(printed).unwrap_or_default();
        let is = counted.iter().find(|line| line.thread == thread);
        let is = is.map(printed).unwrap_or_default();
        Err(format!("the report says '{said}' of thread {thread} and the sheet counts '{is}': there is no page of figures that differ"))
    }

    fn counted(&self, thread: usize) -> Line {
        let own = &self.end.threads[thread];
        let charged = self.ruled.accounts[thread];
        let mut line = Line {
            thread,
            charged,
            lag: 0,
        };
        if own.is_ready() {
            let set = self.end.sets[own.rank];
            let all: u64 = numbers(set).map(|i| self.ruled.accounts[i]).sum();
            line.lag = i128::from(charged) * i128::from(self.sum(thread))
                - i128::from(own.turn) * i128::from(all);
        }
        line
    }

    /// The sum of the turns of the ready threads of this thread's rank at the end.
    pub fn sum(&self, thread: usize) -> u64 {
        let set = self.end.sets[self.end.threads[thread].rank];
        numbers(set).map(|i| self.end.threads[i].turn).sum()
    }
}

/// What is proved of every run holds of this one.
pub fn promised(counts: &Counts) -> Result<(), String> {
    match &counts.stretches.broken {
        None => Ok(()),
        Some(stretch) => Err(format!(
            "what is proved of every run does not hold of rank {} from request {} to {}: there is no page of it, and the proof, the kernel or this program is wrong",
            stretch.rank, stretch.first, stretch.last
        )),
    }
}

fn printed(line: &Line) -> String {
    format!("{} {} {}", line.thread, line.charged, line.lag)
}

/// Each request with the code that the trace program prints.
fn asked<'a>(
    recording: &'a Recording,
    proved: &'a Proved,
) -> impl Iterator<Item = (&'a [u8; RECORD], i32)> {
    let codes = proved.answers.iter().map(|answer| answer.code);
    recording.records().zip(codes)
}

/// The ticks that a request does.
fn ticks_of(request: &[u8; RECORD], code: i32) -> u64 {
    match request[0] {
        op::TICK if code == code::DONE => 1,
        _ if is_slept(request, code) => u64::from(word(request, 4)),
        _ => 0,
    }
}

/// It is refused. "Outcome: code is the outcome", of which −5 is one and no refusal.
fn is_refused(request: &[u8; RECORD], code: i32) -> bool {
    let is_outcome = request[0] == op::OUTCOME && code == code::OPERATION;
    code < 0 && !is_outcome
}

/// It is an accepted operation 21.
fn is_slept(request: &[u8; RECORD], code: i32) -> bool {
    request[0] == op::TICKS && code == code::DONE
}

/// The replay by the rules, every answer of which is the trace program's.
fn ruled(recording: &Recording, proved: &Proved, bands: Bands) -> Result<(Counts, View), String> {
    let mut replay = Replay::start(Rule::Rules, bands);
    for (number, (request, code)) in asked(recording, proved).enumerate() {
        let (is, said) = (
            replay.serve(number, request, is_slept(request, code)),
            proved.answers[number],
        );
        if is != said {
            return Err(format!(
                "the trace program answers request {number} with '{} {} {}' and the sheet with '{} {} {}': there is no page of figures that differ",
                said.code, said.value, said.running, is.code, is.value, is.running
            ));
        }
    }
    Ok(replay.end(recording.count()))
}

fn incident(recording: &Recording, proved: &Proved, bands: Bands) -> Counts {
    let mut replay = Replay::start(Rule::Incident, bands);
    for (number, (request, code)) in asked(recording, proved).enumerate() {
        replay.serve(number, request, is_slept(request, code));
    }
    replay.end(recording.count()).0
}
