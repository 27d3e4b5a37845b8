//! The stretches of a run, split event by event, and what is counted of each by looking at all pairs of its moments.

use std::collections::BTreeSet;
use std::ops::Range;

use model::THREADS;
use sheet::ending::Deed;

use crate::events::{is_ready, rank, ready_at, ready_set, turn, Event, Table};

/// A thread of a stretch's rank.
pub struct Member {
    pub thread: usize,
    pub turn: u64,
    /// The ticks charged to it after each tick that is charged to the rank, from none on.
    pub counts: Vec<i64>,
    pub furthest: u64,
    pub longest: u64,
}

/// Events one after another, as many as there are, in which demand 3's premise holds of a rank.
pub struct Stretch {
    pub rank: usize,
    pub events: Range<usize>,
    pub members: Vec<Member>,
    /// The sum of the turns.
    pub sum: u64,
    /// The ticks charged to the rank.
    pub ticks: u64,
    /// The number of the request in which it begins, and of the one that ends it.
    pub first: usize,
    pub last: usize,
    pub deeds: Vec<(usize, Deed)>,
    pub is_ended_by_tick: bool,
    /// Its last event is of the request that ends it.
    pub is_ended_inside: bool,
}

/// The stretches of every rank, in the order in which they end.
pub fn stretches(run: &[Event], requests: usize) -> Vec<Stretch> {
    let mut all: Vec<Stretch> = ranks(run)
        .into_iter()
        .flat_map(|rank| parts(run, rank).into_iter().map(move |part| (rank, part)))
        .map(|(rank, part)| Stretch::of(run, rank, part, requests))
        .collect();
    all.sort_by_key(|stretch| (stretch.events.end, stretch.rank));
    all
}

/// The ranks at which a thread is ever ready.
fn ranks(run: &[Event]) -> BTreeSet<usize> {
    let ready = |event: &'_ Event| {
        let threads = (0..THREADS).filter(|&i| is_ready(&event.before, i));
        threads
            .map(|i| rank(&event.before, i))
            .collect::<Vec<usize>>()
    };
    run.iter().flat_map(ready).collect()
}

/// The longest parts of the run whose events all keep the rank's set, which isn't empty. An event that does not is in none of them.
fn parts(run: &[Event], rank: usize) -> Vec<Range<usize>> {
    let is_in =
        |event: &Event| (0..THREADS).any(|i| ready_at(rank, &event.before, i)) && event.keeps(rank);
    let mut parts: Vec<Range<usize>> = Vec::new();
    for (at, _) in run.iter().enumerate().filter(|(_, event)| is_in(event)) {
        match parts.last_mut() {
            Some(part) if part.end == at => part.end += 1,
            _ => parts.push(at..at + 1),
        }
    }
    parts
}

impl Stretch {
    fn of(run: &[Event], rank: usize, events: Range<usize>, requests: usize) -> Stretch {
        let part = &run[events.clone()];
        let start = &part[0].before;
        let charged: Vec<usize> = part
            .iter()
            .filter_map(|event| charged_rank(event, rank))
            .collect();
        let set = ready_set(rank, start);
        let threads = (0..THREADS).filter(|&i| set[i]);
        let sum = threads.clone().map(|i| turn(start, i)).sum();
        let ending = run.get(events.end);
        Stretch {
            rank,
            members: threads
                .map(|i| Member::of(start, i, sum, &charged))
                .collect(),
            sum,
            ticks: charged.len() as u64,
            first: part[0].number,
            last: ending.map_or(requests, |event| event.number),
            deeds: ending.map_or(Vec::new(), |event| event.deeds(rank)),
            is_ended_by_tick: ending.is_some_and(Event::is_tick),
            is_ended_inside: ending
                .is_some_and(|event| event.number == part[part.len() - 1].number),
            events,
        }
    }

    pub fn is_shared(&self) -> bool {
        self.members.len() > 1
    }

    /// The whole rounds from its start on.
    pub fn rounds(&self) -> u64 {
        self.ticks / self.sum
    }

    /// The whole rounds from its start on after which somebody has not exactly its turns.
    pub fn uneven(&self) -> u64 {
        let is_uneven = |round: &u64| {
            let has = |member: &Member| member.counts[(round * self.sum) as usize];
            let owed = |member: &Member| (round * member.turn) as i64;
            self.members
                .iter()
                .any(|member| has(member) != owed(member))
        };
        (1..=self.rounds()).filter(is_uneven).count() as u64
    }

    /// Demand 3: "in every unbroken part of the run where the ticks charged to that rank equal the sum of the threads' turns, each thread
    /// was charged exactly its own turn."
    pub fn is_fair(&self) -> bool {
        let is_fair = |member: &Member| {
            let parts = member
                .counts
                .iter()
                .zip(member.counts.iter().skip(self.sum as usize));
            parts
                .into_iter()
                .all(|(from, to)| to - from == member.turn as i64)
        };
        self.members.iter().all(is_fair)
    }

    /// Never far: in no part is c × R further from t × n than t × (R − t). Never late: in no part in which a member is charged nothing are
    /// more than R − t ticks charged to the rank.
    pub fn is_near(&self) -> bool {
        self.members.iter().all(|member| {
            let others = self.sum - member.turn;
            member.furthest <= member.turn * others && member.longest <= others
        })
    }
}

impl Member {
    fn of(start: &Table, thread: usize, sum: u64, charged: &[usize]) -> Member {
        let turn = turn(start, thread);
        let counted = |count: &mut i64, &to: &usize| {
            *count += i64::from(to == thread);
            Some(*count)
        };
        let counts: Vec<i64> = [0]
            .into_iter()
            .chain(charged.iter().scan(0, counted))
            .collect();
        Member {
            thread,
            turn,
            furthest: furthest(&distances(&counts, turn, sum)),
            longest: longest(&counts),
            counts,
        }
    }

    pub fn charged(&self) -> u64 {
        *self.counts.last().expect("there is a moment") as u64
    }
}

/// `charged_rank`: to whom of the rank's ready set the event charges a tick.
pub fn charged_rank(event: &Event, rank: usize) -> Option<usize> {
    event
        .charged()
        .filter(|&i| ready_at(rank, &event.before, i))
}

/// c × R − t × n at each moment, from the start on. Over a part it is the difference of those at the part's ends.
fn distances(counts: &[i64], turn: u64, sum: u64) -> Vec<i64> {
    let each = counts.iter().zip(0..);
    each.map(|(count, ticks)| count * sum as i64 - turn as i64 * ticks)
        .collect()
}

/// The largest over all parts.
fn furthest(distances: &[i64]) -> u64 {
    if distances.iter().all(|distance| *distance == 0) {
        return 0;
    }
    let from = |at: usize| {
        let parts = distances[at..].iter();
        parts.fold(0, |most, to| most.max((to - distances[at]).abs()))
    };
    (0..distances.len()).map(from).max().unwrap_or(0) as u64
}

/// The most ticks of the rank over all parts in which the count stays as it is.
fn longest(counts: &[i64]) -> u64 {
    let from = |at: usize| {
        let stays = |count: &&i64| **count == counts[at];
        counts[at + 1..].iter().take_while(stays).count()
    };
    (0..counts.len()).map(from).max().unwrap_or(0) as u64
}
