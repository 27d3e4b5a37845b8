//! What the sheet counts is what the naive recount counts.

use std::collections::BTreeMap;

use model::THREADS;
use sheet::bands::Extremes;
use sheet::counts::Counts;
use sheet::ending::Deed;
use sheet::stretches::Stretches;

use crate::naive::Stretch;
use crate::rows::{Recount, Seen};

/// A rank and its ready threads, each with its turn.
type Set = (usize, Vec<(usize, u64)>);
/// The ticks of the rank, and what each thread got: its ticks, the furthest and the longest.
type Got = (u64, Vec<(u64, u128, u64)>);

/// Everything that is counted is the same.
pub fn agree(case: &str, naive: &Recount, is: &Counts) {
    let bands = (is.bands.ticks, is.bands.width, is.bands.count());
    assert_eq!(
        bands,
        (naive.ticks, naive.width, naive.locked.len()),
        "{case}: the bands"
    );
    assert_eq!(is.locked, naive.locked, "{case}: the ticks under lock");
    assert_eq!(
        is.accounts, naive.accounts,
        "{case}: the ticks since the creation"
    );
    for thread in 0..THREADS {
        rows_agree(&format!("{case}: thread {thread}"), thread, naive, is);
    }
    assert_eq!(sets(&is.stretches), naive_sets(naive), "{case}: the sets");
    kept_agree(case, naive, &is.stretches);
    let broken = is.stretches.broken.as_ref().map(said);
    let naive_broken = charged(naive).find(|stretch| stretch.uneven() > 0 || !stretch.is_near());
    assert_eq!(
        broken,
        naive_broken.map(naive_said),
        "{case}: the first that does not hold"
    );
}

fn rows_agree(case: &str, thread: usize, naive: &Recount, is: &Counts) {
    let (is, naive) = (&is.rows[thread], &naive.rows[thread]);
    assert_eq!(
        (is.total, &is.ticks),
        (naive.total, &naive.ticks),
        "{case}: its ticks"
    );
    assert_eq!(
        (is.broken, &is.breaks),
        (naive.broken, &naive.breaks),
        "{case}: its breaks"
    );
    assert_eq!(
        is.course.extremes.len(),
        naive.course.len(),
        "{case}: its course"
    );
    for (band, (is, naive)) in is.course.extremes.iter().zip(&naive.course).enumerate() {
        assert!(
            is_seen(is, naive),
            "{case}: its course in band {band} is {is:?} and not {naive:?}"
        );
    }
}

/// The extremes are those that are seen, but for what floating numbers lose.
fn is_seen(is: &Option<Extremes>, seen: &Option<Seen>) -> bool {
    let is_near = |one: f64, other: f64| (one - other).abs() < 1e-9;
    match (is, seen) {
        (None, None) => true,
        (Some(is), Some(seen)) => {
            is_near(is.low, seen.low)
                && is_near(is.high, seen.high)
                && is_near(is.last, seen.last)
                && is_near(is.bound, seen.bound)
                && is.is_first == seen.is_first
        }
        _ => false,
    }
}

/// The stretches in which a tick was charged to the rank.
fn charged(naive: &Recount) -> impl Iterator<Item = &Stretch> {
    naive.stretches.iter().filter(|stretch| stretch.ticks > 0)
}

fn sets(stretches: &Stretches) -> BTreeMap<Set, Got> {
    let sets = stretches.sets.iter().map(|(set, got)| {
        let lanes = set
            .lanes
            .iter()
            .map(|lane| (lane.thread, lane.turn))
            .collect();
        let each = got.lanes.iter();
        let each = each
            .map(|lane| (lane.charged, lane.furthest, lane.longest))
            .collect();
        ((set.rank, lanes), (got.ticks, each))
    });
    sets.collect()
}

/// The same from the naive stretches: ticks add up, and of the furthest and the longest the largest stays.
fn naive_sets(naive: &Recount) -> BTreeMap<Set, Got> {
    let mut sets: BTreeMap<Set, Got> = BTreeMap::new();
    for stretch in charged(naive) {
        let lanes = stretch
            .members
            .iter()
            .map(|member| (member.thread, member.turn))
            .collect();
        let nothing = (0, vec![(0, 0, 0); stretch.members.len()]);
        let got = sets.entry((stretch.rank, lanes)).or_insert(nothing);
        got.0 += stretch.ticks;
        for (lane, member) in got.1.iter_mut().zip(&stretch.members) {
            lane.0 += member.charged();
            lane.1 = lane.1.max(member.furthest.into());
            lane.2 = lane.2.max(member.longest);
        }
    }
    sets
}

/// A stretch as it is compared.
#[derive(Debug, PartialEq)]
struct Said {
    rank: usize,
    /// The first request and the one that ends it.
    requests: (usize, usize),
    /// Its ticks, the sum of the turns, the whole rounds and the uneven ones.
    counts: [u64; 4],
    /// Each thread with its turn, its ticks, the furthest and the longest.
    members: Vec<(usize, u64, u64, u128, u64)>,
    /// Who did what; a tick did it; ticks of the same request are in the stretch.
    ending: (Vec<String>, bool, bool),
}

fn said(stretch: &sheet::stretch::Stretch) -> Said {
    let members = stretch.members.iter().map(|member| {
        let got = member.got();
        (
            member.thread,
            member.turn,
            got.charged,
            got.furthest,
            got.longest,
        )
    });
    Said {
        rank: stretch.rank,
        requests: (stretch.first, stretch.last),
        counts: [stretch.ticks, stretch.sum, stretch.rounds, stretch.uneven],
        members: members.collect(),
        ending: (
            in_order(&stretch.ending.deeds),
            stretch.ending.is_tick,
            stretch.ending.is_inside,
        ),
    }
}

fn naive_said(stretch: &Stretch) -> Said {
    let members = stretch.members.iter().map(|member| {
        let (thread, turn) = (member.thread, member.turn);
        (
            thread,
            turn,
            member.charged(),
            member.furthest.into(),
            member.longest,
        )
    });
    Said {
        rank: stretch.rank,
        requests: (stretch.first, stretch.last),
        counts: [
            stretch.ticks,
            stretch.sum,
            stretch.rounds(),
            stretch.uneven(),
        ],
        members: members.collect(),
        ending: (
            in_order(&stretch.deeds),
            stretch.is_ended_by_tick,
            stretch.is_ended_inside,
        ),
    }
}

/// What each thread did, by number.
fn in_order(deeds: &[(usize, Deed)]) -> Vec<String> {
    let mut deeds = deeds.to_vec();
    deeds.sort_by_key(|(thread, _)| *thread);
    deeds.iter().map(|deed| format!("{deed:?}")).collect()
}

/// Of the stretches that threads share the longest are kept, and of two the earlier one.
fn kept_agree(case: &str, naive: &Recount, is: &Stretches) {
    let shared: Vec<&Stretch> = charged(naive)
        .filter(|stretch| stretch.is_shared())
        .collect();
    let mut by_ticks: Vec<usize> = (0..shared.len()).collect();
    by_ticks.sort_by_key(|&at| (u64::MAX - shared[at].ticks, at));
    let others = by_ticks.split_off(by_ticks.len().min(Stretches::MOST));
    by_ticks.sort_unstable();
    assert_eq!(
        is.kept.len(),
        by_ticks.len(),
        "{case}: the stretches that are kept"
    );
    for (nth, (is, &at)) in is.kept.iter().zip(&by_ticks).enumerate() {
        assert_eq!(
            said(is),
            naive_said(shared[at]),
            "{case}: the kept stretch {nth}"
        );
    }
    let others_ticks: u64 = others.iter().map(|&at| shared[at].ticks).sum();
    let counted = (is.others, is.others_ticks);
    assert_eq!(
        counted,
        (others.len() as u64, others_ticks),
        "{case}: the others"
    );
}
