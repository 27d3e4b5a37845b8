//! The sorts of Ticks and Nearest, operations 21 and 22, that random runs must meet, told from the
//! tables before and after.

use model::{wait, LONGEST, THREADS};

use crate::view::View;

/// Every sort of an accepted Ticks or Nearest that a test can ask for.
pub const SLEEP_SORTS: &[&str] = &[
    "Ticks by 1",
    "Ticks by 99,999",
    "Ticks under lock",
    "Ticks under lock, a wait ends inside",
    "Ticks, a wait ends inside",
    "Ticks, the last of them ends a wait",
    "Ticks, waits end at different times",
    "Ticks, a suspended thread's wait ends inside",
    "Ticks, a wait has one tick left",
    "Ticks, another rank runs after them",
    "Ticks, no wait ends, the turn goes on",
    "Ticks, no wait ends, the turn ends",
    "Ticks, no wait ends, turns go round in a part of a round",
    "Ticks, no wait ends, a whole round",
    "Ticks, no wait ends, whole rounds",
    "Ticks, no wait ends, whole rounds and a part of one",
    "Ticks, whole rounds beside a timed wait",
    "Ticks, whole rounds of Init alone",
    "Nearest of none",
    "Nearest of none beside a wait forever",
    "Nearest of one",
    "Nearest of several",
    "Nearest is a suspended thread's",
    "Nearest is 1",
    "Nearest under lock",
];

/// Names the sorts of one accepted Ticks by this number.
pub fn see_ticks(before: View, number: u32, after: View, see: &mut dyn FnMut(&str)) {
    let left: Vec<u32> = (0..THREADS).filter_map(|i| before.left(i)).collect();
    let ended: Vec<u32> = left
        .iter()
        .copied()
        .filter(|&left| left <= number)
        .collect();
    match number {
        1 => see("Ticks by 1"),
        LONGEST => see("Ticks by 99,999"),
        _ => {}
    }
    if left.contains(&1) {
        see("Ticks, a wait has one tick left");
    }
    if before.lock() > 0 {
        see("Ticks under lock");
    }
    if !ended.is_empty() {
        see_ended(before, number, &ended, see);
    } else if before.lock() == 0 {
        see_turns(before, number, !left.is_empty(), see);
    }
    if after.priority(after.running()) != before.priority(before.running()) {
        see("Ticks, another rank runs after them");
    }
}

/// The waits that end, by the ticks that they have left.
fn see_ended(before: View, number: u32, ended: &[u32], see: &mut dyn FnMut(&str)) {
    see("Ticks, a wait ends inside");
    if before.lock() > 0 {
        see("Ticks under lock, a wait ends inside");
    }
    if ended.contains(&number) {
        see("Ticks, the last of them ends a wait");
    }
    if ended.iter().any(|left| *left != ended[0]) {
        see("Ticks, waits end at different times");
    }
    let ends = |&i: &usize| before.left(i).is_some_and(|left| left <= number);
    if (0..THREADS).filter(ends).any(|i| before.suspended(i)) {
        see("Ticks, a suspended thread's wait ends inside");
    }
}

/// The turns of the rank that runs, where no wait ends and the lock is off.
fn see_turns(before: View, number: u32, timed: bool, see: &mut dyn FnMut(&str)) {
    let (round, left) = (before.round(), before.counter(before.running()));
    let sort = match (number / round, number % round) {
        _ if number < left => "the turn goes on",
        _ if number == left && left < round => "the turn ends",
        (0, _) => "turns go round in a part of a round",
        (1, 0) => "a whole round",
        (_, 0) => "whole rounds",
        _ => "whole rounds and a part of one",
    };
    see(&format!("Ticks, no wait ends, {sort}"));
    if number >= round && timed {
        see("Ticks, whole rounds beside a timed wait");
    }
    if number >= round && before.threads() == 1 {
        see("Ticks, whole rounds of Init alone");
    }
}

/// Names the sorts of one Nearest.
pub fn see_nearest(before: View, see: &mut dyn FnMut(&str)) {
    let timed: Vec<usize> = (0..THREADS).filter(|&i| before.left(i).is_some()).collect();
    let least = timed.iter().filter_map(|&i| before.left(i)).min();
    let waits = |i: usize| before.in_use(i) && before.wait(i).0 != wait::NONE;
    match timed.len() {
        0 if (0..THREADS).any(waits) => see("Nearest of none beside a wait forever"),
        0 => see("Nearest of none"),
        1 => see("Nearest of one"),
        _ => see("Nearest of several"),
    }
    let is_nearest = |&&i: &&usize| before.left(i) == least;
    if !timed.is_empty()
        && timed
            .iter()
            .filter(is_nearest)
            .all(|&i| before.suspended(i))
    {
        see("Nearest is a suspended thread's");
    }
    if least == Some(1) {
        see("Nearest is 1");
    }
    if before.lock() > 0 {
        see("Nearest under lock");
    }
}
