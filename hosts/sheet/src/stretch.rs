//! A stretch: an unbroken part of a replay in which demand 3's premise holds of one rank. "One rank's set of ready threads isn't empty at
//! the start and is the same after each step, none of them yields and none is named in an accepted change of settings".

use crate::ending::Ending;
use crate::stretches::{Lane, LaneGot, Set};
use crate::view::{numbers, View};

/// A thread of the rank's ready set.
#[derive(Clone, Copy, Debug)]
pub struct Member {
    pub thread: usize,
    pub turn: u64,
    /// The ticks charged to it in the stretch.
    pub charged: u64,
    /// The ticks charged to it times the sum of the turns, less its turn times the ticks charged to the rank: above 0 it is ahead.
    far: i128,
    low: i128,
    high: i128,
    /// The rank's ticks since it was last charged one, or since the start.
    waited: u64,
    longest: u64,
}

impl Member {
    pub fn lane(&self) -> Lane {
        Lane {
            thread: self.thread,
            turn: self.turn,
        }
    }

    /// What it got in the stretch. In any part of it the distance from its share changes by no more than the highest and the lowest differ.
    pub fn got(&self) -> LaneGot {
        LaneGot {
            charged: self.charged,
            furthest: (self.high - self.low).unsigned_abs(),
            longest: self.longest,
        }
    }

    fn note(&mut self) {
        self.low = self.low.min(self.far);
        self.high = self.high.max(self.far);
        self.longest = self.longest.max(self.waited);
    }
}

/// A stretch of a rank.
#[derive(Clone, Debug)]
pub struct Stretch {
    pub rank: usize,
    /// The request in which it begins, and the one that ends it.
    pub first: usize,
    pub last: usize,
    pub members: Vec<Member>,
    /// The sum of their turns.
    pub sum: u64,
    /// The ticks charged to the rank.
    pub ticks: u64,
    /// The whole rounds from its start on, and those of them after which somebody did not have exactly its turns.
    pub rounds: u64,
    pub uneven: u64,
    /// What ended it.
    pub ending: Ending,
}

impl Stretch {
    /// The stretch of this rank's ready set, from this request on.
    pub fn start(rank: usize, view: &View, first: usize) -> Stretch {
        let member = |thread: usize| Member {
            thread,
            turn: view.threads[thread].turn,
            charged: 0,
            far: 0,
            low: 0,
            high: 0,
            waited: 0,
            longest: 0,
        };
        let members: Vec<Member> = numbers(view.sets[rank]).map(member).collect();
        Stretch {
            rank,
            first,
            last: first,
            sum: members.iter().map(|member| member.turn).sum(),
            members,
            ticks: 0,
            rounds: 0,
            uneven: 0,
            ending: Ending::default(),
        }
    }

    /// Two threads or more share the rank.
    pub fn is_shared(&self) -> bool {
        self.members.len() > 1
    }

    /// How far a member is from its share now, in ticks.
    pub fn distance(&self, member: &Member) -> f64 {
        member.far as f64 / self.sum as f64
    }

    /// The rank's ready threads, each with its turn.
    pub fn set(&self) -> Set {
        let lanes = self.members.iter().map(Member::lane);
        Set {
            rank: self.rank,
            lanes: lanes.collect(),
        }
    }

    /// The bound of a member's distance, in ticks.
    pub fn bound(&self, member: &Member) -> f64 {
        (member.turn * (self.sum - member.turn)) as f64 / self.sum as f64
    }

    /// All that is proved holds of it.
    pub fn holds(&self) -> bool {
        let set = self.set();
        let keeps = |member: &Member| set.keeps(&member.lane(), &member.got());
        self.uneven == 0 && self.members.iter().all(keeps)
    }

    /// So many ticks are charged to this thread of the rank.
    pub fn charge(&mut self, thread: usize, ticks: u64) {
        let mut left = ticks;
        while left > 0 {
            let now = left.min(self.sum - self.ticks % self.sum);
            self.charge_within_round(thread, now);
            left -= now;
        }
    }

    fn charge_within_round(&mut self, thread: usize, ticks: u64) {
        let sum = self.sum;
        for member in &mut self.members {
            if member.thread == thread {
                member.charged += ticks;
                member.far += i128::from(sum - member.turn) * i128::from(ticks);
                member.waited = 0;
            } else {
                member.far -= i128::from(member.turn) * i128::from(ticks);
                member.waited += ticks;
            }
            member.note();
        }
        self.ticks += ticks;
        let over = self.ticks % sum;
        if over == 0 {
            self.rounds += 1;
            self.uneven += u64::from(self.members.iter().any(|member| member.far != 0));
        }
    }

    /// Rounds as the one that was charged last, in which somebody may have been without its turns: nobody gets further or waits longer.
    pub fn repeat(&mut self, rounds: u64, was_uneven: bool) {
        for member in &mut self.members {
            member.charged += member.turn * rounds;
        }
        self.ticks += self.sum * rounds;
        self.rounds += rounds;
        self.uneven += if was_uneven { rounds } else { 0 };
    }
}
