//! The stretches of a replay: the longest are kept one by one, and of all together what each set of lanes was promised and what it got.

use std::cmp::Reverse;
use std::collections::BTreeMap;

use crate::stretch::Stretch;

/// The ready threads of a rank, each with its turn.
#[derive(Clone, Debug, PartialEq, Eq, PartialOrd, Ord)]
pub struct Set {
    pub rank: usize,
    pub lanes: Vec<Lane>,
}

/// A thread and its turn.
#[derive(Clone, Copy, Debug, PartialEq, Eq, PartialOrd, Ord)]
pub struct Lane {
    pub thread: usize,
    pub turn: u64,
}

/// What a set got, over all stretches in which it was the rank's.
#[derive(Clone, Debug)]
pub struct Got {
    /// How many stretches there are, and the ticks charged to the rank in them.
    pub stretches: u64,
    pub ticks: u64,
    /// What each lane got of them.
    pub lanes: Vec<LaneGot>,
}

/// What a lane got.
#[derive(Clone, Copy, Debug, Default)]
pub struct LaneGot {
    pub charged: u64,
    /// The largest distance from its share in any part of a stretch, times the sum of the turns.
    pub furthest: u128,
    /// The most ticks of the rank for which it waited.
    pub longest: u64,
}

impl Set {
    pub fn sum(&self) -> u64 {
        self.lanes.iter().map(|lane| lane.turn).sum()
    }

    pub fn is_shared(&self) -> bool {
        self.lanes.len() > 1
    }

    /// All turns are equal.
    pub fn is_even(&self) -> bool {
        self.lanes
            .iter()
            .all(|lane| lane.turn == self.lanes[0].turn)
    }

    /// "Never far": a lane's turn times the sum of the others' turns; divided by the sum of all, it is in ticks.
    pub fn far_bound(&self, lane: &Lane) -> u128 {
        u128::from(lane.turn) * u128::from(self.late_bound(lane))
    }

    /// "Never late": the sum of the others' turns.
    pub fn late_bound(&self, lane: &Lane) -> u64 {
        self.sum() - lane.turn
    }

    /// Both bounds hold.
    pub fn keeps(&self, lane: &Lane, got: &LaneGot) -> bool {
        got.furthest <= self.far_bound(lane) && got.longest <= self.late_bound(lane)
    }
}

/// The stretches in which a tick was charged to the rank.
#[derive(Clone, Debug, Default)]
pub struct Stretches {
    /// The longest of those that threads share.
    pub kept: Vec<Stretch>,
    /// Those that threads share and that are not kept, and the ticks in them.
    pub others: u64,
    pub others_ticks: u64,
    pub sets: BTreeMap<Set, Got>,
    /// The first of which something does not hold that is proved.
    pub broken: Option<Stretch>,
}

impl Stretches {
    /// So many are kept one by one.
    pub const MOST: usize = 24;

    pub fn keep(&mut self, stretch: Stretch) {
        if stretch.ticks == 0 {
            return;
        }
        if self.broken.is_none() && !stretch.holds() {
            self.broken = Some(stretch.clone());
        }
        self.add(&stretch);
        if stretch.is_shared() {
            self.kept.push(stretch);
        }
        if self.kept.len() > Stretches::MOST {
            self.leave_out();
        }
    }

    fn add(&mut self, stretch: &Stretch) {
        let got = self.sets.entry(stretch.set()).or_insert_with(|| Got {
            stretches: 0,
            ticks: 0,
            lanes: vec![LaneGot::default(); stretch.members.len()],
        });
        got.stretches += 1;
        got.ticks += stretch.ticks;
        for (lane, member) in got.lanes.iter_mut().zip(&stretch.members) {
            let more = member.got();
            lane.charged += more.charged;
            lane.furthest = lane.furthest.max(more.furthest);
            lane.longest = lane.longest.max(more.longest);
        }
    }

    /// Leaves out the shortest of those that are kept, and of two the later one.
    fn leave_out(&mut self) {
        let by_ticks = self.kept.iter().enumerate().rev();
        let shortest = by_ticks.min_by_key(|(_, stretch)| stretch.ticks);
        if let Some((at, _)) = shortest {
            self.others_ticks += self.kept.remove(at).ticks;
            self.others += 1;
        }
    }

    /// The sets in which a thread was.
    pub fn sets_of(&self, thread: usize) -> impl Iterator<Item = (&Set, &Got)> {
        let is_in = move |set: &Set| set.lanes.iter().any(|lane| lane.thread == thread);
        self.sets.iter().filter(move |(set, _)| is_in(set))
    }

    /// So many of them at the most: those that it shares before those in which it was alone, and of each kind that with the most ticks first.
    pub fn main_sets_of(&self, thread: usize, most: usize) -> Vec<(&Set, &Got)> {
        let mut sets: Vec<(&Set, &Got)> = self.sets_of(thread).collect();
        let place = |(set, got): &(&Set, &Got)| (!set.is_shared(), Reverse(got.ticks));
        sets.sort_by_key(place);
        sets.truncate(most);
        sets
    }

    /// The rank at which most ticks were charged while a thread was ready there, and of two the higher one.
    pub fn rank(&self, thread: usize) -> Option<usize> {
        let mut ticks: BTreeMap<usize, u64> = BTreeMap::new();
        for (set, got) in self.sets_of(thread) {
            *ticks.entry(set.rank).or_default() += got.ticks;
        }
        let most = ticks.into_iter().max_by_key(|&(_, ticks)| ticks);
        most.map(|(rank, _)| rank)
    }

    /// How many sets of threads shared a rank, one after the other.
    pub fn sets_at(&self, rank: usize) -> usize {
        let shared = self.sets.keys().filter(|set| set.is_shared());
        shared.filter(|set| set.rank == rank).count()
    }

    /// A thread ever shares a rank.
    pub fn shares(&self, thread: usize) -> bool {
        self.sets_of(thread).any(|(set, _)| set.is_shared())
    }

    /// Of each rank that threads share, the set with the most ticks; the highest rank first.
    pub fn main_sets(&self) -> Vec<(&Set, &Got)> {
        let mut mains: BTreeMap<Reverse<usize>, (&Set, &Got)> = BTreeMap::new();
        for (set, got) in self.sets.iter().filter(|(set, _)| set.is_shared()) {
            let main = mains.entry(Reverse(set.rank)).or_insert((set, got));
            if got.ticks > main.1.ticks {
                *main = (set, got);
            }
        }
        mains.into_values().collect()
    }
}
