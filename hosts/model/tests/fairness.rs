//! Demand 3, counted from outside: "over any run of requests and ticks in which one rank's set of
//! ready threads isn't empty at the start and is the same after each step, none of them yields
//! and none is named in an accepted change of settings [...] in every unbroken part of the run
//! where the ticks charged to that rank equal the sum of the threads' turns, each thread was
//! charged exactly its own turn." Charges are counted from the run, not from stored counters.
//! Order 7: "Demand 3 counts an accepted operation 21 as its single ticks: its premise is read after
//! each, and a part may begin or end between them." Order 8: "demand 3's premise names 23 and 24."

mod common;

use std::collections::VecDeque;

use common::*;
use model::{operation as op, random_record, random_sound, word, Rng};

/// Which accepted steps end the premise.
#[derive(Clone, Copy, PartialEq)]
enum Premise {
    /// As the demand and order 8 are worded: each Yield by a member of the rank, and each 23 and 24
    /// that names one.
    Worded,
    /// A weaker one, of which the claim as it is worded follows: Yields with lock 0, and 24. A member
    /// to which 23 gives its own priority goes on as before, and one with another is in the rank no
    /// more.
    Weaker,
}

/// What is seen of one rank since its premise last began to hold.
#[derive(Clone, Default)]
struct Rank {
    /// The latest charges, at most as many as the sum of the turns.
    charges: VecDeque<usize>,
    /// How many of these went to each thread.
    charged: [u32; 16],
    /// How many ticks since the first charge were charged to another rank or to nobody.
    strangers: u32,
}

/// The windows in which a rank's charges made the sum of its turns.
#[derive(Default, Debug)]
struct Windows {
    checked: u32,
    of_two_or_more: u32,
    broken_off: u32,
}

impl Windows {
    fn add(&mut self, more: &Windows) {
        self.checked += more.checked;
        self.of_two_or_more += more.of_two_or_more;
        self.broken_off += more.broken_off;
    }

    /// Fails where the runs have shown too little.
    fn expect_enough(&self) {
        println!("{self:?}");
        assert!(self.of_two_or_more > 2_000, "{self:?}");
        assert!(self.broken_off > 500, "{self:?}");
    }
}

/// The ready threads of each rank, as bits.
fn ready_sets(board: &Board) -> [u16; 32] {
    let mut sets = [0; 32];
    for i in 0..16 {
        let record = board.record(i);
        if record[0] == 1 && record[2] == 0 && record[3] == 0 {
            sets[usize::from(record[1])] |= 1 << i;
        }
    }
    sets
}

fn members(set: u16) -> impl Iterator<Item = usize> {
    (0..16).filter(move |i| set >> i & 1 == 1)
}

fn turn(board: &Board, i: usize) -> u32 {
    word(board.record(i), 8)
}

struct Watch {
    premise: Premise,
    ranks: Vec<Rank>,
    windows: Windows,
}

impl Watch {
    fn new(premise: Premise) -> Watch {
        Watch {
            premise,
            ranks: vec![Rank::default(); 32],
            windows: Windows::default(),
        }
    }

    /// Makes a step, an accepted operation 21 by its single ticks, and looks at every rank after
    /// each. Where the single ticks lead is where the one step leads.
    fn step(&mut self, board: &mut Board, record: &[u8; 12]) {
        let singles = board.singles(record);
        let mut at_once = board.clone();
        at_once.ask(record);
        for single in &singles {
            self.look(board, single);
        }
        assert!(board.table == at_once.table, "{record:?}");
    }

    fn look(&mut self, board: &mut Board, record: &[u8; 12]) {
        let before = board.clone();
        let (code, _) = board.ask(record);
        let accepted_tick = record[0] == op::TICK && code == 0;
        // "An accepted tick is charged to the thread that was running, to nobody while the lock
        // is on; a refused one to nobody."
        let charged = (accepted_tick && before.lock() == 0).then(|| before.running());
        let (old, new) = (ready_sets(&before), ready_sets(board));
        for rank in 0..32 {
            let set = old[rank];
            if set == new[rank] && set != 0 && !self.ends(&before, record, code, set) {
                self.see(rank, set, accepted_tick, charged, board);
            } else {
                self.ranks[rank] = Rank::default();
            }
        }
    }

    /// Whether a member of the set yields or is named in an accepted change of settings.
    fn ends(&self, before: &Board, record: &[u8; 12], code: i32, set: u16) -> bool {
        let is_member = |i: usize| code == 0 && set >> i & 1 == 1;
        let worded = self.premise == Premise::Worded;
        match record[0] {
            op::YIELD => (worded || before.lock() == 0) && is_member(before.running()),
            op::SET_PRIORITY => worded && is_member(record[1].into()),
            op::SET_TURN => is_member(record[1].into()),
            _ => false,
        }
    }

    fn see(&mut self, rank: usize, set: u16, tick: bool, charged: Option<usize>, board: &Board) {
        let seen = &mut self.ranks[rank];
        let Some(thread) = charged.filter(|&i| set >> i & 1 == 1) else {
            seen.strangers += u32::from(tick && !seen.charges.is_empty());
            return;
        };
        let sum: u32 = members(set).map(|i| turn(board, i)).sum();
        seen.charges.push_back(thread);
        seen.charged[thread] += 1;
        if seen.charges.len() > sum as usize {
            let oldest = seen.charges.pop_front().expect("the window is not empty");
            seen.charged[oldest] -= 1;
        }
        if seen.charges.len() == sum as usize {
            let fair = members(set).all(|i| seen.charged[i] == turn(board, i));
            let charges = &seen.charges;
            let text = || model::show(&board.table);
            assert!(
                fair,
                "rank {rank}: the last {sum} charges are {charges:?}\n{}",
                text()
            );
            self.windows.checked += 1;
            self.windows.of_two_or_more += u32::from(set.count_ones() > 1);
            self.windows.broken_off += u32::from(seen.strangers > 0 && set.count_ones() > 1);
        }
    }
}

/// A run in which a record is a tick, or some at once, `ticks` times in 32.
fn run(watch: &mut Watch, rng: &mut Rng, board: &mut Board, steps: usize, ticks: usize) {
    for _ in 0..steps {
        let record = match rng.below(32) {
            part if part < ticks => some_ticks(rng),
            part if part == 31 && board.lock() > 0 => unlock(),
            _ => of_few_ticks(random_record(rng, &board.table)),
        };
        watch.step(board, &record);
    }
}

/// A tick; of every 16 one is an operation 21 with a few.
fn some_ticks(rng: &mut Rng) -> [u8; 12] {
    let few = rng.between(1, 12);
    match rng.below(16) {
        0 => ticks(few),
        _ => tick(),
    }
}

#[test]
fn runs_from_fresh_are_fair() {
    for premise in [Premise::Worded, Premise::Weaker] {
        let mut windows = Windows::default();
        for seed in 0..120 {
            let mut rng = Rng::new(5_000 + seed);
            let mut watch = Watch::new(premise);
            let ticks = rng.pick(&[12, 24, 28, 30]);
            run(&mut watch, &mut rng, &mut Board::fresh(), 1_000, ticks);
            windows.add(&watch.windows);
        }
        windows.expect_enough();
    }
}

#[test]
fn runs_from_random_sound_tables_are_fair() {
    for premise in [Premise::Worded, Premise::Weaker] {
        let mut windows = Windows::default();
        for seed in 0..1_500 {
            let mut rng = Rng::new(9_000 + seed);
            let table = random_sound(&mut rng);
            let mut watch = Watch::new(premise);
            let ticks = rng.pick(&[20, 26, 30, 31]);
            run(&mut watch, &mut rng, &mut Board { table }, 120, ticks);
            windows.add(&watch.windows);
        }
        windows.expect_enough();
    }
}

/// The longest turn beside the shortest: every window of 100,000 charges holds 99,999 and 1.
#[test]
fn the_longest_and_the_shortest_turn_are_fair() {
    let mut board = Board::fresh();
    let mut watch = Watch::new(Premise::Worded);
    for record in [create(1, 5, 99_999), create(2, 5, 1)] {
        watch.step(&mut board, &record);
    }
    for _ in 0..150_000 {
        watch.step(&mut board, &tick());
    }
    assert_eq!(watch.windows.of_two_or_more, 50_001);
}

/// How many of five ticks the lanes of turns 3 and 2 are charged, with this record after the first.
fn shares_around(asked: [u8; 12]) -> [u32; 2] {
    let mut board = Board::fresh().after(create(1, 5, 3)).after(create(2, 5, 2));
    let mut charged = [0; 16];
    for record in [tick(), asked, tick(), tick(), tick(), tick()] {
        charged[board.running()] += u32::from(record == tick());
        board.done(record);
    }
    [charged[1], charged[2]]
}

/// 24 with the turn that a lane has fills its counter, and the lane has a tick more than its share. 23
/// with the priority that it has changes nothing: the premise names it all the same.
#[test]
fn the_turn_that_stands_breaks_the_shares_and_the_priority_that_stands_does_not() {
    assert_eq!(shares_around(nearest()), [3, 2]);
    assert_eq!(shares_around(set_turn(1, 3)), [4, 1]);
    assert_eq!(shares_around(set_priority(1, 5)), [3, 2]);
    assert_eq!(shares_around(set_priority(2, 5)), [3, 2]);
}

/// The premise is over with a 23 or a 24 that names a lane, and not with one that is refused or names
/// the cutter; only the weaker one goes on over a 23.
#[test]
fn the_premise_names_23_and_24() {
    let lanes = Board::fresh().after(create(1, 5, 3)).after(create(2, 5, 2));
    let lanes = lanes.after(create(9, 4, 1));
    for (record, worded, weaker) in [
        (set_priority(1, 5), true, false),
        (set_turn(1, 3), true, true),
        (set_turn(2, 7), true, true),
        (set_priority(1, 32), false, false),
        (set_turn(1, 0), false, false),
        (former_set(1, 5, 3), false, false),
        (set_priority(9, 4), false, false),
        (set_turn(9, 8), false, false),
    ] {
        for (premise, ends) in [(Premise::Worded, worded), (Premise::Weaker, weaker)] {
            let mut board = lanes.clone();
            let mut watch = Watch::new(premise);
            watch.step(&mut board, &tick());
            watch.step(&mut board, &record);
            assert_eq!(watch.ranks[5].charges.is_empty(), ends, "{record:?}");
        }
    }
}

/// The cutter's delay ends in the fourth of six ticks at once, and the cutter has the last two; it
/// waits again, and seven more ticks come at once. Of the 11 charges to the lanes, of turns 2 and 3,
/// every five in a row are a part: four parts begin inside the first six ticks and end inside the
/// seven, with the cutter's ticks between.
#[test]
fn parts_begin_and_end_inside_ticks_at_once() {
    let mut board = Board::fresh().after(create(9, 7, 1));
    board.blocked(delay(4));
    board = board.after(create(1, 5, 2)).after(create(2, 5, 3));
    let mut watch = Watch::new(Premise::Worded);
    for record in [ticks(6), delay(50), ticks(7)] {
        watch.step(&mut board, &record);
    }
    assert_eq!(watch.windows.of_two_or_more, 7);
    assert!(watch.windows.broken_off >= 4, "{:?}", watch.windows);
}
