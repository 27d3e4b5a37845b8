//! Demand 3, counted from outside over the compiled door alone: "over any run of requests and ticks
//! in which one rank's set of ready threads isn't empty at the start and is the same after each
//! step, none of them yields and none is named in an accepted change of settings [...] in every
//! unbroken part of the run where the ticks charged to that rank equal the sum of the threads'
//! turns, each thread was charged exactly its own turn." Charges are counted from the run, not from
//! stored counters. Order 7: "Demand 3 counts an accepted operation 21 as its single ticks: its
//! premise is read after each, and a part may begin or end between them." Order 8: "demand 3's premise
//! names 23 and 24."

use std::collections::VecDeque;

use door::{door, View};
use model::{fresh, operation as op, random_record, random_sound, record, show, word, Rng};
use model::{INIT, TABLE, THREADS};

/// One rank, watched since its premises began to hold.
#[derive(Default)]
struct Watch {
    seed: u64,
    rank: u8,
    set: u16,
    /// The latest charges, at most as many as the sum of the turns.
    charges: VecDeque<usize>,
    /// How many charges there were so far.
    charged: u64,
    /// How many charges there were when each of these last came between them.
    latest: Between,
}

/// Ticks between the charges of a rank.
#[derive(Default, Debug)]
struct Between {
    /// Charged to another rank.
    broken_into: u64,
    /// Under lock.
    locked: u64,
    refused: u64,
}

/// How many parts had the sum of the turns as their charges: all, those of several threads, and of
/// these the ones with such ticks in them.
#[derive(Default, Debug)]
struct Parts {
    all: u64,
    of_several: u64,
    with: Between,
}

fn members(set: u16) -> impl Iterator<Item = usize> {
    (0..THREADS).filter(move |i| set >> i & 1 == 1)
}

fn is_member(set: u16, i: usize) -> bool {
    set >> i & 1 == 1
}

impl Watch {
    /// Watches the rank of a ready thread.
    fn begin(seed: u64, view: View, rank: u8) -> Watch {
        Watch {
            seed,
            rank,
            set: view.ready_set(rank),
            ..Watch::default()
        }
    }

    /// Whether the premises hold over this step.
    fn holds(&self, before: View, record: &[u8], code: i32, after: View) -> bool {
        let yields = record[0] == op::YIELD && code == 0 && is_member(self.set, before.running());
        let sets = [op::SET_PRIORITY, op::SET_TURN].contains(&record[0]);
        let named = sets && code == 0 && is_member(self.set, record[1].into());
        self.set != 0 && after.ready_set(self.rank) == self.set && !yields && !named
    }

    /// Counts a step over which the premises hold, and checks the part that it completes.
    fn see(&mut self, before: View, record: &[u8], code: i32, after: View, parts: &mut Parts) {
        if record[0] != op::TICK {
            return;
        }
        // "An accepted tick is charged to the thread that was running, to nobody while the lock is
        // on; a refused one to nobody."
        let running = before.running();
        match (code, before.lock()) {
            (0, 0) if is_member(self.set, running) => self.charge(running, after, parts),
            (0, 0) => self.latest.broken_into = self.charged,
            (0, _) => self.latest.locked = self.charged,
            _ => self.latest.refused = self.charged,
        }
    }

    fn charge(&mut self, thread: usize, after: View, parts: &mut Parts) {
        let sum: u32 = members(self.set).map(|i| after.turn(i)).sum();
        self.charged += 1;
        self.charges.push_back(thread);
        if self.charges.len() > sum as usize {
            self.charges.pop_front();
        }
        if self.charges.len() < sum as usize {
            return;
        }
        for i in members(self.set) {
            let charged = self.charges.iter().filter(|&&charged| charged == i).count();
            let turn = after.turn(i) as usize;
            let (seed, rank, charges) = (self.seed, self.rank, &self.charges);
            let case = || format!("the charges are {charges:?}\n{}", show(after.0));
            assert!(
                charged == turn,
                "seed {seed}, rank {rank}: {i} has turn {turn} and was charged {charged}; {}",
                case()
            );
        }
        let within = |at: u64| u64::from(at > 0 && self.charged - at < u64::from(sum));
        parts.all += 1;
        if self.set.count_ones() > 1 {
            parts.of_several += 1;
            parts.with.broken_into += within(self.latest.broken_into);
            parts.with.locked += within(self.latest.locked);
            parts.with.refused += within(self.latest.refused);
        }
    }
}

/// A random record that, as far as can be seen before it is put, leaves the rank's premises alone.
fn harmless(rng: &mut Rng, view: View, watch: &Watch) -> Vec<u8> {
    let tick = record(op::TICK, 0, 0, 0, 0);
    let few = rng.between(1, 9);
    match rng.below(16) {
        0..=7 => return tick.to_vec(),
        8 => return record(op::TICKS, 0, 0, few, 0).to_vec(),
        9 => return malformed_tick(rng),
        10 if view.lock() > 0 => return record(op::UNLOCK, 0, 0, 0, 0).to_vec(),
        _ => {}
    }
    loop {
        let record = random_record(rng, view.0);
        let (operation, object) = (record[0], usize::from(record[1]));
        let by_member = is_member(watch.set, view.running());
        let on_member = object < THREADS && is_member(watch.set, object);
        let of_rank = |i: usize| i < THREADS && view.priority(i) == watch.rank;
        let harms = match operation {
            op::YIELD | op::DELAY | op::RECEIVE => by_member && view.lock() == 0,
            op::SEND | op::PEND => by_member && view.lock() == 0 && record[4] > 0,
            op::SET_PRIORITY => on_member || record[2] == watch.rank,
            op::SET_TURN | op::DELETE | op::SUSPEND => on_member,
            op::CREATE => record[2] == watch.rank,
            op::RESUME | op::CANCEL | op::ABORT => of_rank(object),
            // one by one many take long
            op::TICKS => word(&record, 4) > 60,
            _ => false,
        };
        if !harms || (operation != op::TICKS && rng.one_in(200)) {
            return record.to_vec();
        }
    }
}

/// A tick that is refused: malformed.
fn malformed_tick(rng: &mut Rng) -> Vec<u8> {
    let mut tick = record(op::TICK, 0, 0, 0, 0).to_vec();
    match rng.below(3) {
        0 => tick[rng.between(1, 11) as usize] = 1,
        1 => tick.truncate(11),
        _ => tick.push(0),
    }
    tick
}

/// A rank to be watched: mostly one of several ready threads.
fn choose_rank(rng: &mut Rng, view: View) -> u8 {
    let ready: Vec<usize> = (0..THREADS).filter(|&i| view.ready(i)).collect();
    let in_company = |i: &&usize| view.ready_set(view.priority(**i)).count_ones() > 1;
    match ready.iter().find(in_company) {
        Some(&i) if !rng.one_in(4) => view.priority(i),
        _ => view.priority(rng.pick(&ready)),
    }
}

/// A run over the door; when the premises break, the watch begins anew.
fn run(seed: u64, rng: &mut Rng, table: &mut [u8; TABLE], steps: usize, parts: &mut Parts) {
    let rank = choose_rank(rng, View(table));
    let mut watch = Watch::begin(seed, View(table), rank);
    for _ in 0..steps {
        let record = harmless(rng, View(table), &watch);
        let area = &mut [0; 8][..if rng.one_in(64) { 7 } else { 8 }];
        let mut at_once = *table;
        let sleeps = record[0] == op::TICKS && door(&mut at_once, &record, area) == 0;
        for single in singles(&record, sleeps) {
            let before = *table;
            let code = door(table, &single, area);
            let (before, after) = (View(&before), View(table));
            if watch.holds(before, &single, code, after) {
                watch.see(before, &single, code, after, parts);
            } else {
                let rank = choose_rank(rng, after);
                watch = Watch::begin(seed, after, rank);
            }
        }
        assert!(!sleeps || *table == at_once, "{}", show(&at_once));
    }
}

/// What counts of a record: of an accepted Ticks its single ticks.
fn singles(record: &[u8], sleeps: bool) -> Vec<Vec<u8>> {
    match sleeps {
        true => vec![model::record(op::TICK, 0, 0, 0, 0).to_vec(); word(record, 4) as usize],
        false => vec![record.to_vec()],
    }
}

/// A fresh table with two to six threads of one rank, and others above and below it.
fn lanes(rng: &mut Rng) -> [u8; TABLE] {
    let mut table = fresh();
    let rank = rng.between(1, 30) as u8;
    let members = rng.between(2, 6) as u8;
    for i in 1..12 {
        let other = rng.below(32) as u8;
        let priority = if i <= members { rank } else { other };
        let turn = rng.between(1, 5);
        let create = record(op::CREATE, i, priority, turn, 0);
        assert_eq!(door(&mut table, &create, &mut [0; 8]), 0);
    }
    table
}

fn check(parts: &Parts, times: u64) {
    let with = [
        parts.with.broken_into,
        parts.with.locked,
        parts.with.refused,
    ];
    assert!(parts.of_several > times, "{parts:?}");
    assert!(with.iter().all(|&number| number > times / 10), "{parts:?}");
}

#[test]
fn lanes_are_fair() {
    let mut parts = Parts::default();
    for seed in 7_000..7_100 {
        let mut rng = Rng::new(seed);
        let mut table = lanes(&mut rng);
        run(seed, &mut rng, &mut table, 1_000, &mut parts);
    }
    check(&parts, 2_000);
}

#[test]
fn random_sound_tables_are_fair() {
    let mut parts = Parts::default();
    for seed in 8_000..8_400 {
        let mut rng = Rng::new(seed);
        let mut table = random_sound(&mut rng);
        run(seed, &mut rng, &mut table, 250, &mut parts);
    }
    check(&parts, 2_000);
}

/// The longest turn beside the shortest: every part of 100,000 charges has 99,999 and 1.
#[test]
fn the_longest_and_the_shortest_turn_are_fair() {
    let mut table = fresh();
    for (i, turn) in [(1, 99_999), (2, 1)] {
        let create = record(op::CREATE, i, 5, turn, 0);
        assert_eq!(door(&mut table, &create, &mut [0; 8]), 0);
    }
    let tick = record(op::TICK, 0, 0, 0, 0);
    let mut charges = [0; THREADS];
    for _ in 0..100_000 {
        charges[View(&table).running()] += 1;
        assert_eq!(door(&mut table, &tick, &mut [0; 8]), 0);
    }
    assert_eq!((charges[INIT], charges[1], charges[2]), (0, 99_999, 1));
    assert_eq!(View(&table).running(), 1);
}
