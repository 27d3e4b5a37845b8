//! Order 5: "Where demand 3 covers the run from the creation of the last of them, and all earlier
//! charges to them are zero, and the count is a whole number of rounds, each of their lags is 0".
//! Here the lanes have one rank, a cutter outranks them and comes and goes, the lock goes on and
//! off, ticks come one by one or some at once, and are refused; no lane waits, yields, is set or is
//! deleted.

mod common;

use common::*;
use model::{operation as op, record, report, Rng};

/// The thread that breaks in, above every lane.
const CUTTER: u8 = 9;

/// A run of some lanes, threads 1, 2 and so on.
struct Run {
    /// Their turns.
    turns: Vec<u32>,
    board: Board,
    trace: Vec<u8>,
    /// The ticks charged to them.
    count: u32,
}

impl Run {
    /// Two to six lanes. Ticks between their creations are charged to nobody, as the lock is on, or
    /// to the cutter; where Init ran before the first of them, there is none.
    fn begin(rng: &mut Rng) -> Run {
        let lanes = rng.between(2, 6) as u8;
        let rank = rng.between(1, 30) as u8;
        let mut run = Run {
            turns: (0..lanes).map(|_| rng.between(1, 5)).collect(),
            board: Board::fresh(),
            trace: Vec::new(),
            count: 0,
        };
        run.put(rng.pick(&[lock(), create(CUTTER, 31, 2), tick()]));
        let lanes_run = run.board.lock() == 0 && run.board.running() == 0;
        for (i, turn) in (1..).zip(run.turns.clone()) {
            run.put(create(i, rank, turn));
            let between = if lanes_run { 0 } else { rng.below(4) };
            (0..between).for_each(|_| run.put(tick()));
        }
        assert_eq!(run.count, 0);
        run
    }

    fn put(&mut self, record: [u8; 12]) {
        for single in self.board.singles(&record) {
            let (running, lock) = (self.board.running(), self.board.lock());
            let (code, _) = self.board.ask(&single);
            let is_lane = (1..=self.turns.len()).contains(&running);
            let charged = single[0] == op::TICK && code == 0 && lock == 0 && is_lane;
            self.count += u32::from(charged);
        }
        self.trace.extend(record);
    }

    /// A step that leaves the lanes' premises alone.
    fn step(&mut self, rng: &mut Rng) {
        let cuts = self.board.running() == usize::from(CUTTER) && self.board.lock() == 0;
        let few = rng.between(1, 3);
        let record = match rng.below(16) {
            0 => record(op::TICK, 1, 0, 0, 0),
            1 => create(CUTTER, 31, few),
            2 => set_turn(CUTTER, few),
            3 if rng.one_in(2) => set_priority(CUTTER, 31),
            3 => delete(CUTTER),
            4 if rng.one_in(2) => lock(),
            5 | 6 => unlock(),
            7 if cuts => delay(few),
            8 if cuts => yield_turn(),
            9 | 10 => ticks(few),
            _ => tick(),
        };
        self.put(record);
    }

    /// The lanes' lines in the report.
    fn lines(&self) -> Vec<String> {
        let text = String::from_utf8(report(&self.trace)).expect("the report is text");
        let lanes = text.lines().skip(1).take(self.turns.len());
        lanes.map(String::from).collect()
    }

    /// The lanes' lines after so many whole rounds: turn by turn, and no lag.
    fn even(&self, rounds: u32) -> Vec<String> {
        let lanes = (1..).zip(&self.turns);
        let line = |(i, turn): (u8, &u32)| format!("{i} {} 0", rounds * turn);
        lanes.map(line).collect()
    }
}

/// After every charge the report is looked at: the lags are 0 after a whole number of rounds, and
/// else some lane is behind.
#[test]
fn whole_rounds_leave_no_lag() {
    for seed in 0..200 {
        let mut rng = Rng::new(90_000 + seed);
        let mut run = Run::begin(&mut rng);
        let round: u32 = run.turns.iter().sum();
        let mut seen = 0;
        while run.count < 3 * round {
            run.step(&mut rng);
            if run.count == seen {
                continue;
            }
            seen = run.count;
            let lines = run.lines();
            if seen % round == 0 {
                assert_eq!(lines, run.even(seen / round), "seed {seed}");
            } else {
                let is_behind = |line: &String| line.contains(" -");
                assert!(lines.iter().any(is_behind), "seed {seed}: {lines:?}");
            }
        }
    }
}
