//! Random recordings of lanes that share a rank, a cutter and a feed above them, and sleeps of up to 3,000 ticks.

use crate::events::{ready_at, turn};
use model::{at, door, fresh, operation as op, record, word, Rng, AREA, FOREVER, RECORD, TABLE};

/// The rank of the lanes, which are the threads from 1 on.
const LANES: u8 = 5;
/// A thread and its rank.
const FEED: (u8, u8) = (8, 7);
const CUTTER: (u8, u8) = (9, 9);

/// A recording that is being made.
struct Scene<'a> {
    rng: &'a mut Rng,
    lanes: u8,
    table: [u8; TABLE],
    bytes: Vec<u8>,
    /// The ticks that may still come.
    left: u32,
}

/// A recording of so many requests at the most and of about so many ticks at the most.
pub fn scene(rng: &mut Rng, requests: usize, ticks: u32) -> Vec<u8> {
    let lanes = rng.between(2, 4) as u8;
    let mut scene = Scene {
        rng,
        lanes,
        table: fresh(),
        bytes: Vec::new(),
        left: ticks,
    };
    scene.begin();
    while scene.bytes.len() < requests * RECORD && scene.left > 0 {
        scene.go_on();
    }
    scene.end();
    scene.bytes
}

impl Scene<'_> {
    fn put(&mut self, asked: [u8; RECORD]) {
        door(&mut self.table, &asked, &mut [0; AREA]);
        self.bytes.extend(asked);
        let ticks = match asked[0] {
            op::TICKS => word(&asked, 4),
            op::TICK => 1,
            _ => 0,
        };
        self.left = self.left.saturating_sub(ticks);
    }

    /// Puts an operation with the fields that it uses.
    fn ask(&mut self, operation: u8, object: u8, number: u32) {
        self.put(record(operation, object, 0, number, 0));
    }

    /// The lanes come one after another, now and then in the middle of a turn; the feed and the cutter come too.
    fn begin(&mut self) {
        self.ask(op::MAKE, 0, 0);
        if self.rng.one_in(2) {
            self.sleep();
        }
        for lane in 1..=self.lanes {
            let turn = self.rng.between(1, 4);
            self.put(record(op::CREATE, lane, LANES, turn, 0));
            if self.rng.one_in(2) {
                self.ask(op::TICK, 0, 0);
            }
        }
        for (thread, rank) in [FEED, CUTTER] {
            self.put(record(op::CREATE, thread, rank, 3, 0));
            self.wait();
        }
    }

    /// The ticks that are left come at once, so that the bands are wide; half of the scenes end under lock.
    fn end(&mut self) {
        if self.rng.one_in(2) {
            self.ask(op::LOCK, 0, 0);
        }
        while self.left > 0 {
            let ticks = self.left.min(self.rng.between(1_000, 3_000));
            self.ask(op::TICKS, 0, ticks);
        }
    }

    fn go_on(&mut self) {
        let is_lane = self.table[at::RUNNING] <= self.lanes;
        match self.table[at::LOCK] > 0 {
            true if self.rng.one_in(2) => self.ask(op::UNLOCK, 0, 0),
            true => self.sleep(),
            false if is_lane => self.lane(),
            false if self.rng.one_in(4) => self.few_ticks(),
            false => self.wait(),
        }
    }

    /// Whoever runs waits, for a time or for ever.
    fn wait(&mut self) {
        let limit = self.rng.between(1, 60);
        let limit = self.rng.pick(&[1, 3, limit, limit * 20, FOREVER]);
        match self.rng.below(3) {
            0 => self.ask(op::DELAY, 0, limit.min(3_000)),
            1 => self.ask(op::PEND, 0, limit),
            _ => self.ask(op::RECEIVE, 0, limit),
        }
    }

    fn few_ticks(&mut self) {
        let few = self.rng.between(1, 3);
        self.ask(op::TICKS, 0, few);
    }

    /// Ticks at once: few, or whole rounds of the lanes and one more or less, or now and then many.
    fn sleep(&mut self) {
        let rounds = self.turns().max(1) * self.rng.between(1, 12);
        let few = self.rng.between(1, 5);
        let some = self.rng.between(1, 40);
        let many = self.rng.between(1, 3_000);
        let ticks = match self.rng.one_in(24) {
            true => many,
            false => self
                .rng
                .pick(&[few, some, rounds, rounds, rounds + 1, rounds.max(2) - 1]),
        };
        self.ask(op::TICKS, 0, ticks.min(self.left.max(1)));
    }

    /// The sum of the turns of the lanes that are ready at the lanes' rank.
    fn turns(&self) -> u32 {
        let lanes = 1..=usize::from(self.lanes);
        let ready = lanes.filter(|&lane| ready_at(LANES.into(), &self.table, lane));
        ready.map(|lane| turn(&self.table, lane) as u32).sum()
    }

    /// A lane runs: mostly time passes or a higher rank breaks in, and now and then a stretch ends.
    fn lane(&mut self) {
        let lane = self.rng.between(1, u32::from(self.lanes)) as u8;
        let few = self.rng.between(1, 4);
        let rank = self.rng.pick(&[LANES, LANES, LANES - 1]);
        match self.rng.below(32) {
            0 => self.ask(op::YIELD, 0, 0),
            1 => self.ask(op::SET_TURN, lane, few),
            2 => self.put(record(op::SET_PRIORITY, lane, rank, 0, 0)),
            3 => self.ask(op::SUSPEND, lane, 0),
            4 | 5 => self.ask(op::RESUME, lane, 0),
            6 => self.wait(),
            7 => self.put(record(op::SEND, FEED.0, 0, few, 7)),
            8 => self.put(record(op::SEND_FROM_INTERRUPT, FEED.0, 0, 0, 7)),
            9 => self.ask(op::DELETE, lane, 0),
            10 | 11 => self.put(record(op::CREATE, lane, LANES, few, 0)),
            12..=14 => self.ask(op::POST_FROM_INTERRUPT, 0, 1),
            15 => self.ask(op::CANCEL, CUTTER.0, 0),
            16 => self.ask(op::LOCK, 0, 0),
            17..=20 => self.ask(op::TICK, 0, 0),
            _ => self.sleep(),
        }
    }
}
