//! A case of the report: a trace that is put record by record, and what is reported of it.

use model::{code, report};

use super::{create, tick, Board};

/// A trace as it grows, and the board that it leads to.
#[derive(Clone)]
pub struct Case {
    pub board: Board,
    pub trace: Vec<u8>,
}

impl Case {
    pub fn fresh() -> Case {
        Case {
            board: Board::fresh(),
            trace: Vec::new(),
        }
    }

    /// Threads 1, 2 and so on, of priority 5, with these turns.
    pub fn lanes(turns: &[u32]) -> Case {
        let lane = |case: Case, (&turn, i): (&u32, u8)| case.done(create(i, 5, turn));
        turns.iter().zip(1..).fold(Case::fresh(), lane)
    }

    /// Lanes of turns 2 and 2 have 2 ticks and 1, and thread 3 of priority 4 and turn 3 has none.
    pub fn lanes_and_a_lower_one() -> Case {
        let lanes = Case::lanes(&[2, 2]).done(create(3, 4, 3));
        lanes.ticks(3)
    }

    /// The record is put, and is answered by this code.
    pub fn put(mut self, record: [u8; 12], code: i32) -> Case {
        assert_eq!(self.board.ask(&record).0, code, "{record:?}");
        self.trace.extend(record);
        self
    }

    pub fn done(self, record: [u8; 12]) -> Case {
        self.put(record, code::DONE)
    }

    pub fn ticks(self, number: usize) -> Case {
        (0..number).fold(self, |case, _| case.done(tick()))
    }

    /// The report has exactly these lines.
    pub fn gives(self, lines: &[&str]) -> Case {
        let want: String = lines.iter().map(|line| format!("{line}\n")).collect();
        assert_eq!(String::from_utf8_lossy(&report(&self.trace)), want);
        self
    }
}
