//! The steps of a trace, with what can be seen of each from outside.

use model::{door, AREA};

use super::Board;

/// A step, with who ran, of what priority, and the lock before it, and who ran after it. An accepted
/// operation 21 is its single ticks.
pub struct Step {
    pub record: [u8; 12],
    pub code: i32,
    /// Of the ticks of an operation 21 so many came before.
    pub before: usize,
    /// Who ran before the first of them.
    pub first: usize,
    pub ran: usize,
    pub priority: u8,
    pub lock: u8,
    pub runs: usize,
}

/// The steps of a trace from a fresh table on, and where they lead.
pub fn steps(trace: &[u8]) -> (Vec<Step>, Board) {
    let mut board = Board::fresh();
    let mut steps = Vec::new();
    for bytes in trace.chunks_exact(12) {
        let record: [u8; 12] = bytes.try_into().expect("a whole record");
        let first = board.running();
        for (before, single) in board.singles(&record).into_iter().enumerate() {
            steps.push(step(&mut board, single, before, first));
        }
    }
    (steps, board)
}

/// The record is put, as the one behind so many of an operation 21.
fn step(board: &mut Board, record: [u8; 12], before: usize, first: usize) -> Step {
    let (ran, lock) = (board.running(), board.lock());
    let priority = board.seen(ran).priority;
    let code = door(&mut board.table, &record, &mut [0; AREA]);
    Step {
        record,
        code,
        before,
        first,
        ran,
        priority,
        lock,
        runs: board.running(),
    }
}
