//! One thread of a line on a board, and who runs there.

use door::View;
use model::{at, operation as op, record, sound, wait, AREA, TABLE, THREADS};

use crate::boards::Board;
use crate::lines::{lines, Kind, Line};

/// Whose lock is on. With lock 0 the first of the highest line runs; under lock the caller runs, or
/// another thread.
#[derive(Clone, Copy, Debug, PartialEq, Eq, PartialOrd, Ord)]
pub enum Lock {
    Off,
    Callers,
    Others,
}

pub const LOCKS: [Lock; 3] = [Lock::Off, Lock::Callers, Lock::Others];

pub struct Case<'a> {
    pub table: [u8; TABLE],
    pub line: Line,
    /// The line's threads, in their order.
    pub members: &'a [usize],
    /// The thread's place, from 1.
    pub place: usize,
    pub lock: Lock,
}

impl Case<'_> {
    /// The thread at this place of the board's line, if somebody can run so. If the thread waits, it
    /// is suspended or not as is said here.
    pub fn new(board: &Board, place: usize, lock: Lock, suspended: bool) -> Option<Case<'_>> {
        let mut case = Case {
            table: board.table,
            line: board.line,
            members: &board.members,
            place,
            lock,
        };
        if case.line.kind != Kind::Ready {
            case.suspend(suspended);
        }
        case.turn_lock()?;
        assert!(sound(&case.table));
        Some(case)
    }

    pub fn view(&self) -> View<'_> {
        View(&self.table)
    }

    /// The thread at the place.
    pub fn it(&self) -> usize {
        self.members[self.place - 1]
    }

    /// The thread whose calls move the line: in a ready line the one at the place, and the receiver
    /// of senders.
    pub fn caller(&self) -> Option<usize> {
        match self.line.kind {
            Kind::Ready => Some(self.it()),
            Kind::Waiters => None,
            Kind::Senders => Some(self.line.number.into()),
        }
    }

    /// A ready thread that is not the caller: the next in the line, or else any.
    fn other(&self) -> Option<usize> {
        let next = self.members[self.place..].iter().chain(self.members);
        let mut others = next.copied().chain(0..THREADS);
        others.find(|&i| self.view().ready(i) && self.caller() != Some(i))
    }

    fn suspend(&mut self, suspended: bool) {
        if self.view().suspended(self.it()) == suspended {
            return;
        }
        let operation = if suspended { op::SUSPEND } else { op::RESUME };
        let record = record(operation, self.it() as u8, 0, 0, 0);
        let code = model::door(&mut self.table, &record, &mut [0; AREA]);
        assert_eq!(code, 0);
    }

    /// Under lock any ready thread may run, wherever it stands. Such a table is sound, whether or not
    /// requests lead to it.
    fn turn_lock(&mut self) -> Option<()> {
        let runs = match self.lock {
            Lock::Off => return Some(()),
            Lock::Callers => self.caller(),
            Lock::Others => self.other(),
        };
        self.table[at::LOCK] = 1;
        self.table[at::RUNNING] = runs? as u8;
        Some(())
    }

    /// A thread, and those who send to it.
    pub fn with_senders(&self, receiver: usize) -> Vec<usize> {
        let line = Line {
            kind: Kind::Senders,
            number: receiver as u8,
        };
        let mut threads = lines(self.view()).remove(&line).unwrap_or_default();
        threads.push(receiver);
        threads
    }

    /// All threads that wait, in whatever line or none.
    pub fn waiting(&self) -> Vec<usize> {
        let waits = |i: &usize| self.view().wait(*i).0 != wait::NONE;
        (0..THREADS).filter(waits).collect()
    }

    pub fn has_mail(&self) -> bool {
        self.table[at::thread(self.it()) + at::MAILBOX_FULL] == 1
    }
}
