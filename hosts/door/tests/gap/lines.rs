//! The lines of a table, read off its bytes, and the rule for a gap in one.

use std::collections::BTreeMap;

use door::View;
use model::{wait, INIT, THREADS};

#[derive(Clone, Copy, Debug, PartialEq, Eq, PartialOrd, Ord)]
pub enum Kind {
    Ready,
    Waiters,
    Senders,
}

/// "There is a ready line per priority, a line per semaphore, and a line of senders per receiving
/// thread."
#[derive(Clone, Copy, Debug, PartialEq, Eq, PartialOrd, Ord)]
pub struct Line {
    pub kind: Kind,
    /// The priority, the semaphore or the receiving thread.
    pub number: u8,
}

impl Line {
    /// The threads that can never stand in this line: Init has priority 0 and never waits, and
    /// nobody sends to oneself.
    pub fn shut_out(self) -> Vec<usize> {
        match (self.kind, usize::from(self.number)) {
            (Kind::Ready, 0) => vec![],
            (Kind::Ready | Kind::Waiters, _) | (Kind::Senders, INIT) => vec![INIT],
            (Kind::Senders, receiver) => vec![INIT, receiver],
        }
    }

    pub fn longest(self) -> usize {
        THREADS - self.shut_out().len()
    }
}

/// The line in which a thread stands, if it stands in one.
fn line_of(view: View, i: usize) -> Option<Line> {
    let (kind, number) = match view.wait(i) {
        (wait::NONE, _) if view.ready(i) => (Kind::Ready, view.priority(i)),
        (wait::SEMAPHORE, semaphore) => (Kind::Waiters, semaphore),
        (wait::SEND, receiver) => (Kind::Senders, receiver),
        _ => return None,
    };
    Some(Line { kind, number })
}

/// The members of every line, in their order. Their places are 1 to n; a thread in no line has
/// place 0.
pub fn lines(view: View) -> BTreeMap<Line, Vec<usize>> {
    let mut by_place: Vec<usize> = (0..THREADS).collect();
    by_place.sort_by_key(|&i| view.place(i));
    let mut lines: BTreeMap<Line, Vec<usize>> = BTreeMap::new();
    for i in by_place {
        let place = line_of(view, i).map_or(0, |line| {
            let members = lines.entry(line).or_default();
            members.push(i);
            members.len()
        });
        assert_eq!(usize::from(view.place(i)), place, "the place of thread {i}");
    }
    lines
}

/// "Leaving any line closes the gap": in every line those that do not go come first, in the order
/// that they had. Who goes is in that line no more, but for those that go to its tail.
pub fn check_gaps(before: View, after: View, gone: &[usize], to_tail: impl Fn(&usize) -> bool) {
    let now = lines(after);
    for (line, members) in lines(before) {
        let (gone, left): (Vec<usize>, Vec<usize>) =
            members.into_iter().partition(|i| gone.contains(i));
        let now = now.get(&line).map_or(&[][..], |members| members);
        assert!(now.starts_with(&left), "{line:?} is {now:?}, not {left:?}");
        let wrong = gone.iter().find(|&i| now.contains(i) != to_tail(i));
        assert_eq!(wrong, None, "{gone:?} left {line:?}, which is {now:?}");
    }
}
