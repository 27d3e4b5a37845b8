//! What ends a stretch: who left the rank's ready set or joined it, and who yielded or was set.

use model::{code, operation as op, wait, word, RECORD};

use crate::names::Names;
use crate::view::{numbers, View};

/// What became of a thread.
#[derive(Clone, Copy, Debug, PartialEq, Eq)]
pub enum Deed {
    Yielded,
    TurnSet(u32),
    PrioritySet(u8),
    Deleted,
    Suspended,
    Delayed,
    Received,
    Sent(u8),
    Pended(u8),
    Created,
    Resumed,
    WaitEnded,
    Came(usize),
    Went(usize),
}

/// The end of a stretch: what each thread did; nothing where the recording ends.
#[derive(Clone, Debug, Default)]
pub struct Ending {
    pub deeds: Vec<(usize, Deed)>,
    /// A tick did it.
    pub is_tick: bool,
    /// It is a tick of an operation 21, and those before it are in the stretch.
    pub is_inside: bool,
}

/// "none of them yields and none is named in an accepted change of settings": the thread that does, and what.
pub fn disturbance(before: &View, request: &[u8; RECORD], code: i32) -> Option<(usize, Deed)> {
    let object = usize::from(request[1]);
    let (thread, deed) = match request[0] {
        op::YIELD => (before.running, Deed::Yielded),
        op::SET_PRIORITY => (object, Deed::PrioritySet(request[2])),
        op::SET_TURN => (object, Deed::TurnSet(word(request, 4))),
        _ => return None,
    };
    let is_ready = before
        .threads
        .get(thread)
        .is_some_and(|thread| thread.is_ready());
    (code == code::DONE && is_ready).then_some((thread, deed))
}

impl Ending {
    /// What a step does to this rank's ready set.
    pub fn of(
        rank: usize,
        before: &View,
        after: &View,
        disturbed: Option<(usize, Deed)>,
    ) -> Ending {
        let (was, is) = (before.sets[rank], after.sets[rank]);
        let named: Vec<(usize, Deed)> = disturbed
            .into_iter()
            .filter(|&(thread, _)| before.threads[thread].rank == rank)
            .collect();
        let is_other = |i: &usize| named.iter().all(|(thread, _)| thread != i);
        let left = numbers(was & !is).filter(is_other);
        let left: Vec<(usize, Deed)> = left.map(|i| (i, left_by(i, after))).collect();
        let joined = numbers(is & !was).map(|i| (i, joined_by(i, before)));
        let joined: Vec<(usize, Deed)> = joined.collect();
        Ending {
            deeds: [named, left, joined].concat(),
            ..Ending::default()
        }
    }

    /// In words, with the names of the threads.
    pub fn words(&self, names: &Names) -> String {
        if self.deeds.is_empty() {
            return String::from("the recording ends");
        }
        let deeds = self.deeds.iter();
        let deeds = deeds
            .map(|&(thread, deed)| format!("{} {}", names.of(thread), said(deed, self.is_tick)));
        deeds.collect::<Vec<String>>().join(", ")
    }
}

fn left_by(i: usize, after: &View) -> Deed {
    let thread = after.threads[i];
    match thread.wait {
        _ if !thread.is_used => Deed::Deleted,
        _ if thread.is_suspended => Deed::Suspended,
        wait::DELAY => Deed::Delayed,
        wait::RECEIVE => Deed::Received,
        wait::SEND => Deed::Sent(thread.object),
        wait::SEMAPHORE => Deed::Pended(thread.object),
        _ => Deed::Went(thread.rank),
    }
}

fn joined_by(i: usize, before: &View) -> Deed {
    let thread = before.threads[i];
    match thread.wait {
        _ if !thread.is_used => Deed::Created,
        wait::NONE if thread.is_suspended => Deed::Resumed,
        wait::NONE => Deed::Came(thread.rank),
        _ => Deed::WaitEnded,
    }
}

fn said(deed: Deed, is_tick: bool) -> String {
    match deed {
        Deed::Yielded => String::from("yielded"),
        Deed::TurnSet(turn) => format!("was set to turns of {turn}"),
        Deed::PrioritySet(rank) => format!("was set to priority {rank}"),
        Deed::Deleted => String::from("was deleted"),
        Deed::Suspended => String::from("was suspended"),
        Deed::Delayed => String::from("waited: a delay"),
        Deed::Received => String::from("waited: for mail"),
        Deed::Sent(to) => format!("waited: to send to thread {to}"),
        Deed::Pended(on) => format!("waited: on semaphore {on}"),
        Deed::Created => String::from("was created"),
        Deed::Resumed => String::from("was resumed"),
        Deed::WaitEnded if is_tick => String::from("came back: the time of its wait was up"),
        Deed::WaitEnded => String::from("came back: its wait ended"),
        Deed::Came(rank) => format!("came from rank {rank}"),
        Deed::Went(rank) => format!("went to rank {rank}"),
    }
}
