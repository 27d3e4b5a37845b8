//! The sorts of accepted steps that random runs must meet, told from the tables before and after.

use model::{operation as op, wait, word, FULL_COUNT, THREADS};

use crate::setting_sorts::{see_set_priority, see_set_turn};
use crate::sleep_sorts::{see_nearest, see_ticks};
use crate::view::View;

/// Every sort of step that a test can ask for.
pub const SORTS: &[&str] = &[
    "delay begins, timed",
    "receive begins, timed",
    "receive begins, endless",
    "send begins, timed",
    "send begins, endless",
    "semaphore begins, timed",
    "semaphore begins, endless",
    "delay begins, several before it",
    "delay begins, a suspended one before it",
    "receive begins, several before it",
    "receive begins, a suspended one before it",
    "send begins, several before it",
    "send begins, a suspended one before it",
    "semaphore begins, several before it",
    "semaphore begins, a suspended one before it",
    "delay ended by time",
    "delay ended by time, suspended",
    "delay ended by Cancel",
    "delay ended by Cancel, suspended",
    "receive ended by time",
    "receive ended by time, suspended",
    "receive ended by Send",
    "receive ended by Send, suspended",
    "receive ended by Send from interrupt",
    "receive ended by Send from interrupt, suspended",
    "send ended by time",
    "send ended by time, suspended",
    "send ended by Receive",
    "send ended by Receive, suspended",
    "send ended by Delete",
    "send ended by Delete, suspended",
    "semaphore ended by time",
    "semaphore ended by time, suspended",
    "semaphore ended by Abort",
    "semaphore ended by Abort, suspended",
    "semaphore ended by Drop",
    "semaphore ended by Drop, suspended",
    "semaphore ended by Post",
    "semaphore ended by Post, suspended",
    "semaphore ended by Post from interrupt",
    "semaphore ended by Post from interrupt, suspended",
    "delay deleted",
    "receive deleted",
    "send deleted",
    "semaphore deleted",
    "a wait ends under lock",
    "a gap closes in a line",
    "a thread is broken off in its turn",
    "a thread goes on with the rest of its turn",
    "all 16 threads in use",
    "Yield in a rank of several",
    "Yield under lock",
    "Delete of the running thread",
    "Delete with several senders",
    "Suspend of the running thread",
    "Suspend of a waiting thread",
    "Resume of a waiting thread",
    "Send from interrupt to the running thread",
    "Receive with several senders",
    "Drop with several waiters",
    "Post serves several and adds the rest",
    "Post serves some and leaves waiters",
    "Post of more than 99 is accepted",
    "Post from interrupt of more than 99 is accepted",
    "Lock nested",
    "Unlock, and another thread runs",
    "Tick rotates a rank of several",
    "Tick wakes a thread behind the rotated one",
    "Tick ends several waits",
    "Tick under lock",
];

const KINDS: [&str; 5] = ["nothing", "delay", "receive", "send", "semaphore"];

/// What ends a wait in a step of this operation.
fn cause(operation: u8) -> &'static str {
    match operation {
        op::DELETE => "Delete",
        op::CANCEL => "Cancel",
        op::SEND => "Send",
        op::SEND_FROM_INTERRUPT => "Send from interrupt",
        op::RECEIVE => "Receive",
        op::DROP => "Drop",
        op::ABORT => "Abort",
        op::POST => "Post",
        op::POST_FROM_INTERRUPT => "Post from interrupt",
        op::TICK | op::TICKS => "time",
        _ => "nothing that document 01 names",
    }
}

/// Names the sorts of one accepted step.
pub fn for_each_sort(before: View, record: &[u8], after: View, see: &mut dyn FnMut(&str)) {
    let operation = record[0];
    let mut ended = 0;
    for i in (0..THREADS).filter(|&i| before.in_use(i)) {
        ended += u32::from(see_wait(before, operation, after, i, see));
    }
    if ended > 0 && before.lock() > 0 {
        see("a wait ends under lock");
    }
    if ended > 1 && operation == op::TICK {
        see("Tick ends several waits");
    }
    if after.threads() == THREADS {
        see("all 16 threads in use");
    }
    see_running(before, operation, after, see);
    see_operation(before, record, after, see);
    match operation {
        op::TICKS => see_ticks(before, word(record, 4), after, see),
        op::NEAREST => see_nearest(before, see),
        op::SET_PRIORITY => see_set_priority(before, record, after, see),
        op::SET_TURN => see_set_turn(before, record, see),
        _ => {}
    }
}

/// What becomes of one thread's wait; gives whether it ended.
fn see_wait(before: View, op: u8, after: View, i: usize, see: &mut dyn FnMut(&str)) -> bool {
    let (was, is) = (before.wait(i).0, after.wait(i).0);
    let kind = KINDS[usize::from(was)];
    if !after.in_use(i) {
        if was != wait::NONE {
            see(&format!("{kind} deleted"));
        }
        return false;
    }
    if was == is {
        return false;
    }
    if before.behind(i) > 0 {
        see("a gap closes in a line");
    }
    if was == wait::NONE {
        let limit = if after.counter(i) == 0 {
            "endless"
        } else {
            "timed"
        };
        see(&format!("{} begins, {limit}", KINDS[usize::from(is)]));
        see_before(before, after.wait(i), see);
        return false;
    }
    let suspended = if before.suspended(i) {
        ", suspended"
    } else {
        ""
    };
    see(&format!("{kind} ended by {}{suspended}", cause(op)));
    true
}

/// Who has a wait already when another thread begins it.
fn see_before(before: View, wait: (u8, u8), see: &mut dyn FnMut(&str)) {
    let kind = KINDS[usize::from(wait.0)];
    if before.waiting(wait) > 1 {
        see(&format!("{kind} begins, several before it"));
    }
    let waits = |i: &usize| before.in_use(*i) && before.wait(*i) == wait;
    if (0..THREADS).filter(waits).any(|i| before.suspended(i)) {
        see(&format!("{kind} begins, a suspended one before it"));
    }
}

/// What becomes of the running thread.
fn see_running(before: View, operation: u8, after: View, see: &mut dyn FnMut(&str)) {
    let (was, is) = (before.running(), after.running());
    if was == is {
        return;
    }
    let partly = |view: View, i: usize| view.counter(i) < view.turn(i);
    if after.ready(was) && after.place(was) == 1 && partly(after, was) {
        see("a thread is broken off in its turn");
    }
    if partly(after, is) {
        see("a thread goes on with the rest of its turn");
    }
    if operation == op::UNLOCK {
        see("Unlock, and another thread runs");
    }
}

/// What is particular to an operation.
fn see_operation(before: View, record: &[u8], after: View, see: &mut dyn FnMut(&str)) {
    let (operation, object) = (record[0], usize::from(record[1]));
    let running = before.running();
    let locked = before.lock() > 0;
    let rank = before.ready_set(before.priority(running)).count_ones();
    let named = operation == op::DELETE || operation == op::SUSPEND || operation == op::RESUME;
    let waits = named && before.wait(object).0 != wait::NONE;
    match operation {
        op::YIELD if locked => see("Yield under lock"),
        op::YIELD if rank > 1 => see("Yield in a rank of several"),
        op::DELETE => see_delete(before, object, see),
        op::SUSPEND if object == running => see("Suspend of the running thread"),
        op::SUSPEND if waits => see("Suspend of a waiting thread"),
        op::RESUME if waits => see("Resume of a waiting thread"),
        op::SEND_FROM_INTERRUPT if object == running => {
            see("Send from interrupt to the running thread")
        }
        op::RECEIVE if before.waiting((wait::SEND, running as u8)) > 1 => {
            see("Receive with several senders")
        }
        op::DROP if before.waiting((wait::SEMAPHORE, object as u8)) > 1 => {
            see("Drop with several waiters")
        }
        op::POST | op::POST_FROM_INTERRUPT => see_post(before, record, see),
        op::LOCK if locked => see("Lock nested"),
        op::TICK if locked => see("Tick under lock"),
        op::TICK if rank > 1 && before.counter(running) == 1 => {
            see("Tick rotates a rank of several");
            if after.behind(running) > 0 {
                see("Tick wakes a thread behind the rotated one");
            }
        }
        _ => {}
    }
}

fn see_delete(before: View, object: usize, see: &mut dyn FnMut(&str)) {
    if object == before.running() {
        see("Delete of the running thread");
    }
    if before.waiting((wait::SEND, object as u8)) > 1 {
        see("Delete with several senders");
    }
}

fn see_post(before: View, record: &[u8], see: &mut dyn FnMut(&str)) {
    let waiters = before.waiting((wait::SEMAPHORE, record[1])) as u32;
    let units = word(record, 4);
    if waiters > 1 && units > waiters {
        see("Post serves several and adds the rest");
    }
    if units < waiters {
        see("Post serves some and leaves waiters");
    }
    if units > u32::from(FULL_COUNT) {
        let post = cause(record[0]);
        see(&format!("{post} of more than 99 is accepted"));
    }
}
