//! The sorts of Set priority and Set turn, operations 23 and 24, that random runs must meet, told from
//! the tables before and after.

use model::word;

use crate::view::View;

/// Every sort of an accepted Set priority or Set turn that a test can ask for.
pub const SETTING_SORTS: &[&str] = &[
    "Set priority of a ready thread, another one",
    "Set priority of a ready thread, the same",
    "Set priority of the running thread under lock",
    "Set priority of a thread that is not ready",
    "Set priority, and another thread runs",
    "Set turn of the running thread",
    "Set turn of the running thread under lock",
    "Set turn of a ready thread at a later place",
    "Set turn of a thread that is not ready",
    "Set turn to the one that stands, a part of it used",
    "Set turn to less than is left of it",
];

/// Names the sorts of one accepted Set priority.
pub fn see_set_priority(before: View, record: &[u8], after: View, see: &mut dyn FnMut(&str)) {
    let object = usize::from(record[1]);
    if !before.ready(object) {
        see("Set priority of a thread that is not ready");
    } else if before.priority(object) == record[2] {
        see("Set priority of a ready thread, the same");
    } else {
        see("Set priority of a ready thread, another one");
    }
    if object == before.running() && before.lock() > 0 {
        see("Set priority of the running thread under lock");
    }
    if after.running() != before.running() {
        see("Set priority, and another thread runs");
    }
}

/// Names the sorts of one accepted Set turn.
pub fn see_set_turn(before: View, record: &[u8], see: &mut dyn FnMut(&str)) {
    let (object, turn) = (usize::from(record[1]), word(record, 4));
    if !before.ready(object) {
        see("Set turn of a thread that is not ready");
        return;
    }
    if object == before.running() {
        see("Set turn of the running thread");
    }
    if object == before.running() && before.lock() > 0 {
        see("Set turn of the running thread under lock");
    }
    if before.place(object) > 1 {
        see("Set turn of a ready thread at a later place");
    }
    if turn == before.turn(object) && before.counter(object) < turn {
        see("Set turn to the one that stands, a part of it used");
    }
    if turn < before.counter(object) {
        see("Set turn to less than is left of it");
    }
}
