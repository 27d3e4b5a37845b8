//! The bullets on bytes, ranges and Init.

use crate::bullet::Bullet;
use crate::rich::*;

const TOP: u32 = 99_999;

pub fn bytes_and_ranges() -> Bullet {
    let mut b = Bullet::new("A free record is all zero [...] every field is in range");
    b.bytes("in use", (3, IN_USE), &[1], &[0, 2, 255]);
    b.sound("thread 3 freed whole", &[free(3)]);
    b.sound(
        "thread 12 taken",
        &[whole(12, [1, 9, 1, 0, 0, 0, 0, 1], [1, 0, 0, 0])],
    );
    b.unsound("outcome 1 in free thread 12", &[byte(12, OUTCOME, 1)]);
    b.bytes("semaphore in use", (18, IN_USE), &[0, 1], &[2, 255]);
    b.bytes("semaphore in use", (20, IN_USE), &[0, 1], &[2, 255]);
    b.unsound(
        "semaphore 3 freed but for its count",
        &[byte(19, IN_USE, 0)],
    );
    b.bytes("priority", (3, PRIORITY), &[0, 31], &[32, 255]);
    b.bytes("suspended", (3, SUSPENDED), &[1], &[2, 255]);
    b.bytes("wait kind", (4, KIND), &[1], &[5, 255]);
    b.bytes("mailbox full", (3, FULL), &[0, 1], &[2, 255]);
    b.bytes("mailbox full", (4, FULL), &[0, 1], &[2, 255]);
    b.bytes(
        "outcome",
        (1, OUTCOME),
        &[0, 1, 251],
        &[2, 5, 128, 250, 252, 255],
    );
    b.wides(
        "turn",
        (3, TURN),
        &[1, 6, TOP],
        &[0, TOP + 1, u32::MAX, 1 << 24],
    );
    b.wides(
        "turn of a waiting thread",
        (6, TURN),
        &[1, TOP],
        &[0, TOP + 1],
    );
    b.bytes("count", (19, 1), &[0, 99], &[100, 255]);
    b.bytes("running thread", (24, 0), &[1], &[16, 25, 255]);
    b.unsound("running thread 16 under lock", &[running(16), lock(1)]);
    b.bytes("lock count", (24, 1), &[0, 1, 255], &[]);
    b
}

/// Init stands at the end of its line, so that the line is whole without it.
pub fn init() -> Bullet {
    let mut b = Bullet::new("Thread 0 is in use, priority 0, not suspended, not waiting");
    let state = |suspended, kind, object, place, full| {
        move |i: usize| {
            whole(
                i,
                [1, 0, suspended, kind, object, place, full, 1],
                [6, 5, 0, 0],
            )
        }
    };
    let suspended = [
        byte(0, SUSPENDED, 1),
        byte(0, PLACE, 0),
        wide(0, COUNTER, 0),
    ];
    b.unsound("free", &[free(0)]);
    let in_line_1 = ready_lines(&[0, 1, 5]);
    b.unsound(
        "priority 1",
        &[byte(0, PRIORITY, 1), byte(0, PLACE, 1), in_line_1.clone()],
    );
    b.unsound("suspended", &suspended);
    let states: [(&str, &dyn Fn(usize) -> Edit); 5] = [
        ("in a delay", &state(0, 1, 0, 0, 0)),
        ("receiving", &state(0, 2, 0, 0, 0)),
        ("sending", &state(0, 3, 2, 3, 0)),
        ("waiting on a semaphore", &state(0, 4, 2, 1, 0)),
        ("suspended in a delay", &state(1, 1, 0, 0, 1)),
    ];
    let first = byte(0, PLACE, 1);
    for (what, state) in states {
        b.unsound(what, &[state(0)]);
        b.sound(&format!("thread 10 {what}"), &[state(10), first.clone()]);
    }
    b.sound("thread 10 free", &[free(10), first.clone()]);
    b.sound(
        "thread 10 at priority 1",
        &[byte(10, PRIORITY, 1), first.clone(), in_line_1],
    );
    b.sound("first of its line", &[first, byte(10, PLACE, 2)]);
    b.sound("without mail", &[byte(0, FULL, 0), wide(0, VALUE, 0)]);
    b.sound(
        "outcome 0 and a parcel",
        &[byte(0, OUTCOME, 0), wide(0, PARCEL, 5)],
    );
    b.sound("longest turn", &[wide(0, TURN, TOP), wide(0, COUNTER, TOP)]);
    b
}
