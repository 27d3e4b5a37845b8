//! The bullets on wait objects, mailboxes, outcomes and parcels.

use crate::bullet::Bullet;
use crate::rich::*;

pub fn wait_objects() -> Bullet {
    let mut b = Bullet::new("Wait object: for a send, another thread [...]; else 0");
    let sends_to = |object| [byte(6, OBJECT, object), byte(7, PLACE, 1)];
    b.sound("a send to Init, which has mail", &sends_to(0));
    b.sound("a send to a thread in a delay with mail", &sends_to(4));
    for (what, object) in [
        ("free", 12),
        ("empty", 1),
        ("empty", 7),
        ("no", 16),
        ("no", 255),
    ] {
        b.unsound(
            &format!("a send to the {what} thread {object}"),
            &sends_to(object),
        );
    }
    let own = [byte(6, FULL, 1), byte(6, OBJECT, 6), byte(7, PLACE, 1)];
    b.unsound("a send to oneself", &own);
    let each_other = [byte(6, FULL, 1), byte(7, FULL, 1), byte(6, OBJECT, 7)];
    let mut each_other = each_other.to_vec();
    each_other.extend([byte(7, OBJECT, 6), byte(7, PLACE, 1)]);
    b.sound("sends to each other", &each_other);
    b.unsound(
        "the receiver's mailbox emptied",
        &[byte(2, FULL, 0), wide(2, VALUE, 0)],
    );
    b.unsound("the receiver freed", &[free(2)]);
    let waits_on = |object| [byte(9, OBJECT, object), byte(8, PLACE, 1)];
    b.sound("a wait on semaphore 2 with count 0", &waits_on(2));
    for (what, object) in [
        ("count 99", 0),
        ("count 1", 3),
        ("free", 4),
        ("no", 8),
        ("no", 255),
    ] {
        b.unsound(
            &format!("a wait on semaphore {object}, {what}"),
            &waits_on(object),
        );
    }
    b.unsound("the semaphore has a count", &[byte(17, 1, 1)]);
    b.unsound("the semaphore freed", &[free(17)]);
    for other in [0, 1, 2, 3, 4, 5, 10, 11] {
        b.bytes(
            "object without send or semaphore",
            (other, OBJECT),
            &[0],
            &[1, 2, 255],
        );
    }
    b.unsound("a receiver with a full mailbox", &[byte(5, FULL, 1)]);
    b.unsound(
        "a receiver with mail",
        &[byte(5, FULL, 1), wide(5, VALUE, 3)],
    );
    let suspended = [byte(5, FULL, 1), byte(5, SUSPENDED, 1)];
    b.unsound("a suspended receiver with a full mailbox", &suspended);
    b.sound("a suspended receiver", &[byte(5, SUSPENDED, 1)]);
    for other in [1, 3, 6, 7, 8, 9, 10, 11] {
        b.sound(
            &format!("{other} has mail"),
            &[byte(other, FULL, 1), wide(other, VALUE, 3)],
        );
    }
    b
}

pub fn mail() -> Bullet {
    let mut b = Bullet::new("An empty mailbox holds value 0. [...] or its outcome is 0");
    for empty in [1, 3, 5, 6, 7, 8, 9, 10, 11] {
        b.wides(
            "value of an empty mailbox",
            (empty, VALUE),
            &[0],
            &[1, 1 << 8, 1 << 31],
        );
    }
    for full in [0, 2, 4] {
        b.wides(
            "value of a full mailbox",
            (full, VALUE),
            &[0, 1, u32::MAX],
            &[],
        );
    }
    for waiting in [4, 5, 8, 9, 11] {
        b.bytes(
            "outcome of a waiting thread",
            (waiting, OUTCOME),
            &[1],
            &[0, 251],
        );
        b.wides(
            "parcel of a waiting thread",
            (waiting, PARCEL),
            &[0],
            &[1, 1 << 31],
        );
    }
    for sending in [6, 7] {
        b.bytes("outcome of a sender", (sending, OUTCOME), &[1], &[0, 251]);
        b.wides(
            "parcel of a sender",
            (sending, PARCEL),
            &[0, 1, u32::MAX],
            &[],
        );
    }
    for done in [2, 3] {
        b.wides(
            "parcel with outcome 0",
            (done, PARCEL),
            &[0, 1, u32::MAX],
            &[],
        );
        b.bytes("outcome with a parcel", (done, OUTCOME), &[0], &[1, 251]);
    }
    for other in [0, 1, 10] {
        b.wides(
            "parcel without outcome 0",
            (other, PARCEL),
            &[0],
            &[1, 1 << 16],
        );
    }
    b
}
