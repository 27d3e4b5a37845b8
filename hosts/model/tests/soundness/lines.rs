//! The bullets on places, counters and the running thread.

use crate::bullet::Bullet;
use crate::rich::*;

const TOP: u32 = 99_999;

pub fn places() -> Bullet {
    let mut b = Bullet::new("The n members of each line have places 1 to n, each once");
    for (first, second) in [(10, 0), (1, 2), (6, 7), (9, 8)] {
        b.bytes("first place", (first, PLACE), &[1], &[0, 2, 3, 255]);
        b.bytes("second place", (second, PLACE), &[2], &[0, 1, 3, 16, 255]);
        let from_2 = [byte(first, PLACE, 2), byte(second, PLACE, 3)];
        b.unsound(&format!("line of {first} from place 2"), &from_2);
        let from_0 = [byte(first, PLACE, 0), byte(second, PLACE, 1)];
        b.unsound(&format!("line of {first} from place 0"), &from_0);
    }
    for (first, second) in [(10, 0), (6, 7), (9, 8)] {
        let swapped = [byte(first, PLACE, 2), byte(second, PLACE, 1)];
        b.sound(&format!("line of {first} the other way round"), &swapped);
    }
    for outside in [3, 4, 5, 11] {
        b.bytes("place outside lines", (outside, PLACE), &[0], &[1, 2, 255]);
    }
    // The suspended sender and the suspended waiter stand behind another, then before it.
    b.unsound("suspended sender 7 in no line", &[byte(7, PLACE, 0)]);
    b.unsound("suspended waiter 8 in no line", &[byte(8, PLACE, 0)]);
    // Lines are apart: by priority, by receiver, by semaphore, and by sort.
    b.unsound(
        "10 among those of priority 5",
        &[byte(10, PRIORITY, 5), byte(0, PLACE, 1)],
    );
    let third = [byte(10, PRIORITY, 5), byte(0, PLACE, 1), byte(10, PLACE, 3)];
    b.sound("10 behind those of priority 5", &third);
    b.unsound("7 sends to 4 at place 2", &[byte(7, OBJECT, 4)]);
    b.sound(
        "7 sends to 4 at place 1",
        &[byte(7, OBJECT, 4), byte(7, PLACE, 1)],
    );
    b.unsound("8 waits on 2 at place 2", &[byte(8, OBJECT, 2)]);
    b.sound(
        "8 waits on 2 at place 1",
        &[byte(8, OBJECT, 2), byte(8, PLACE, 1)],
    );
    b.unsound(
        "8 waits on 2 at place 3",
        &[byte(8, OBJECT, 2), byte(8, PLACE, 3)],
    );
    b
}

pub fn counters() -> Bullet {
    let mut b = Bullet::new("Counter: at place 1 of a ready line, 1 to the turn [...] else 0");
    b.wides(
        "running at place 1",
        (1, COUNTER),
        &[1, 3],
        &[0, 4, u32::MAX],
    );
    b.wides(
        "place 1 of a lower line",
        (10, COUNTER),
        &[1, TOP],
        &[0, TOP + 1],
    );
    b.wides("later place", (2, COUNTER), &[4], &[0, 1, 3, 5]);
    b.wides("later place of Init", (0, COUNTER), &[10], &[0, 9, 11]);
    b.wides("delay", (4, COUNTER), &[1, TOP], &[0, TOP + 1, u32::MAX]);
    b.wides(
        "suspended in a delay",
        (11, COUNTER),
        &[1, TOP],
        &[0, TOP + 1],
    );
    for waiting in [5, 6, 7, 8, 9] {
        b.wides(
            "other wait",
            (waiting, COUNTER),
            &[0, 1, TOP],
            &[TOP + 1, u32::MAX],
        );
    }
    b.wides(
        "suspended, waiting for nothing",
        (3, COUNTER),
        &[0],
        &[1, 6],
    );
    b
}

pub fn running_thread() -> Bullet {
    let mut b = Bullet::new("The running thread is ready. With lock count 0 [...]");
    for ready in [0, 2, 10] {
        b.unsound(&format!("{ready} runs with lock 0"), &[running(ready)]);
        b.sound(
            &format!("{ready} runs with lock 1"),
            &[running(ready), lock(1)],
        );
        b.sound(
            &format!("{ready} runs with lock 255"),
            &[running(ready), lock(255)],
        );
    }
    for other in [3, 4, 5, 6, 7, 8, 9, 11, 12] {
        b.unsound(&format!("{other} runs with lock 0"), &[running(other)]);
        b.unsound(
            &format!("{other} runs with lock 1"),
            &[running(other), lock(1)],
        );
        b.unsound(
            &format!("{other} runs with lock 255"),
            &[running(other), lock(255)],
        );
    }
    b.sound("1 runs with lock 1", &[lock(1)]);
    let turned = [byte(1, PLACE, 2), byte(2, PLACE, 1), wide(1, COUNTER, 3)];
    b.unsound("1 runs at place 2 with lock 0", &turned);
    b.sound(
        "1 runs at place 2 with lock 1",
        &[&turned[..], &[lock(1)]].concat(),
    );
    b.sound("2 runs at place 1", &[&turned[..], &[running(2)]].concat());
    let raised = [
        byte(10, PRIORITY, 6),
        byte(0, PLACE, 1),
        ready_lines(&[0, 5, 6]),
    ];
    b.unsound("1 runs while 10 outranks it", &raised);
    b.sound(
        "1 runs while 10 outranks it, lock 1",
        &[&raised[..], &[lock(1)]].concat(),
    );
    b.sound(
        "10 runs and outranks 1",
        &[&raised[..], &[running(10)]].concat(),
    );
    let lowered = [
        byte(10, PRIORITY, 4),
        byte(0, PLACE, 1),
        ready_lines(&[0, 4, 5]),
    ];
    b.sound("1 runs and outranks 10", &lowered);
    b
}
