//! Order 8: Set priority and Set turn, operations 23 and 24, in the place of Set. "Our people change
//! a lane's turn and send along a stale priority."

mod common;

use std::collections::BTreeMap;

use common::*;
use model::{operation as op, random_sound, record, wait, Rng};

/// Threads 1, 2 and 3 of priority 5 with turns 3, 4 and 5, and 4 of priority 4 with turn 7; 1 runs
/// and has 2 ticks left.
fn lanes() -> Board {
    let mut board = Board::fresh();
    for (i, priority, turn) in [(1, 5, 3), (2, 5, 4), (3, 5, 5), (4, 4, 7)] {
        board.done(create(i, priority, turn));
    }
    board.ticks(1);
    assert_eq!((board.running(), board.seen(1).counter), (1, 2));
    board
}

/// "a ready thread whose priority differs goes to the new tail with a full counter"
#[test]
fn another_priority_is_the_new_tail_with_a_full_counter() {
    let before = lanes();
    let board = before.after(set_priority(1, 4));
    let want = Seen {
        priority: 4,
        place: 2,
        counter: 3,
        ..before.seen(1)
    };
    assert_eq!((board.seen(1), board.running()), (want, 2));
    assert_eq!(board.places([2, 3, 4]), [1, 2, 1]);
    assert_eq!(board.seen(4), before.seen(4));
    // Where it outranks the others it runs, and the one that ran keeps its place and counter.
    let board = before.after(set_priority(3, 6));
    assert_eq!((board.running(), board.places([3, 1, 2])), (3, [1, 1, 2]));
    assert_eq!((board.seen(3).counter, board.seen(1).counter), (5, 2));
    // Init's own line has a tail too.
    let board = before.after(set_priority(1, 0));
    assert_eq!((board.running(), board.places([0, 1])), (2, [1, 2]));
}

/// "the same priority changes nothing": neither place nor counter, whatever the thread does.
#[test]
fn the_same_priority_changes_nothing() {
    let mut rng = Rng::new(81);
    let random = (0..1_000).map(|_| Board {
        table: random_sound(&mut rng),
    });
    let made = [lanes(), lanes().after(lock()), busy(), busy_locked()];
    for board in random.chain(made) {
        for i in (1..16).filter(|&i| !board.is_free(i)) {
            let same = board.after(set_priority(i as u8, board.seen(i).priority));
            assert!(same.table == board.table, "thread {i}");
        }
    }
}

/// "a ready thread takes a full counter and keeps its place": the running thread goes on running, also
/// with a turn that is the same, and with one below what it had left.
#[test]
fn another_turn_fills_the_counter_and_keeps_the_place() {
    for before in [lanes(), lanes().after(lock())] {
        for turn in [1, 2, 3, 9, 99_999] {
            for i in [1, 2, 3, 4] {
                let board = before.after(set_turn(i, turn));
                let i = usize::from(i);
                let want = Seen {
                    turn,
                    counter: turn,
                    ..before.seen(i)
                };
                assert_eq!((board.seen(i), board.running()), (want, 1));
                board.only_changed(&before, &[i]);
            }
        }
    }
    let mut board = lanes().after(set_turn(1, 1));
    board.ticks(1);
    assert_eq!((board.running(), board.places([2, 3, 1])), (2, [1, 2, 3]));
}

/// "otherwise only the turn changes", and of 23 only the priority: a wait goes on with its counter, and
/// in its line nobody's place changes.
#[test]
fn a_thread_that_is_not_ready_gets_the_setting_alone() {
    let one = busy().after(suspend(4)).after(suspend(6));
    for before in [busy(), busy_locked(), one] {
        for i in [3, 4, 5, 6, 7] {
            let priority = before.after(set_priority(i, 31));
            let turn = before.after(set_turn(i, 99_999));
            let i = usize::from(i);
            let (mut ranked, mut longer) = (before.seen(i), before.seen(i));
            ranked.priority = 31;
            longer.turn = 99_999;
            assert_eq!((priority.seen(i), turn.seen(i)), (ranked, longer));
            priority.only_changed(&before, &[i]);
            turn.only_changed(&before, &[i]);
        }
    }
    let waiters = waiters(4, &[2]);
    for i in 1..=4 {
        let board = waiters.after(set_priority(i, 31)).after(set_turn(i, 1));
        assert_eq!(board.places([1, 2, 3, 4]), [1, 2, 3, 4]);
    }
}

/// The new settings hold when the wait ends, or the thread is resumed.
#[test]
fn the_settings_hold_when_the_thread_is_ready_again() {
    for (i, again) in [(4, cancel(4)), (7, abort(7)), (3, resume(3))] {
        let board = busy().after(set_priority(i, 3)).after(set_turn(i, 11));
        let board = board.after(again);
        let seen = board.seen(usize::from(i));
        assert_eq!((seen.priority, seen.turn, seen.counter), (3, 11, 11));
        assert_eq!((seen.place, board.running()), (1, 1));
    }
}

/// Under lock the running thread goes to the new tail and runs on, until the lock is off.
#[test]
fn the_running_thread_under_lock() {
    let locked = lanes().after(lock());
    for (priority, place) in [(4, 2), (0, 2), (31, 1)] {
        let board = locked.after(set_priority(1, priority));
        let seen = board.seen(1);
        assert_eq!((seen.priority, seen.place), (priority, place));
        assert_eq!((seen.counter, board.running()), (3, 1));
        let first = if priority == 31 { 1 } else { 2 };
        assert_eq!(board.after(unlock()).running(), first);
    }
    // Behind the others of its own line it keeps its place with another turn.
    let behind = locked.after(set_priority(1, 6)).after(set_priority(1, 5));
    assert_eq!((behind.running(), behind.places([2, 3, 1])), (1, [1, 2, 3]));
    let board = behind.after(set_turn(1, 8));
    assert_eq!((board.seen(1).counter, board.seen(1).place), (8, 3));
}

/// "a stale priority" sent along with a turn is refused, and so is a turn sent along with a priority.
#[test]
fn a_setting_that_is_sent_along_is_refused() {
    let mut board = lanes();
    for priority in [1, 4, 5, 31, 32, 255] {
        board.refused(record(op::SET_TURN, 1, priority, 9, 0), -8);
    }
    for turn in [1, 3, 9, 99_999, 100_000, u32::MAX] {
        board.refused(record(op::SET_PRIORITY, 1, 4, turn, 0), -8);
    }
    board.refused(record(op::SET_PRIORITY, 1, 4, 0, 1), -8);
    board.refused(record(op::SET_TURN, 1, 0, 9, 1), -8);
    board.done(set_turn(1, 9));
    board.done(set_priority(1, 4));
}

/// "Operation 3 is gone": whatever its fields say, it is refused as malformed.
#[test]
fn operation_3_is_gone() {
    for board in [Board::fresh(), lanes(), busy(), busy_locked(), busy_init()] {
        for i in (0..=17).chain([255]) {
            for (priority, turn) in [(5, 3), (31, 99_999), (0, 1), (32, 3), (5, 0), (0, 0)] {
                board.clone().refused(former_set(i, priority, turn), -8);
            }
        }
    }
}

/// What the thread does that a Set names.
fn sort(board: &Board, i: usize, priority: u8) -> &'static str {
    let seen = board.seen(i);
    let moves = seen.priority != priority;
    match seen.wait.0 {
        wait::NONE if seen.suspended => "suspended",
        wait::NONE if i == board.running() && board.lock() > 0 && moves => "runs under lock, moves",
        wait::NONE if i == board.running() && moves => "runs, moves",
        wait::NONE if i == board.running() => "runs, stays",
        wait::NONE if moves => "is ready, moves",
        wait::NONE => "is ready, stays",
        wait::DELAY | wait::RECEIVE => "waits in no line",
        _ if seen.suspended => "waits in a line, suspended",
        _ => "waits in a line",
    }
}

/// Set as it was is 24 and then 23, and 23 and then 24, wherever it was accepted. Where it was refused,
/// one of the two is refused for the same reason. Gives the code that it had.
fn set_was_both(board: &Board, i: u8, priority: u8, turn: u32) -> i32 {
    let (code, wanted) = former::set(&board.table, i, priority, turn);
    let (rank, length) = (set_priority(i, priority), set_turn(i, turn));
    if code != 0 {
        let codes = [rank, length].map(|half| board.clone().ask(&half).0);
        assert!(codes.contains(&code), "{code} of Set, and {codes:?}");
        return code;
    }
    for [first, second] in [[length, rank], [rank, length]] {
        let after = board.after(first).after(second);
        let case = || {
            case(
                &board.table,
                &second,
                &after.table,
                "Set left another table",
            )
        };
        assert!(after.table == wanted, "{}", case());
    }
    code
}

#[test]
fn set_as_it_was_is_24_and_then_23() {
    let mut rng = Rng::new(80);
    let mut met = BTreeMap::new();
    for _ in 0..60_000 {
        let board = Board {
            table: random_sound(&mut rng),
        };
        let (i, priority, turn) = former::random_fields(&mut rng, &board.table);
        let sort = match set_was_both(&board, i, priority, turn) {
            0 => sort(&board, i.into(), priority),
            _ => "is refused",
        };
        *met.entry(sort).or_insert(0) += 1;
    }
    assert_eq!(met.len(), 10, "{met:?}");
    assert!(met.values().all(|&times| times > 100), "{met:?}");
}

/// Two calls are not one: of a bad priority 23 tells only when 24 has changed the turn, and the other
/// way round. Set as it was changed nothing then.
#[test]
fn a_refused_half_leaves_the_other_half_done() {
    let before = lanes();
    assert_eq!(former::set(&before.table, 1, 32, 9), (-2, before.table));
    let mut board = before.after(set_turn(1, 9));
    board.refused(set_priority(1, 32), -2);
    assert_eq!((board.seen(1).turn, board.seen(1).counter), (9, 9));
    assert_eq!(former::set(&before.table, 1, 4, 0), (-3, before.table));
    let mut board = before.after(set_priority(1, 4));
    board.refused(set_turn(1, 0), -3);
    assert_eq!((board.seen(1).priority, board.running()), (4, 2));
}
