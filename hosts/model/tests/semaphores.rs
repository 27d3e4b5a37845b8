//! The operations on semaphores: Make, Drop, Pend, Abort, Post and Post from interrupt.

mod common;

use common::*;
use model::{at, show_record, wait};

/// Waiters 5 (priority 3), 2 (priority 9), 7 (priority 3, suspended) and 3 (priority 6) on
/// semaphore 4, in this order; Init runs.
fn four_waiters() -> Board {
    let mut board = Board::fresh();
    board.done(make(4, 0));
    for (ahead, (i, priority)) in (0..).zip([(5, 3), (2, 9), (7, 3), (3, 6)]) {
        board.done(create(i, priority, 8));
        board.behind(pend(4, 100_000), ahead);
    }
    board.done(suspend(7));
    assert_eq!(
        (board.running(), board.places([5, 2, 7, 3])),
        (0, [1, 2, 3, 4])
    );
    board
}

#[test]
fn make_stores_the_number_as_the_count() {
    for number in [0, 1, 98, 99] {
        let before = Board::fresh();
        let board = before.after(make(7, number));
        let mut want = [0; 24];
        want[at::IN_USE] = 1;
        want[at::COUNT] = number as u8;
        assert_eq!(board.record(23), want);
        board.only_changed(&before, &[23]);
    }
}

/// "Drop: its waiters end with −5 in line order."
#[test]
fn drop_ends_its_waiters_in_line_order_and_frees_the_record() {
    let mut board = four_waiters();
    // All of one rank, so that line order shows in the places.
    for i in [5, 2, 7, 3] {
        board.done(set_priority(i, 6));
    }
    board.done(drop_semaphore(4));
    assert_eq!(board.record(20), [0; 24]);
    assert_eq!(
        (board.running(), board.places([5, 2, 3, 7])),
        (5, [1, 2, 3, 0])
    );
    for i in [5, 2, 7, 3] {
        board.expect(outcome_of(i), (-5, 0));
    }
    board.refused(drop_semaphore(4), -6);
    board.done(make(4, 99));
    board.done(drop_semaphore(4));
    assert_eq!(board.record(20), [0; 24]);
}

/// "Pend: with count above 0 takes one and the value is what is left; else must wait."
#[test]
fn pend_takes_one_and_names_what_is_left() {
    let mut board = Board::fresh();
    board.done(make(0, 99));
    for left in (0..99).rev() {
        let before = board.clone();
        board.expect(pend(0, left), (0, left));
        assert_eq!(u32::from(board.count(0)), left);
        board.only_changed(&before, &[16]);
    }
    board.refused(pend(0, 1), -5);
    board.done(create(1, 5, 3));
    board.refused(pend(0, 0), -5);
    board.blocked(pend(0, 1));
    assert_eq!(board.seen(1).wait, (wait::SEMAPHORE, 0));
}

/// "Units go to waiters in line order, priority notwithstanding (001); each such wait ends with
/// 0; the rest is added to the count."
#[test]
fn post_serves_in_line_order_and_adds_the_rest() {
    let order = [5, 2, 7, 3];
    for post in [post, interrupt_post] {
        for (number, count) in [(1, 0), (2, 0), (3, 0), (4, 0), (5, 1), (6, 2), (99, 95)] {
            let mut board = four_waiters().after(post(4, number));
            assert_eq!(board.count(4), count, "Post {number}");
            for (index, i) in order.into_iter().enumerate() {
                let served = index < number as usize;
                board.expect(outcome_of(i), (i32::from(!served), 0));
                let seen = board.seen(usize::from(i));
                if served {
                    let counter = if i == 7 { 0 } else { 8 };
                    let place = if i == 7 { 0 } else { 1 };
                    assert_eq!((seen.counter, seen.place), (counter, place));
                } else {
                    let place = (index + 1 - number as usize) as u8;
                    assert_eq!((seen.wait, seen.place), ((wait::SEMAPHORE, 4), place));
                }
            }
            assert_eq!(board.running(), if number == 1 { 5 } else { 2 });
        }
    }
}

#[test]
fn post_without_waiters_adds_all() {
    for post in [post, interrupt_post] {
        let before = Board::fresh().after(make(0, 40));
        let board = before.after(post(0, 59));
        assert_eq!(board.count(0), 99);
        board.only_changed(&before, &[16]);
        before.clone().refused(post(0, 60), -5);
    }
}

/// The threads that wait on semaphore 4.
fn who_waits(board: &Board) -> Vec<u8> {
    let waits = |&i: &u8| board.record(i.into())[3..5] == [wait::SEMAPHORE, 4];
    (0..16).filter(waits).collect()
}

/// This Post to semaphore 4 serves all its waiters, each with outcome 0, and leaves this count.
fn leaves(before: &Board, post: [u8; 12], count: u32) {
    let mut board = before.after(post);
    assert_eq!(u32::from(board.count(4)), count, "{}", show_record(&post));
    for i in who_waits(before) {
        board.expect(outcome_of(i), (0, 0));
        assert_eq!(board.seen(i.into()).wait, (wait::NONE, 0), "thread {i}");
    }
}

/// Each of these numbers, posted from a thread and from an interrupt, leaves the count beside it.
fn each_leaves(board: &Board, numbers: impl IntoIterator<Item = (u32, u32)>) {
    for (number, count) in numbers {
        leaves(board, post(4, number), count);
        leaves(board, interrupt_post(4, number), count);
    }
}

/// Each of these numbers, posted from a thread and from an interrupt, is −5 and leaves the table.
fn each_refused(board: &Board, numbers: impl IntoIterator<Item = u32>) {
    for number in numbers {
        board.clone().refused(post(4, number), -5);
        board.clone().refused(interrupt_post(4, number), -5);
    }
}

/// Order 4: "From now on Post, from threads and interrupts, answers −5 for number 0 or when the
/// count plus the units left over after the waiters are served is above 99."
#[test]
fn post_counts_only_what_is_left_over() {
    let board = four_waiters();
    each_leaves(&board, [(4, 0), (99, 95), (100, 96), (102, 98), (103, 99)]);
    each_refused(&board, [0, 104, 105, u32::MAX]);
}

/// Order 4: "a post of 100 with three waiting gets −5, though only 97 would be left." A suspended
/// waiter stands in the line, so its unit is not left over.
#[test]
fn post_of_100_with_three_waiting_leaves_97_whoever_is_suspended() {
    let some: [&[u8]; 7] = [&[], &[1], &[2], &[3], &[1, 2], &[1, 3], &[2, 3]];
    for suspended in some.into_iter().chain([&[1, 2, 3][..]]) {
        let board = waiters(3, suspended);
        each_leaves(&board, [(3, 0), (99, 96), (100, 97), (101, 98), (102, 99)]);
        each_refused(&board, [0, 103, 104, u32::MAX]);
    }
}

/// After the waiters are served 0 to 99 units may be left over, and not more.
#[test]
fn each_waiter_lets_post_take_one_unit_more() {
    for number in 0..=15 {
        let (board, served) = (waiters(number, &[]), u32::from(number));
        let taken = served.max(1)..=served + 99;
        each_leaves(&board, taken.map(|units| (units, units - served)));
        each_refused(&board, (served + 100..=served + 130).chain([0]));
    }
}

/// With nobody waiting all units are left over.
#[test]
fn post_without_waiters_is_refused_where_count_and_number_are_above_99() {
    for count in 0..=99 {
        let board = Board::fresh().after(make(4, count));
        let taken = (1..=99 - count).map(|number| (number, count + number));
        each_leaves(&board, taken);
        each_refused(&board, (100 - count..=130).chain([0]));
    }
}

/// Numbers that would be small without their upper bits, and those at which a sum of 32 bits would
/// wrap, with every number of waiters and with every count.
#[test]
fn post_of_a_number_up_to_the_top_of_32_bits_wraps_nowhere() {
    let lines = (0..=15).map(|number| (waiters(number, &[]), u32::from(number)));
    let counts = (1..=99).map(|count| (Board::fresh().after(make(4, count)), 0));
    for (board, served) in lines.chain(counts) {
        let around = |power: u32| power - served..=power + served + 100;
        each_refused(&board, [256, 65_536, 1 << 31].into_iter().flat_map(around));
        each_refused(&board, u32::MAX - 120..=u32::MAX);
    }
}

/// Order 4 leaves "from an interrupt also under lock" as it is.
#[test]
fn under_lock_a_thread_posts_up_to_the_same_limit_and_an_interrupt_nothing() {
    let board = waiters(3, &[2]).after(lock());
    for (number, count) in [(3, 0), (99, 96), (100, 97), (102, 99)] {
        leaves(&board, post(4, number), count);
        assert_eq!(board.after(post(4, number)).running(), 0);
        board.clone().refused(interrupt_post(4, number), -5);
    }
    each_refused(&board, [0, 103, 104, u32::MAX]);
}

#[test]
fn served_waiters_of_one_rank_become_ready_in_line_order() {
    let mut board = four_waiters();
    for i in [5, 2, 7, 3] {
        board.done(set_priority(i, 6));
    }
    board.done(post(4, 4));
    assert_eq!((board.running(), board.places([5, 2, 3])), (5, [1, 2, 3]));
}

/// A waiter that timed out has left the line: the next unit goes to the next waiter.
#[test]
fn a_unit_never_goes_to_a_waiter_that_timed_out() {
    let mut board = Board::fresh();
    board.done(make(4, 0));
    board.done(create(1, 3, 8));
    board.blocked(pend(4, 1));
    board.done(create(2, 3, 8));
    board.behind(pend(4, 100_000), 1);
    board.ticks(1);
    board.expect(outcome_of(1), (-5, 0));
    board.done(interrupt_post(4, 1));
    board.expect(outcome_of(1), (-5, 0));
    board.expect(outcome_of(2), (0, 0));
    assert_eq!(board.count(4), 0);
}

#[test]
fn post_under_lock_serves_without_a_change_of_the_running_thread() {
    let mut board = four_waiters().after(lock());
    board.refused(interrupt_post(4, 1), -5);
    board.done(post(4, 2));
    assert_eq!((board.running(), board.seen(2).place), (0, 1));
    board.done(unlock());
    assert_eq!(board.running(), 2);
}

/// "Cancel, Abort: the wait ends with −5."
#[test]
fn abort_ends_a_semaphore_wait_with_failure() {
    let before = four_waiters();
    let board = before.after(abort(2));
    let want = Seen {
        wait: (0, 0),
        place: 1,
        outcome: -5,
        counter: 8,
        ..before.seen(2)
    };
    assert_eq!((board.seen(2), board.running()), (want, 2));
    assert_eq!(board.places([5, 7, 3]), [1, 2, 3]);
    let suspended = before.after(abort(7));
    assert_eq!((suspended.running(), suspended.seen(7).place), (0, 0));
    assert_eq!(suspended.seen(7).outcome, -5);
}
