//! Order 7 over the compiled door: one Ticks leaves the bytes, the code and the area of as many
//! single ticks of the door itself, and of the model's; the value of Nearest is checked against
//! single ticks.

use door::boards::{after, busy, deepest, init_runs, locked};
use door::{door, ticked, Hold, View};
use model::{at, fresh, operation as op, random_sound, record, show, Rng};
use model::{AREA, FOREVER, INIT, LONGEST, RECORD, TABLE, THREADS};

fn tick() -> [u8; RECORD] {
    record(op::TICK, 0, 0, 0, 0)
}

fn ticks(number: u32) -> [u8; RECORD] {
    record(op::TICKS, 0, 0, number, 0)
}

/// One Ticks of each table by its number, held to the model and to as many single ticks.
fn hold_to_single(origin: &str, cases: &[([u8; TABLE], u32)]) {
    let mut hold = Hold::new(origin);
    for ((table, number), single) in cases.iter().zip(ticked(cases)) {
        let at_once = hold.call(table, &ticks(*number), &[0x5A; AREA]);
        let same = at_once.code == 0 && at_once.area == [0; AREA] && at_once.table == single;
        let (before, after) = (show(table), show(&single));
        assert!(
            same,
            "{origin}: Ticks by {number}, and the door after single ticks\nbefore: {before}after: {after}"
        );
    }
    hold.finish();
}

/// A number of ticks for a table: few, many, or around the nearest end of a wait and around whole
/// rounds.
fn number_for(rng: &mut Rng, view: View) -> u32 {
    let (few, many) = (rng.between(1, 12), rng.between(1, 400));
    let nearest = (0..THREADS).filter_map(|i| view.left(i)).min();
    let near = rng.pick(&[nearest.unwrap_or(1), view.round(), 2 * view.round()]);
    let near = rng.pick(&[near, near + 1, near.saturating_sub(1)]);
    rng.pick(&[1, few, many, near.clamp(1, 400), near.clamp(1, 400)])
}

#[test]
fn one_call_is_as_many_single_ticks_on_random_tables() {
    for seed in 0..8 {
        let mut rng = Rng::new(77_000 + seed);
        let case = |_| {
            let table = random_sound(&mut rng);
            (table, number_for(&mut rng, View(&table)))
        };
        let cases: Vec<_> = (0..300).map(case).collect();
        hold_to_single(&format!("random tables, seed {}", 77_000 + seed), &cases);
    }
}

/// Init and 15 others of these turns in one rank.
fn rank_of_16(turn: impl Fn(u8) -> u32) -> [u8; TABLE] {
    let create = |i| (record(op::CREATE, i, 0, turn(i), 0), 0);
    let created: Vec<_> = (1..16).map(create).collect();
    after(fresh(), &created)
}

/// Init and 15 others in one rank, all with a turn of 1: a sound table, which no run leaves.
fn all_of_1() -> [u8; TABLE] {
    let mut table = after(rank_of_16(|_| 1), &[(record(op::YIELD, 0, 0, 0, 0), 0)]);
    for field in [at::TURN, at::COUNTER] {
        table[at::thread(INIT) + field] = 1;
    }
    table
}

/// 15 threads of a few ranks and turns, in waits of all kinds by these numbers; those that
/// `suspended` names are suspended.
fn waits(time: impl Fn(u8) -> u32, suspended: impl Fn(u8) -> bool) -> [u8; TABLE] {
    let mut records = vec![
        (record(op::MAKE, 0, 0, 0, 0), 0),
        (record(op::SEND_FROM_INTERRUPT, 0, 0, 0, 9), 0),
    ];
    for i in 1..16 {
        let wait = match i % 4 {
            0 => record(op::DELAY, 0, 0, time(i).min(LONGEST), 0),
            1 => record(op::RECEIVE, 0, 0, time(i), 0),
            2 => record(op::SEND, 0, 0, time(i), 5),
            _ => record(op::PEND, 0, 0, time(i), 0),
        };
        let turn = u32::from(i) % 5 + 1;
        records.push((record(op::CREATE, i, 7 + i % 3, turn, 0), 0));
        records.push((wait, 1));
        if suspended(i) {
            records.push((record(op::SUSPEND, i, 0, 0, 0), 0));
        }
    }
    after(fresh(), &records)
}

/// The longest and the shortest turn in one rank.
fn lanes(turns: [u32; 2]) -> [u8; TABLE] {
    let create = |(i, turn): (u8, u32)| (record(op::CREATE, i, 5, turn, 0), 0);
    after(fresh(), &[(1, turns[0]), (2, turns[1])].map(create))
}

/// Tables over which many ticks pass: full ranks, waits that end far apart and close together, lock.
fn quiet_boards() -> Vec<[u8; TABLE]> {
    let lock = (record(op::LOCK, 0, 0, 0, 0), 0);
    let mixed = rank_of_16(|i| u32::from(i) * 37 % 11 + 1);
    let far = waits(|i| 6_600 * u32::from(i), |_| false);
    let suspended = waits(|i| 5_003 * u32::from(i), |i| i % 3 == 0);
    let mut boards = vec![
        fresh(),
        rank_of_16(|_| 1),
        all_of_1(),
        mixed,
        rank_of_16(|i| LONGEST - u32::from(i)),
        waits(u32::from, |_| false),
        waits(|_| LONGEST, |i| i % 2 == 0),
        waits(|_| FOREVER, |_| false),
        far,
        suspended,
        lanes([LONGEST, 1]),
        lanes([2, 3]),
        busy(),
        init_runs(),
        deepest(),
    ];
    boards.extend([fresh(), mixed, far, suspended].map(|board| after(board, &[lock])));
    boards
}

#[test]
fn one_call_of_99_999_is_as_many_single_ticks() {
    let cases = quiet_boards().into_iter().map(|board| (board, LONGEST));
    hold_to_single("99,999 ticks", &cases.collect::<Vec<_>>());
}

/// Ticks by many different numbers of the same boards, held to the model alone.
#[test]
fn many_numbers_on_each_board() {
    let mut hold = Hold::new("many numbers on each board");
    let mut rng = Rng::new(77_100);
    for board in quiet_boards() {
        for _ in 0..6 {
            let number = rng.between(1, LONGEST);
            hold.expect(&board, &ticks(number), &[0x5A; AREA], 0);
        }
        for number in 1..=60 {
            hold.expect(&board, &ticks(number), &[0x5A; AREA], 0);
        }
    }
    hold.finish();
}

/// Ticks by one number and then by another are Ticks by the sum.
#[test]
fn ticks_add_up() {
    let mut rng = Rng::new(77_200);
    for board in quiet_boards() {
        for _ in 0..20 {
            let (one, other) = (rng.between(1, LONGEST / 2), rng.between(1, LONGEST / 2));
            let mut twice = board;
            for number in [one, other] {
                assert_eq!(door(&mut twice, &ticks(number), &mut [0; AREA]), 0);
            }
            let mut once = board;
            assert_eq!(door(&mut once, &ticks(one + other), &mut [0; AREA]), 0);
            assert!(once == twice, "{one} and {other}\n{}", show(&board));
        }
    }
}

/// The value of Nearest, which leaves the table alone.
fn nearest(hold: &mut Hold, table: &[u8; TABLE]) -> u32 {
    let asked = hold.call(table, &record(op::NEAREST, 0, 0, 0, 0), &[0x5A; AREA]);
    assert!(asked.code == 0 && asked.table == table);
    model::word(&asked.area, 4)
}

/// The door after so many ticks at once.
fn after_ticks(table: &[u8; TABLE], number: u32) -> [u8; TABLE] {
    let mut next = *table;
    if number > 0 {
        assert_eq!(door(&mut next, &ticks(number), &mut [0; AREA]), 0);
    }
    next
}

/// After one tick less than Nearest says all timed waits go on, and the next one ends one of them.
fn check_nearest(hold: &mut Hold, table: &[u8; TABLE]) -> u32 {
    let value = nearest(hold, table);
    let timed = View(table).timed();
    if value == 0 {
        assert_eq!(timed, 0, "{}", show(table));
        return 0;
    }
    let mut almost = after_ticks(table, value - 1);
    assert_eq!(View(&almost).timed(), timed, "{value}\n{}", show(table));
    assert_eq!(nearest(hold, &almost), 1);
    assert_eq!(door(&mut almost, &tick(), &mut [0; AREA]), 0);
    let then = View(&almost).timed();
    assert!(
        then != timed && then & !timed == 0,
        "{value}\n{}",
        show(table)
    );
    value
}

#[test]
fn nearest_is_the_number_of_ticks_to_the_next_end() {
    let mut hold = Hold::new("Nearest");
    let mut rng = Rng::new(77_300);
    let (mut none, mut some) = (0, 0);
    for _ in 0..4_000 {
        let value = check_nearest(&mut hold, &random_sound(&mut rng));
        none += usize::from(value == 0);
        some += usize::from(value > 1);
    }
    for board in quiet_boards().into_iter().chain([locked()]) {
        check_nearest(&mut hold, &board);
    }
    assert!(none > 200 && some > 200, "{none} of none, {some} of some");
    hold.finish();
}

/// The same by single ticks of the door, where the value is small.
#[test]
fn nearest_by_single_ticks() {
    let mut hold = Hold::new("Nearest by single ticks");
    let mut rng = Rng::new(77_400);
    let mut tables = Vec::new();
    while tables.len() < 200 {
        let time = rng.between(2, 300);
        let table = waits(|i| time + 7 * u32::from(i), |i| i % 5 == 0);
        let table = after_ticks(&table, rng.between(1, 60).min(time - 1));
        let value = nearest(&mut hold, &table);
        tables.push((table, value));
    }
    let before: Vec<_> = tables.iter().map(|(table, v)| (*table, v - 1)).collect();
    for ((table, _), (almost, then)) in tables
        .iter()
        .zip(ticked(&before).iter().zip(ticked(&tables)))
    {
        let timed = View(table).timed();
        assert_eq!(View(almost).timed(), timed, "{}", show(table));
        assert_ne!(View(&then).timed(), timed, "{}", show(table));
    }
    hold.finish();
}

/// A wait forever is no timed one, and Nearest is 0 beside it.
#[test]
fn nearest_of_a_wait_forever_is_0() {
    let mut hold = Hold::new("Nearest of a wait forever");
    let create = (record(op::CREATE, 3, 5, 2, 0), 0);
    for wait in [
        record(op::RECEIVE, 0, 0, FOREVER, 0),
        record(op::RECEIVE, 0, 0, u32::MAX, 0),
    ] {
        let board = after(fresh(), &[create, (wait, 1)]);
        assert_eq!(nearest(&mut hold, &board), 0);
        let delayed = [
            (record(op::CREATE, 4, 6, 2, 0), 0),
            (record(op::DELAY, 0, 0, 77, 0), 1),
            (record(op::SUSPEND, 4, 0, 0, 0), 0),
        ];
        assert_eq!(nearest(&mut hold, &after(board, &delayed)), 77);
    }
    hold.finish();
}

/// "−3 for 21 with 0 or above 99,999", and −8 for a field that is not used, on every board alike.
#[test]
fn the_boundaries_of_the_refusals() {
    let mut hold = Hold::new("the boundaries of the refusals");
    for board in quiet_boards() {
        for number in [0, 100_000, 100_001, 1 << 17, 1 << 31, u32::MAX] {
            hold.expect(&board, &ticks(number), &[0x5A; AREA], -3);
        }
        hold.expect(&board, &ticks(1), &[0x5A; AREA], 0);
        hold.expect(&board, &record(op::TICKS, 1, 0, 1, 0), &[0x5A; AREA], -8);
        hold.expect(&board, &record(op::TICKS, 0, 1, 0, 0), &[0x5A; AREA], -8);
        hold.expect(&board, &record(op::TICKS, 0, 0, 0, 1), &[0x5A; AREA], -8);
        hold.expect(&board, &record(op::NEAREST, 0, 0, 1, 0), &[0x5A; AREA], -8);
        hold.expect(&board, &record(op::NEAREST, 0, 0, 0, 1), &[0x5A; AREA], -8);
    }
    hold.finish();
}
