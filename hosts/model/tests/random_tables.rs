//! Random sound tables: each is sound, and all sorts occur, also those that no run reaches.

mod common;

use std::collections::BTreeMap;

use common::*;
use model::{random_sound, show, sound, spoil, wait, Rng};

/// How often each sort occurs.
type Sorts = BTreeMap<String, u32>;

fn count(sorts: &mut Sorts, name: String, occurs: bool) {
    *sorts.entry(name).or_insert(0) += u32::from(occurs);
}

/// The boundary on which a number stands.
fn edge(number: u32, top: u32) -> &'static str {
    match number {
        0 => "0",
        1 => "1",
        _ if number == top => "the top",
        _ => "between",
    }
}

const KINDS: [&str; 5] = ["no wait", "delay", "receive", "send", "semaphore"];

fn count_thread(sorts: &mut Sorts, board: &Board, i: usize) {
    let seen = board.seen(i);
    let kind = KINDS[usize::from(seen.wait.0)];
    for suspended in [false, true] {
        let name = format!("{kind}, suspended {suspended}");
        count(sorts, name, seen.suspended == suspended);
    }
    let sort = match (seen.wait.0, seen.place) {
        (wait::NONE, 0) => "suspended for nothing",
        (wait::NONE, 1) => "place 1 of a ready line",
        (wait::NONE, _) => "later place of a ready line",
        _ => kind,
    };
    let ready = seen.wait.0 == wait::NONE;
    let top = if ready { seen.turn } else { 99_999 };
    count(
        sorts,
        format!("{sort}, counter {}", edge(seen.counter, top)),
        true,
    );
    count(sorts, format!("{sort}, outcome {}", seen.outcome), true);
    count(sorts, format!("{sort}, parcel {}", seen.parcel != 0), true);
    count(sorts, format!("turn {}", edge(seen.turn, 99_999)), true);
    let length = (1..16).filter(|&place| seen.place > place).count();
    count(
        sorts,
        format!("{kind} line of {length} before"),
        seen.place > 0,
    );
    let senders = (0..16).filter(|&j| sends_to(board, j, i)).count();
    let mailbox = format!(
        "mailbox full {}, senders {}",
        seen.mailbox.is_some(),
        senders.min(3)
    );
    count(sorts, mailbox, true);
    count(
        sorts,
        format!("full of {}", seen.mailbox == Some(0)),
        seen.mailbox.is_some(),
    );
    let sending_with_senders = seen.wait.0 == wait::SEND && senders > 0;
    count(sorts, "a sender with senders".into(), sending_with_senders);
    let each_other = seen.wait.0 == wait::SEND && sends_to(board, usize::from(seen.wait.1), i);
    count(sorts, "senders to each other".into(), each_other);
}

fn sends_to(board: &Board, from: usize, to: usize) -> bool {
    !board.is_free(from) && board.seen(from).wait == (wait::SEND, to as u8)
}

fn count_table(sorts: &mut Sorts, board: &Board) {
    let used: Vec<usize> = (0..16).filter(|&i| !board.is_free(i)).collect();
    for &i in &used {
        count_thread(sorts, board, i);
    }
    let init = board.seen(0);
    count(sorts, format!("Init outcome {}", init.outcome), true);
    count(sorts, "Init at a later place".into(), init.place > 1);
    count(sorts, "Init has mail".into(), init.mailbox.is_some());
    let to_init = (1..16).any(|j| sends_to(board, j, 0));
    count(sorts, "Init has senders".into(), to_init);
    count(sorts, "all threads in use".into(), used.len() == 16);
    count(sorts, "only Init in use".into(), used.len() == 1);
    count(
        sorts,
        format!("lock {}", edge(u32::from(board.lock()), 255)),
        true,
    );
    let running = board.seen(board.running());
    let ready = used
        .iter()
        .map(|&i| board.seen(i))
        .filter(|seen| seen.wait.0 == 0);
    let outranked = ready
        .filter(|seen| !seen.suspended)
        .any(|seen| seen.priority > running.priority);
    count(
        sorts,
        "running, not first of its line".into(),
        running.place > 1,
    );
    count(sorts, "running, outranked".into(), outranked);
    count(
        sorts,
        "running with a turn in part used".into(),
        running.counter < running.turn,
    );
    let word = board.ready_word();
    for line in 0..32 {
        count(sorts, format!("bit {line} {}", word >> line & 1), true);
    }
    let lines = word.count_ones().min(8);
    count(sorts, format!("{lines} ready lines with members"), true);
    for s in 0..8 {
        let free = board.is_free(16 + s);
        count(sorts, "semaphore free".into(), free);
        count(
            sorts,
            format!("count {}", edge(u32::from(board.count(s)), 99)),
            !free,
        );
    }
}

/// Every sort that must occur.
fn wanted() -> Vec<String> {
    let mut names: Vec<String> = Vec::new();
    for kind in KINDS {
        names.extend([
            format!("{kind}, suspended false"),
            format!("{kind}, suspended true"),
        ]);
    }
    for kind in ["no wait", "send", "semaphore"] {
        names.extend((0..=7).map(|length| format!("{kind} line of {length} before")));
    }
    for kind in ["receive", "send", "semaphore"] {
        names.extend(["0", "1", "between", "the top"].map(|at| format!("{kind}, counter {at}")));
    }
    for kind in ["place 1 of a ready line", "delay"] {
        names.extend(["1", "between", "the top"].map(|at| format!("{kind}, counter {at}")));
    }
    for sort in KINDS[1..].iter() {
        names.push(format!("{sort}, outcome 1"));
    }
    for sort in [
        "suspended for nothing",
        "place 1 of a ready line",
        "later place of a ready line",
    ] {
        names.extend([1, 0, -5].map(|outcome| format!("{sort}, outcome {outcome}")));
        names.push(format!("{sort}, parcel true"));
    }
    names.extend(["send, parcel true", "send, parcel false"].map(String::from));
    names.extend(["1", "between", "the top"].map(|at| format!("turn {at}")));
    names.push("mailbox full false, senders 0".into());
    names.extend((0..=3).map(|senders| format!("mailbox full true, senders {senders}")));
    names.extend([1, 0, -5].map(|outcome| format!("Init outcome {outcome}")));
    for at in ["0", "1", "between", "the top"] {
        names.extend([format!("lock {at}"), format!("count {at}")]);
    }
    names.push("bit 0 1".into());
    names.extend((1..32).flat_map(|line| [0, 1].map(|bit| format!("bit {line} {bit}"))));
    names.extend((1..=8).map(|lines| format!("{lines} ready lines with members")));
    let others = [
        "full of true",
        "full of false",
        "a sender with senders",
        "senders to each other",
        "Init at a later place",
        "Init has mail",
        "Init has senders",
        "all threads in use",
        "only Init in use",
        "running, not first of its line",
        "running, outranked",
        "running with a turn in part used",
        "semaphore free",
    ];
    names.extend(others.map(String::from));
    names
}

#[test]
fn every_random_table_is_sound_and_all_sorts_occur() {
    let mut rng = Rng::new(1);
    let mut sorts = Sorts::new();
    for number in 0..20_000 {
        let table = random_sound(&mut rng);
        assert!(sound(&table), "table {number} of seed 1\n{}", show(&table));
        count_table(&mut sorts, &Board { table });
    }
    for name in wanted() {
        let times = sorts.get(&name).copied().unwrap_or(0);
        assert!(times >= 20, "{name}: {times} times");
    }
}

#[test]
fn equal_seeds_give_equal_tables() {
    let (mut one, mut same, mut other) = (Rng::new(7), Rng::new(7), Rng::new(8));
    let table = random_sound(&mut one);
    assert!(table == random_sound(&mut same));
    assert!(table != random_sound(&mut other));
}

#[test]
fn a_spoilt_table_is_often_unsound_and_then_refused() {
    let mut rng = Rng::new(2);
    let mut unsound = 0;
    for _ in 0..20_000 {
        let mut table = random_sound(&mut rng);
        spoil(&mut rng, &mut table);
        let before = table;
        let mut area = UNWRITTEN;
        let code = model::door(&mut table, &tick(), &mut area);
        assert_eq!(code == -7, !sound(&before));
        if code == -7 {
            assert!(table == before && area == UNWRITTEN, "{}", show(&before));
            unsound += 1;
        }
    }
    assert!(
        (10_000..20_000).contains(&unsound),
        "{unsound} unsound of 20000"
    );
}
