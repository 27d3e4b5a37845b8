//! Reports of random traces: what holds of each of them, and that these traces tell the report from
//! every one that misreads order 5 in one point. The compiled program is held to the model on such
//! traces, so that one which misreads the order would be found.

mod common;

use common::steps::{steps, Step};
use common::*;
use model::{operation as op, random_trace, report, Rng};

/// How many traces are made, of up to 600 records.
const TRACES: u64 = 600;

/// So many of the traces at least have to tell a misreading from the order.
const ENOUGH: usize = 60;

/// What a report gets wrong.
#[derive(Clone, Copy, Debug, PartialEq)]
enum Misread {
    Nothing,
    /// A tick is charged to the thread that runs after it.
    ChargedToTheNext,
    ChargedUnderLock,
    ChargedWhereRefused,
    /// Ticks at once are charged as one.
    TicksAsOne,
    /// Ticks at once are charged to the thread that ran before all of them.
    TicksToTheFirst,
    /// Charges go on, from one life of a thread to its next.
    CreateKeeps,
    /// Charges begin anew, at other steps than an accepted Create.
    RefusedCreateResets,
    SetPriorityResets,
    SetTurnResets,
    SuspendResets,
    WaitResets,
    /// The two sides of the lag stand the other way round.
    Swapped,
    /// The sums are over other threads than the ready ones of the rank.
    SumsOfAllReady,
    SumsOfNotReadyToo,
    /// All ticks are those charged to the rank, whoever had it then.
    ChargesOfTheRank,
    /// A thread that is not ready has a lag.
    LagOfNotReady,
    PriorityOfTheCreation,
    TurnOfTheCreation,
    /// A deleted thread keeps its line.
    DeletedHasLine,
}

use Misread::*;

const EACH: [Misread; 19] = [
    ChargedToTheNext,
    ChargedUnderLock,
    ChargedWhereRefused,
    TicksAsOne,
    TicksToTheFirst,
    CreateKeeps,
    RefusedCreateResets,
    SetPriorityResets,
    SetTurnResets,
    SuspendResets,
    WaitResets,
    Swapped,
    SumsOfAllReady,
    SumsOfNotReadyToo,
    ChargesOfTheRank,
    LagOfNotReady,
    PriorityOfTheCreation,
    TurnOfTheCreation,
    DeletedHasLine,
];

/// A thread at the end.
#[derive(Clone, Copy, Default)]
struct Lane {
    in_use: bool,
    ready: bool,
    priority: u8,
    turn: i128,
    charged: i128,
    /// It was in use once.
    known: bool,
}

/// The threads at the end, with what was charged to them.
fn lanes(misread: Misread, steps: &[Step], board: &Board) -> [Lane; 16] {
    let mut lanes = [Lane::default(); 16];
    lanes[0].known = true;
    for step in steps {
        see(misread, step, &mut lanes);
    }
    for (i, lane) in lanes.iter_mut().enumerate() {
        lane.in_use = !board.is_free(i);
        if lane.in_use {
            let seen = board.seen(i);
            lane.ready = !seen.suspended && seen.wait.0 == 0;
            if misread != PriorityOfTheCreation || i == 0 {
                lane.priority = seen.priority;
            }
            if misread != TurnOfTheCreation || i == 0 {
                lane.turn = seen.turn.into();
            }
        }
    }
    lanes
}

/// What a step changes in the accounts of the threads.
fn see(misread: Misread, step: &Step, lanes: &mut [Lane; 16]) {
    let accepted = step.code >= 0;
    let object = usize::from(step.record[1]) % 16;
    let is = |wrong: Misread| misread == wrong;
    match step.record[0] {
        op::TICK => {
            let counts =
                (accepted || is(ChargedWhereRefused)) && (step.lock == 0 || is(ChargedUnderLock));
            let whom = match misread {
                ChargedToTheNext => step.runs,
                TicksToTheFirst => step.first,
                _ => step.ran,
            };
            let counts = counts && (step.before == 0 || !is(TicksAsOne));
            lanes[whom].charged += i128::from(counts);
        }
        op::CREATE if accepted => {
            let charged = if is(CreateKeeps) {
                lanes[object].charged
            } else {
                0
            };
            lanes[object] = Lane {
                charged,
                priority: step.record[2],
                turn: model::word(&step.record, 4).into(),
                known: true,
                ..Lane::default()
            };
        }
        op::CREATE if is(RefusedCreateResets) => lanes[object].charged = 0,
        op::SET_PRIORITY if accepted && is(SetPriorityResets) => lanes[object].charged = 0,
        op::SET_TURN if accepted && is(SetTurnResets) => lanes[object].charged = 0,
        op::SUSPEND if accepted && is(SuspendResets) => lanes[object].charged = 0,
        op::DELAY | op::SEND | op::RECEIVE | op::PEND if step.code == 1 && is(WaitResets) => {
            lanes[step.ran].charged = 0;
        }
        _ => {}
    }
}

/// The ticks that were charged to the rank.
fn charged_to_rank(steps: &[Step], priority: u8) -> i128 {
    let counts = |step: &&Step| {
        let tick = step.record[0] == op::TICK && step.code == 0 && step.lock == 0;
        tick && step.priority == priority
    };
    steps.iter().filter(counts).count() as i128
}

fn lag(misread: Misread, steps: &[Step], lanes: &[Lane; 16], i: usize) -> i128 {
    let own = lanes[i];
    if !own.ready && misread != LagOfNotReady {
        return 0;
    }
    let counts = |lane: &&Lane| {
        let of_rank = lane.priority == own.priority;
        match misread {
            SumsOfAllReady => lane.ready,
            SumsOfNotReadyToo => lane.in_use && of_rank,
            _ => lane.ready && of_rank,
        }
    };
    let rank: Vec<&Lane> = lanes.iter().filter(counts).collect();
    let turns: i128 = rank.iter().map(|lane| lane.turn).sum();
    let charges = match misread {
        ChargesOfTheRank => charged_to_rank(steps, own.priority),
        _ => rank.iter().map(|lane| lane.charged).sum(),
    };
    let (ahead, behind) = (own.charged * turns, own.turn * charges);
    match misread {
        Swapped => behind - ahead,
        _ => ahead - behind,
    }
}

/// The report, with this point misread.
fn misreport(misread: Misread, steps: &[Step], board: &Board) -> String {
    let lanes = lanes(misread, steps, board);
    let has_line = |i: &usize| lanes[*i].in_use || (misread == DeletedHasLine && lanes[*i].known);
    let line = |i: usize| {
        let (charged, lag) = (lanes[i].charged, lag(misread, steps, &lanes, i));
        format!("{i} {charged} {lag}\n")
    };
    (0..16).filter(has_line).map(line).collect()
}

fn traces() -> impl Iterator<Item = Vec<u8>> {
    (0..TRACES).map(|seed| {
        let mut rng = Rng::new(700_000 + seed);
        let records = rng.below(600);
        let trace = random_trace(&mut rng, records);
        let whole = |bytes: &[u8]| bytes.try_into().expect("a whole record");
        let records = trace.chunks_exact(12).map(whole);
        records.flat_map(of_few_ticks).collect()
    })
}

#[test]
fn each_misreading_is_told_from_the_order() {
    let mut told = [0; EACH.len()];
    for trace in traces() {
        let (steps, board) = steps(&trace);
        let right = String::from_utf8(report(&trace)).expect("the report is text");
        assert_eq!(misreport(Nothing, &steps, &board), right);
        for (misread, told) in EACH.into_iter().zip(&mut told) {
            *told += usize::from(misreport(misread, &steps, &board) != right);
        }
    }
    println!("{:?}", EACH.iter().zip(&told).collect::<Vec<_>>());
    for (misread, told) in EACH.into_iter().zip(told) {
        assert!(told >= ENOUGH, "{misread:?} is told by {told} traces");
    }
}

/// The lines of a report: thread, charged ticks and lag.
fn lines(report: &[u8]) -> Vec<(usize, i128, i128)> {
    let text = std::str::from_utf8(report).expect("the report is text");
    let line = |line: &str| {
        let numbers: Vec<i128> = line.split(' ').map(|word| word.parse().unwrap()).collect();
        let [thread, charged, lag] = numbers[..] else {
            panic!("three numbers, and not {line}");
        };
        (thread as usize, charged, lag)
    };
    text.lines().map(line).collect()
}

/// The sum of c × T − t × C over a rank is C × T − T × C. So a thread alone in its rank has lag 0.
#[test]
fn the_lags_of_a_ranks_ready_threads_add_up_to_0() {
    let (mut behind, mut of_several) = (0, 0);
    for trace in traces() {
        let (_, board) = steps(&trace);
        let mut sums = [0; 32];
        let mut ready = [0; 32];
        for (i, _, lag) in lines(&report(&trace)) {
            let seen = board.seen(i);
            let is_ready = !seen.suspended && seen.wait.0 == 0;
            assert!(is_ready || lag == 0, "thread {i} is not ready");
            sums[usize::from(seen.priority)] += lag;
            ready[usize::from(seen.priority)] += usize::from(is_ready);
            behind += usize::from(lag < 0);
        }
        assert_eq!(sums, [0; 32]);
        of_several += usize::from(ready.iter().any(|&members| members > 1));
    }
    assert!(behind > 500, "{behind} threads are behind");
    assert!(
        of_several > 300,
        "{of_several} traces end with several in a rank"
    );
}

#[test]
fn no_more_is_charged_than_there_are_ticks() {
    for trace in traces() {
        let is_tick = |step: &&Step| step.record[0] == op::TICK;
        let ticks = steps(&trace).0.iter().filter(is_tick).count();
        let charges = lines(&report(&trace)).into_iter().map(|line| line.1);
        assert!(charges.clone().all(|charged| charged >= 0));
        assert!(charges.sum::<i128>() <= ticks as i128);
    }
}
