//! A run: what happens at each request, counted as demand 3 counts it, and held to the figures that the file states.

use model::{code, fresh, operation as op, sound, THREADS};

use crate::doors::{Board, SentBack};
use crate::incident::{Claim, Incident, Record, Rule, FILE, RANK};

/// What happens at a request.
#[derive(Clone, Debug)]
pub struct Step {
    pub request: Record,
    /// Who runs after it.
    pub running: usize,
    /// "An accepted tick is charged to the thread that was running, to nobody while the lock is on; a refused one to nobody."
    pub charged: Option<usize>,
    pub sent_back: Option<SentBack>,
}

impl Step {
    pub fn is_tick(&self) -> bool {
        self.request[0] == op::TICK
    }
}

/// The ready set of the lanes' rank.
fn ready(board: &Board) -> Vec<usize> {
    (0..THREADS).filter(|&i| board.is_ready(i, RANK)).collect()
}

/// The table at the start of every run.
fn lanes(incident: &Incident) -> Result<Board, String> {
    let mut board = Board {
        table: fresh(),
        rule: Rule::Rules,
    };
    for request in &incident.lanes {
        let (answer, _) = board.ask(request);
        if answer != code::DONE && answer != code::BLOCKED {
            return Err(format!(
                "{FILE}: a request of `lanes` is refused with {answer}"
            ));
        }
    }
    Ok(board)
}

/// Puts a request to the board, and notes what happens.
fn step(board: &mut Board, request: &Record) -> Step {
    let (was, is_locked) = (board.running(), board.lock() > 0);
    let (answer, sent_back) = board.ask(request);
    let is_charged = request[0] == op::TICK && answer == code::DONE && !is_locked;
    Step {
        request: *request,
        running: board.running(),
        charged: is_charged.then_some(was),
        sent_back,
    }
}

/// The table is sound, and the lanes are the ready set of their rank, after this many requests of the claim's run.
fn keeps(incident: &Incident, claim: &Claim, board: &Board, after: usize) -> Result<(), String> {
    let set = ready(board);
    match sound(&board.table) && set == [incident.left, incident.right] {
        true => Ok(()),
        false => Err(format!(
            "{FILE}: after {after} requests of `{}` the table is not sound, or others than the lanes are ready at rank {RANK}: {set:?}",
            claim.name
        )),
    }
}

/// The steps of a claim's run.
fn steps(incident: &Incident, claim: &Claim) -> Result<Vec<Step>, String> {
    let mut board = Board {
        rule: claim.rule,
        ..lanes(incident)?
    };
    let mut steps = Vec::new();
    keeps(incident, claim, &board, 0)?;
    for request in &claim.requests {
        steps.push(step(&mut board, request));
        keeps(incident, claim, &board, steps.len())?;
    }
    Ok(steps)
}

/// The steps of a claim's run, if what it states is what is counted.
pub fn run(incident: &Incident, claim: &Claim) -> Result<Vec<Step>, String> {
    let name = &claim.name;
    let steps = steps(incident, claim)?;
    let part = steps.get(claim.from..claim.from + claim.steps);
    let part = part.ok_or(format!(
        "{FILE}: `{name}` counts more steps than its run has, {}",
        steps.len()
    ))?;
    let to = |lane: usize| charged(part, |thread| thread == lane);
    let (left, right) = (to(incident.left), to(incident.right));
    // the rank's ready set is the two lanes
    let counted = (left + right, left, right);
    let stated = (claim.charged, claim.left, claim.right);
    match counted == stated {
        true => Ok(steps),
        false => Err(format!(
            "{FILE}: `{name}` states {stated:?} as the ticks charged to the rank, the left and the right lane, and the model counts {counted:?}"
        )),
    }
}

/// How many steps are ticks that are charged to such a thread.
pub fn charged(steps: &[Step], is_such: impl Fn(usize) -> bool) -> usize {
    let charged = steps.iter().filter_map(|step| step.charged);
    charged.filter(|&thread| is_such(thread)).count()
}
