//! The calls to be measured, in groups that have a name.

use std::ops::RangeInclusive;

use model::{at, door, operation as op, random_record, random_sound, spoil, Rng};
use model::{RECORD, TABLE, THREADS};

/// The operations by their names in document 01 and in orders 7 and 8.
const OPERATIONS: [(u8, &str); 24] = [
    (op::YIELD, "Yield"),
    (op::CREATE, "Create"),
    (op::DELETE, "Delete"),
    (op::SUSPEND, "Suspend"),
    (op::RESUME, "Resume"),
    (op::DELAY, "Delay"),
    (op::CANCEL, "Cancel"),
    (op::SEND, "Send"),
    (op::SEND_FROM_INTERRUPT, "Send from interrupt"),
    (op::RECEIVE, "Receive"),
    (op::MAKE, "Make semaphore"),
    (op::DROP, "Drop semaphore"),
    (op::PEND, "Pend"),
    (op::ABORT, "Abort"),
    (op::POST, "Post"),
    (op::POST_FROM_INTERRUPT, "Post from interrupt"),
    (op::LOCK, "Lock"),
    (op::UNLOCK, "Unlock"),
    (op::TICK, "Tick"),
    (op::OUTCOME, "Outcome"),
    (op::TICKS, "Ticks"),
    (op::NEAREST, "Nearest"),
    (op::SET_PRIORITY, "Set priority"),
    (op::SET_TURN, "Set turn"),
];

/// One call: a table and a request.
#[derive(Clone, Copy)]
pub struct Case {
    pub table: [u8; TABLE],
    pub record: [u8; RECORD],
}

/// Calls that are measured together.
pub struct Group {
    pub name: String,
    pub cases: Vec<Case>,
}

impl Case {
    /// Whether the model accepts the request.
    fn is_accepted(&self) -> bool {
        let mut table = self.table;
        let code = door(&mut table, &self.record, &mut [0; 8]);
        code >= 0 || (self.record[0] == op::OUTCOME && code == -5)
    }
}

fn threads_in_use(table: &[u8; TABLE]) -> usize {
    let used = |&i: &usize| table[at::thread(i)] == 1;
    (0..THREADS).filter(used).count()
}

/// Where the operation stands among them; nothing for a number that has none.
fn row(operation: u8) -> Option<usize> {
    OPERATIONS
        .iter()
        .position(|(number, _)| *number == operation)
}

/// A group of no calls yet, with the operation's name.
fn group_of(operation: u8) -> Group {
    let row = row(operation).expect("there is this operation");
    Group {
        name: OPERATIONS[row].1.to_string(),
        cases: Vec::new(),
    }
}

/// All calls of one operation that some groups have.
pub fn of_operation(groups: &[Group], operation: u8) -> Group {
    let cases = groups.iter().flat_map(|group| &group.cases);
    let asked = cases.filter(|case| case.record[0] == operation);
    Group {
        cases: asked.copied().collect(),
        ..group_of(operation)
    }
}

/// For each of the operations `each` accepted requests on random sound tables with so many threads
/// in use after it.
pub fn accepted(
    rng: &mut Rng,
    operations: &[u8],
    threads: RangeInclusive<usize>,
    each: usize,
) -> Vec<Group> {
    let mut groups: Vec<Group> = operations.iter().copied().map(group_of).collect();
    while groups.iter().any(|group| group.cases.len() < each) {
        let table = random_sound(rng);
        let record = random_record(rng, &table);
        let used = threads_in_use(&table) + usize::from(record[0] == op::CREATE);
        let case = Case { table, record };
        let group = operations.iter().position(|&asked| asked == record[0]);
        let Some(group) = group.filter(|_| threads.contains(&used) && case.is_accepted()) else {
            continue;
        };
        let cases = &mut groups[group].cases;
        if cases.len() < each {
            cases.push(case);
        }
    }
    groups
}

/// Requests on random sound tables as they come, accepted or refused, `each` for every operation;
/// then as many malformed records, and as many calls on damaged tables.
pub fn any(rng: &mut Rng, each: usize) -> Vec<Group> {
    let names = OPERATIONS.iter().map(|(_, name)| *name);
    let names = names.chain(["malformed record", "damaged table"]);
    let mut groups: Vec<Group> = names
        .map(|name| Group {
            name: name.to_string(),
            cases: Vec::new(),
        })
        .collect();
    while groups.iter().any(|group| group.cases.len() < each) {
        let mut table = random_sound(rng);
        let record = random_record(rng, &table);
        let mut group = row(record[0]).unwrap_or(OPERATIONS.len());
        if rng.one_in(16) {
            spoil(rng, &mut table);
            group = OPERATIONS.len() + 1;
        }
        if groups[group].cases.len() < each {
            groups[group].cases.push(Case { table, record });
        }
    }
    groups
}
