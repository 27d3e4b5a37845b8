//! What a run of steps has met, counted from outside, so that a test can ask for enough of each.

use std::collections::BTreeMap;
use std::fmt;

use model::operation as op;

use crate::setting_sorts::SETTING_SORTS;
use crate::sleep_sorts::SLEEP_SORTS;
use crate::sorts::{for_each_sort, SORTS};
use crate::view::View;

/// The refusals of each operation, as document 01's table lists them, and those of orders 7 and 8.
/// Operation 3 is gone.
pub const REFUSALS: [&[i32]; 25] = [
    &[],
    &[-2, -3, -1],
    &[-1, -5],
    &[],
    &[-1, -4, -5],
    &[-1, -4],
    &[-3, -5],
    &[-1, -4],
    &[-1, -5],
    &[-1, -5],
    &[-5],
    &[-6, -5],
    &[-6],
    &[-6, -5],
    &[-1, -4],
    &[-6, -5],
    &[-6, -5],
    &[-5],
    &[-5],
    &[],
    &[-1],
    &[-3],
    &[],
    &[-2, -1, -5],
    &[-3, -1, -5],
];

/// The codes with which each operation is accepted.
const ACCEPTED: [&[i32]; 25] = [
    &[0],
    &[0],
    &[0],
    &[],
    &[0],
    &[0],
    &[1],
    &[0],
    &[0, 1],
    &[0],
    &[0, 1],
    &[0],
    &[0],
    &[0, 1],
    &[0],
    &[0],
    &[0],
    &[0],
    &[0],
    &[0],
    &[0, 1, -5],
    &[0],
    &[0],
    &[0],
    &[0],
];

/// How often each operation got each code, and how often each sort of step was met.
#[derive(Default)]
pub struct Coverage {
    codes: BTreeMap<(u8, i32), u64>,
    sorts: BTreeMap<String, u64>,
}

impl Coverage {
    /// Counts one step from a sound table.
    pub fn see(&mut self, before: &[u8], record: &[u8], code: i32, after: &[u8]) {
        let operation = record.first().copied().unwrap_or(0);
        let named = operation.min(op::LAST + 1);
        *self.codes.entry((named, code)).or_insert(0) += 1;
        if code == -8 || (code < 0 && operation != op::OUTCOME) {
            return;
        }
        for_each_sort(
            View(before),
            record,
            View(after),
            &mut |sort| match self.sorts.get_mut(sort) {
                Some(times) => *times += 1,
                None => {
                    self.sorts.insert(sort.to_string(), 1);
                }
            },
        );
    }

    /// Joins what two runs have met.
    pub fn add(&mut self, other: Coverage) {
        for (pair, times) in other.codes {
            *self.codes.entry(pair).or_insert(0) += times;
        }
        for (sort, times) in other.sorts {
            *self.sorts.entry(sort).or_insert(0) += times;
        }
    }

    /// What was met less often than so many times: every operation accepted with each of its codes,
    /// every refusal of document 01's table, −8 of every operation and of 3, and every sort of step.
    /// Pairs of operation and code that cannot be reached are left out.
    pub fn lacks(&self, times: u64, unreached: &[(u8, i32)]) -> Vec<String> {
        let mut lacks = Vec::new();
        for operation in 0..=op::LAST {
            let row = usize::from(operation);
            for &code in ACCEPTED[row].iter().chain(REFUSALS[row]).chain(&[-8]) {
                let met = self.codes.get(&(operation, code)).copied().unwrap_or(0);
                if met < times && !unreached.contains(&(operation, code)) {
                    lacks.push(format!(
                        "operation {operation} with code {code}: {met} times"
                    ));
                }
            }
        }
        for sort in SORTS.iter().chain(SLEEP_SORTS).chain(SETTING_SORTS) {
            let met = self.sorts.get(*sort).copied().unwrap_or(0);
            if met < times {
                lacks.push(format!("{sort}: {met} times"));
            }
        }
        lacks
    }

    /// Codes that document 01 does not list for their operation.
    pub fn strays(&self) -> Vec<(u8, i32)> {
        let listed = |&(operation, code): &(u8, i32)| match operation {
            0..=op::LAST => {
                let row = usize::from(operation);
                code == -8 || ACCEPTED[row].contains(&code) || REFUSALS[row].contains(&code)
            }
            _ => code == -8,
        };
        self.codes
            .keys()
            .copied()
            .filter(|pair| !listed(pair))
            .collect()
    }
}

impl fmt::Display for Coverage {
    fn fmt(&self, f: &mut fmt::Formatter) -> fmt::Result {
        for operation in 0..=op::LAST + 1 {
            let its = self.codes.iter().filter(|((op, _), _)| *op == operation);
            let texts: Vec<String> = its
                .map(|((_, code), times)| format!("{code}: {times}"))
                .collect();
            let name = if operation > op::LAST {
                format!("above {}", op::LAST)
            } else {
                operation.to_string()
            };
            writeln!(f, "operation {name:<8}  {}", texts.join("  "))?;
        }
        for (sort, times) in &self.sorts {
            writeln!(f, "{times:>9}  {sort}")?;
        }
        Ok(())
    }
}
