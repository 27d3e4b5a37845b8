//! The stack that the door takes, in bytes below the caller's stack pointer: the return address
//! counts, the caller's frame does not. Two figures are taken: what calls wrote to on a painted
//! stack, and the bound that the instructions give.

use model::{operation as op, Rng};

use crate::budget::Budget;
use crate::cases::{any, of_operation, Group};
use crate::frames::{self, Bound};
use crate::measure::{most, stack, steps, Pair};
use crate::worst::worst;

/// Half of what the cutter's interrupt has. The aim is so near that one more spill is seen.
const BYTES: Budget = Budget {
    most: 256.,
    aim: 248.,
};

/// The stack of the cutter's interrupt.
const INTERRUPT: f64 = 512.;

/// What an interrupt can ask for.
const FROM_INTERRUPT: [u8; 4] = [
    op::SEND_FROM_INTERRUPT,
    op::POST_FROM_INTERRUPT,
    op::TICK,
    op::TICKS,
];

/// Prints the tables; gives what is wrong, a sentence for each fault.
pub fn report() -> Vec<String> {
    let mut groups = any(&mut Rng::new(61), 1_000);
    groups.extend(worst());
    let bound = frames::of_file(env!("BENCH_ARCHIVE"));
    let figure = bound.as_ref().ok().map(|bound| bound.bytes() as f64);
    println!("## Stack\n");
    let painted = print_calls(&groups, figure);
    print_interrupt(&groups);
    let mut faults = Vec::from_iter(print_bound(&bound));
    faults.extend(over("a call took", painted));
    if let Some(figure) = figure {
        faults.extend(over("the bound is", figure));
        faults.extend(above_bound(painted, figure));
    }
    faults
}

/// The fault where a figure is over the budget.
fn over(what: &str, figure: f64) -> Option<String> {
    let fault = format!(
        "{what} {figure} bytes of stack, and the budget is {}",
        BYTES.most
    );
    (!BYTES.holds(figure)).then_some(fault)
}

/// The fault where a call took more than the bound, which is then no bound.
fn above_bound(painted: f64, bound: f64) -> Option<String> {
    let fault = format!(
        "a call took {painted} bytes of stack, above the bound of {bound} that the instructions \
         give: hosts/bench/src/frames.rs reads them wrong"
    );
    (painted > bound).then_some(fault)
}

/// Prints what the calls of each group take; gives the most that the door took.
fn print_calls(groups: &[Group], bound: Option<f64>) -> f64 {
    let painted = stack(groups);
    let depth = most(steps(groups, 1).into_iter().map(|(_, depth)| depth));
    println!(
        "Bytes that a call writes to, on a painted stack: the most of 1,000 random calls of each"
    );
    println!("operation, accepted and refused; then the calls that have the most to do.\n");
    println!("| Call | door | plain.c |\n|---|---:|---:|");
    for (group, pair) in groups.iter().zip(&painted) {
        println!("| {} | {} | {} |", group.name, pair.door, pair.plain);
    }
    let Pair { door, plain } = most(painted.into_iter().chain([depth]));
    println!(
        "| deepest stack pointer, one call of each row | {} | {} |",
        depth.door, depth.plain
    );
    if let Some(bound) = bound {
        println!("| any call, by the bound below | {bound} | |");
    }
    let all = bound.map_or(door, |bound| bound.max(door));
    println!("| **the most of all** | **{all}** | **{plain}** |\n");
    let (verdict, Budget { most, aim }) = (BYTES.verdict(all), BYTES);
    println!("Budget {most} bytes, aim {aim}: {verdict}.\n");
    door
}

/// Prints what is left of the interrupt's stack after each operation that it can ask for.
fn print_interrupt(groups: &[Group]) {
    let asked = FROM_INTERRUPT.map(|operation| of_operation(groups, operation));
    println!("### The cutter's interrupt\n");
    println!("The most that any of the calls above wrote to, by what an interrupt can ask for.\n");
    println!("| Call | bytes | left of {INTERRUPT} |\n|---|---:|---:|");
    let rows = FROM_INTERRUPT.iter().zip(&asked).zip(stack(&asked));
    for ((operation, group), Pair { door, .. }) in rows {
        let left = INTERRUPT - door;
        println!(
            "| {}, operation {operation} | {door} | {left} |",
            group.name
        );
    }
    println!();
}

/// Prints the chain of calls that gives the bound; gives the fault where there is none.
fn print_bound(bound: &Result<Bound, String>) -> Option<String> {
    println!("### The bound, by the archive's instructions\n");
    match bound {
        Ok(bound) => {
            bound.print();
            let left = INTERRUPT - bound.bytes() as f64;
            println!(
                "Whatever the interrupt asks for, {left} of its {INTERRUPT} bytes are left.\n"
            );
            None
        }
        Err(why) => {
            println!("There is none.\n");
            Some(format!("there is no bound on the door's stack: {why}"))
        }
    }
}
