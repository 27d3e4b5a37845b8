//! Ticks, operation 21, by small numbers, beside as many single ticks, all of which are counted: a
//! firmware that was woken early makes up for a few.

use model::{random_sound, Rng, TABLE};

use crate::asleep::{at_once, single, tables};
use crate::cases::Group;
use crate::measure::alone;

/// How many ticks, and how many times the instructions of as many single ones the call may take. One
/// tick is as much to do either way, and its number is tested besides.
const FEW: [(u32, f64); 4] = [(1, 1.05), (2, 1.), (3, 1.), (10, 1.)];

/// The random tables beside those of `asleep`.
const RANDOM: usize = 40;

/// How many times the single ticks' instructions so many ticks at once take, of each table.
fn shares(tables: &[[u8; TABLE]], number: u32) -> Vec<f64> {
    let each = |group: &dyn Fn([u8; TABLE]) -> Group| {
        let groups: Vec<Group> = tables.iter().map(|&table| group(table)).collect();
        alone(&groups)
    };
    let calls = each(&|table| at_once(table, number));
    let ticks = each(&|table| single(table, number, 1));
    let share = |(call, tick): (f64, f64)| call / (tick * f64::from(number));
    calls.into_iter().zip(ticks).map(share).collect()
}

fn columns(cells: impl Iterator<Item = String>) -> String {
    cells.map(|cell| format!(" {cell} |")).collect()
}

/// Prints the table; gives what is wrong, a sentence for each fault.
pub fn report() -> Vec<String> {
    let mut rng = Rng::new(64);
    let known = tables();
    let fixed = known.each_ref().map(|asleep| asleep.table);
    let random: Vec<_> = (0..RANDOM).map(|_| random_sound(&mut rng)).collect();
    let of_fixed = FEW.map(|(number, _)| shares(&fixed, number));
    let highest = |(number, _)| shares(&random, number).into_iter().fold(0., f64::max);
    let of_random = FEW.map(highest);

    println!("Instructions of one call by a few, against those of as many single ticks, which are all counted:\n");
    let numbers = FEW.iter().map(|(number, _)| format!("by {number}"));
    println!("| Table |{}", columns(numbers));
    println!("|---|{}", "---:|".repeat(FEW.len()));
    for (row, asleep) in known.iter().enumerate() {
        let shares = of_fixed.iter().map(|shares| format!("{:.2}", shares[row]));
        println!("| {} |{}", asleep.name, columns(shares));
    }
    let shares = of_random.iter().map(|share| format!("{share:.2}"));
    println!(
        "| the highest of {RANDOM} random tables |{}",
        columns(shares)
    );
    let most = FEW.iter().map(|(_, most)| most.to_string());
    println!("| at most |{}\n", columns(most));

    let mut faults = Vec::new();
    for ((number, most), (of_fixed, of_random)) in FEW.iter().zip(of_fixed.iter().zip(of_random)) {
        let share = of_fixed.iter().copied().fold(of_random, f64::max);
        if share > *most {
            faults.push(format!("Ticks by {number}: {share:.2} times as many single ticks, and at most {most} is accepted"));
        }
    }
    faults
}
