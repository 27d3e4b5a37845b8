//! Runs measure.c's program, which has both kernels.

use std::io::Write;
use std::process::{Command, Stdio};

use crate::cases::Group;

/// A figure of the door and of the plain kernel.
#[derive(Clone, Copy)]
pub struct Pair {
    pub door: f64,
    pub plain: f64,
}

impl Pair {
    pub fn ratio(&self) -> f64 {
        self.door / self.plain
    }

    /// Both figures and their ratio, as columns.
    pub fn figures(&self) -> String {
        let ratio = self.ratio();
        format!("{:.0} | {:.0} | {ratio:.2}", self.door, self.plain)
    }
}

/// The sum over several groups.
pub fn sum(pairs: impl Iterator<Item = Pair>) -> Pair {
    joined(pairs, |a, b| a + b)
}

/// The larger figures of several groups.
pub fn most(pairs: impl Iterator<Item = Pair>) -> Pair {
    joined(pairs, f64::max)
}

fn joined(pairs: impl Iterator<Item = Pair>, join: fn(f64, f64) -> f64) -> Pair {
    let none = Pair {
        door: 0.,
        plain: 0.,
    };
    pairs.fold(none, |all, pair| Pair {
        door: join(all.door, pair.door),
        plain: join(all.plain, pair.plain),
    })
}

/// Whether the program runs under an emulator, so that its times say nothing.
pub fn emulated() -> bool {
    let status = Command::new(env!("BENCH_TOOL")).arg("emulated").status();
    status.expect("hosts/x86_64 runs").success()
}

/// What the figures were made on and with.
pub fn machine() -> String {
    let output = Command::new(env!("BENCH_TOOL")).arg("compiler").output();
    let said = output.expect("hosts/x86_64 runs").stdout;
    let machine = match emulated() {
        true => "x86-64 under an emulator, where times say nothing and are left out",
        false => "x86-64",
    };
    let compiler = String::from_utf8_lossy(&said);
    format!(
        "On {machine}; plain.c is compiled by {} at -O3.",
        compiler.trim()
    )
}

/// The most bytes of stack that a call of each group writes to.
pub fn stack(groups: &[Group]) -> Vec<Pair> {
    run(&["stack"], groups, usize::MAX)
        .into_iter()
        .map(|row| pair(&row, 0))
        .collect()
}

/// The instructions a call, and how deep the stack pointer goes, over the first calls of each
/// group.
pub fn steps(groups: &[Group], calls: usize) -> Vec<(Pair, Pair)> {
    let rows = run(&["steps"], groups, calls).into_iter();
    rows.map(|row| (pair(&row, 0), pair(&row, 2))).collect()
}

/// The door's instructions a call, over all calls of each group.
pub fn alone(groups: &[Group]) -> Vec<f64> {
    let rows = run(&["alone"], groups, usize::MAX).into_iter();
    rows.map(|row| row[0]).collect()
}

/// Nanoseconds a call, the best of so many rounds.
pub fn time(groups: &[Group], rounds: usize) -> Vec<Pair> {
    let rows = run(&["time", &rounds.to_string()], groups, usize::MAX);
    rows.into_iter().map(|row| pair(&row, 0)).collect()
}

fn pair(row: &[f64], column: usize) -> Pair {
    Pair {
        door: row[column],
        plain: row[column + 1],
    }
}

/// Puts the first calls of each group to the program; gives its figures for each group.
fn run(words: &[&str], groups: &[Group], calls: usize) -> Vec<Vec<f64>> {
    let (mut input, mut count) = (vec![0; 4], 0u32);
    for (number, group) in groups.iter().enumerate() {
        for case in group.cases.iter().take(calls) {
            input.extend((number as u32).to_le_bytes());
            input.extend(case.table);
            input.extend(case.record);
            count += 1;
        }
    }
    input[..4].copy_from_slice(&count.to_le_bytes());
    let mut command = Command::new(env!("BENCH_TOOL"));
    command.arg("run").arg(env!("BENCH_MEASURE")).args(words);
    command.stdin(Stdio::piped()).stdout(Stdio::piped());
    let mut program = command.spawn().expect("hosts/x86_64 runs");
    let mut stdin = program.stdin.take().expect("it is piped");
    stdin
        .write_all(&input)
        .expect("the program reads its cases");
    drop(stdin);
    let output = program.wait_with_output().expect("the program ends");
    assert!(
        output.status.success(),
        "measure {words:?}: {}",
        output.status
    );
    let text = String::from_utf8(output.stdout).expect("it prints numbers");
    let figures = |line: &str| {
        let numbers = line.split(' ').skip(1).map(|word| word.parse());
        numbers
            .collect::<Result<Vec<f64>, _>>()
            .expect("it prints numbers")
    };
    text.lines().map(figures).collect()
}
