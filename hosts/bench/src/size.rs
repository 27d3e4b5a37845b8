//! The bytes of code and of constants, as `size` of binutils gives them.

use std::process::Command;

use crate::measure::Pair;

/// The bytes of the sections whose names begin so.
fn section_bytes(file: &str, prefix: &str) -> f64 {
    let output = Command::new("size").args(["-A", file]).output();
    let output = output.expect("binutils has size");
    let text = String::from_utf8_lossy(&output.stdout).into_owned();
    let bytes = |line: &str| {
        let mut words = line.split_whitespace();
        let name = words.next()?;
        let is_named = name == prefix || name.starts_with(&format!("{prefix}."));
        let size = words.next()?.parse::<f64>().ok()?;
        is_named.then_some(size)
    };
    text.lines().filter_map(bytes).sum()
}

pub fn report() {
    println!("## Size\n");
    println!("| Bytes | door | plain.c | ratio |\n|---|---:|---:|---:|");
    for (name, prefix) in [("code", ".text"), ("constants", ".rodata")] {
        let pair = Pair {
            door: section_bytes(env!("BENCH_ARCHIVE"), prefix),
            plain: section_bytes(env!("BENCH_PLAIN"), prefix),
        };
        println!("| {name} | {} |", pair.figures());
    }
    println!();
}
