//! Puts the door, the plain C kernel and what measures them into one x86-64 program.

#[path = "../archive.rs"]
mod archive;

use archive::{compile, from_cargo, link, source};

fn main() {
    let archive = archive::archive();
    let (tool, out) = (source("../x86_64"), from_cargo("OUT_DIR"));
    let (plain, measure) = (out.join("plain.o"), out.join("measure.o"));
    let program = out.join("measure");
    let strict = ["-O2", "-Wall", "-Wextra", "-Werror"];
    compile(&tool, &source("plain.c"), &["-O3"], &plain);
    compile(&tool, &source("measure.c"), &strict, &measure);
    link(&tool, &program, &[&measure, &plain, &archive]);
    println!("cargo:rustc-env=BENCH_TOOL={}", tool.display());
    println!("cargo:rustc-env=BENCH_MEASURE={}", program.display());
    println!("cargo:rustc-env=BENCH_PLAIN={}", plain.display());
    println!("cargo:rustc-env=BENCH_ARCHIVE={}", archive.display());
}
