//! Links the archive of the proved kernel. The archive is for x86-64: on another machine the door is
//! put into an x86-64 program of its own (far/far.c), which the emulator runs.

#[path = "../archive.rs"]
mod archive;

use std::path::Path;
use std::{env, fs};

use archive::{compile, from_cargo, link, source, stop};

fn main() {
    println!("cargo:rustc-check-cfg=cfg(emulated)");
    let archive = archive::archive();
    let machine = env::var("CARGO_CFG_TARGET_ARCH").expect("cargo sets it");
    match machine_of(&archive) {
        Some(its) if its == machine => link_in(&archive),
        Some("x86_64") => build_far(&archive),
        its => {
            let (path, its) = (archive.display(), its.unwrap_or("no machine known here"));
            stop(&format!(
                "{path} is for {its}: accepted is x86_64, or this machine, {machine}"
            ))
        }
    }
}

/// The machine of the archive's first object file: an ELF file, whose bytes 18 and 19 say it.
fn machine_of(archive: &Path) -> Option<&'static str> {
    let bytes = fs::read(archive).expect("the archive can be read");
    let start = bytes.windows(4).position(|four| four == b"\x7fELF")?;
    match (bytes.get(start + 18)?, bytes.get(start + 19)?) {
        (62, 0) => Some("x86_64"),
        (183, 0) => Some("aarch64"),
        _ => None,
    }
}

fn link_in(archive: &Path) {
    let folder = archive.parent().expect("the archive is in a folder");
    println!("cargo:rustc-link-search=native={}", folder.display());
    println!("cargo:rustc-link-lib=static=kernel");
}

fn build_far(archive: &Path) {
    let (tool, out) = (source("../x86_64"), from_cargo("OUT_DIR"));
    let (object, program) = (out.join("far.o"), out.join("far"));
    let flags = ["-O2", "-Wall", "-Wextra", "-Werror"];
    compile(&tool, &source("far/far.c"), &flags, &object);
    link(&tool, &program, &[&object, archive]);
    println!("cargo:rustc-cfg=emulated");
    println!("cargo:rustc-env=DOOR_FAR={}", program.display());
    println!("cargo:rustc-env=DOOR_RUN={}", tool.display());
}
