//! What the build scripts of the hosts share: where the kernel's archive is, and the tool that
//! compiles C programs around it.

use std::path::{Path, PathBuf};
use std::process::{exit, Command};
use std::{env, fs};

/// A folder or file that cargo names by an environment variable.
pub fn from_cargo(name: &str) -> PathBuf {
    PathBuf::from(env::var_os(name).expect("cargo sets it"))
}

/// A file beside the build script that the build depends on.
pub fn source(name: &str) -> PathBuf {
    let path = from_cargo("CARGO_MANIFEST_DIR").join(name);
    println!("cargo:rerun-if-changed={}", path.display());
    path
}

/// `libkernel.a` in the folder that SPELTMALLET_LIB names, else where `hosts/build kernel` puts
/// it.
pub fn archive() -> PathBuf {
    println!("cargo:rerun-if-env-changed=SPELTMALLET_LIB");
    let folder = match env::var_os("SPELTMALLET_LIB") {
        Some(folder) => PathBuf::from(folder),
        None => from_cargo("CARGO_MANIFEST_DIR").join("../../target/staticlib"),
    };
    let path = folder.join("libkernel.a");
    println!("cargo:rerun-if-changed={}", path.display());
    fs::canonicalize(&path).unwrap_or_else(|_| {
        let path = path.display();
        stop(&format!(
            "there is no {path}: run `hosts/build kernel` at the top of the repository, or set \
             SPELTMALLET_LIB to the folder that has it"
        ))
    })
}

/// Compiles a C file for x86-64, with the kernel's header at hand.
pub fn compile(tool: &Path, file: &Path, flags: &[&str], object: &Path) {
    let include = source("../../include");
    let mut command = Command::new(tool);
    command.arg("cc").args(flags).arg("-I").arg(include);
    run(command.arg(file).arg("-o").arg(object));
}

/// Links object files and archives into a program for x86-64.
pub fn link(tool: &Path, program: &Path, files: &[&Path]) {
    run(Command::new(tool).arg("link").arg(program).args(files));
}

fn run(command: &mut Command) {
    match command.output() {
        Ok(output) if output.status.success() => {}
        Ok(output) => {
            let said = String::from_utf8_lossy(&output.stderr);
            stop(&format!("{command:?} failed:\n{said}"))
        }
        Err(error) => stop(&format!("{command:?} cannot be run: {error}")),
    }
}

/// Ends the build with a message for a person.
pub fn stop(message: &str) -> ! {
    eprintln!("hosts: {message}");
    exit(1)
}
