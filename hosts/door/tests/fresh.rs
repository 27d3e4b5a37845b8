//! The fresh table that include/speltmallet.h makes in C, by the function and by the macro, is the
//! model's, byte for byte. That C++ makes the same is shown by hosts/c/check.sh.

use std::path::Path;
use std::process::Command;

/// What hosts/c/fresh.c writes, compiled for this machine with these words.
fn written(name: &str, words: &[&str]) -> Vec<u8> {
    let here = Path::new(env!("CARGO_MANIFEST_DIR"));
    let program = Path::new(env!("CARGO_TARGET_TMPDIR")).join(format!("fresh-by-{name}"));
    let mut gcc = Command::new("gcc");
    gcc.args(["-Wall", "-Wextra", "-Werror", "-pedantic"]);
    gcc.args(words).arg("-I").arg(here.join("../../include"));
    gcc.arg(here.join("../c/fresh.c")).arg("-o").arg(&program);
    let compiled = gcc.status().expect("gcc is on the PATH");
    assert!(compiled.success(), "{gcc:?}");
    let output = Command::new(&program).output();
    output.expect("the program runs").stdout
}

#[test]
fn the_headers_fresh_table_is_the_models() {
    assert!(written("function", &["-std=c89"]) == model::fresh());
    assert!(written("macro", &["-std=c99", "-DBY_MACRO"]) == model::fresh());
}
