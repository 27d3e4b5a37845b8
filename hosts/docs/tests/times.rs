//! .ci/times reads the seconds of a gate off what rt ci prints.

use std::fs;
use std::path::{Path, PathBuf};
use std::process::{Command, Output};

use docs::top;

const LOG: &str = "\
12 == rules
12 enum rules::Wait: proved
12 logic=proved functions=3 sum=dac8208d650f15bf native=nat,char,string logic-built=trusted libraries-built=trusted statements=trusted
12 rt: rules proved
16 fn words::put_word: proved
16 rt: words proved
16 rt: rules: its tests are proved
17 rt: laws is kept: an earlier run on this machine proved the same files over the same libraries
126 rt: sound proved
126 rt: sound: trying its must-fail edits (1)
250 rt: must-fail rules/answers_0_always.edit: refused, as it must be: note: src/lib.rt:20:9: it is not proved that ..
250 rt: must-fail rules/broken_off_refilled.edit: refused, as it must be: note: src/lib.rt:20:9: it is not proved that ..
250 rt: laws: 1 of its 1 must-fail edits were tried by an earlier run on this machine, and nothing that they stand on has changed
250 rt: must-fail laws/other_way.edit: refused, as it must be (only by a limit of the prover, which gave no verdict)
250 rt: must-fail words/low_byte_last.edit: refused, as it must be: note: src/lib.rt:31:30: it is not proved that ..
250 rt: must-fail words/not_there.edit: BAD EDIT: an 'old:' text is in src/lib.rt 0 times, and not once
250 rt: ok; handles allowed: none; must-fail edits: 4 refused, 1 bad; every proof and must-fail edit was done in this run
250 8 passed, 0 failed
";

const PARTS: &str = "\
1 lint
250 proofs, must-fail edits, programs
9 hosts: the model, the door against it, the trace program, the documents
30 hosts: stack
";

const PRINTED: &str = "\
part                                                                     seconds
lint                                                                           1
proofs, must-fail edits, programs                                            250
hosts: the model, the door against it, the trace program, the documents        9
hosts: stack                                                                  30
hosts together                                                                39
all                                                                          290

crate           proved  edits
sound              126      0
words               16      1
rules               12      2
laws              kept      1
all                126      4
";

fn written(name: &str, text: &str) -> PathBuf {
    let path = Path::new(env!("CARGO_TARGET_TMPDIR")).join(name);
    fs::write(&path, text).unwrap_or_else(|error| panic!("{}: {error}", path.display()));
    path
}

fn times(files: &[&Path]) -> Output {
    let mut command = Command::new(top().join(".ci/times"));
    command.args(files).output().expect(".ci/times runs")
}

#[test]
fn the_seconds_of_parts_proofs_and_edits_are_printed() {
    let (log, parts) = (written("ci.log", LOG), written("parts", PARTS));
    let output = times(&[&log, &parts]);
    let said = String::from_utf8_lossy(&output.stderr);
    assert!(output.status.success(), ".ci/times: {said}");
    assert_eq!(String::from_utf8_lossy(&output.stdout), PRINTED);
}

#[test]
fn a_log_without_crates_gives_empty_sums() {
    let (log, parts) = (written("empty.log", ""), written("no-parts", ""));
    let output = times(&[&log, &parts]);
    let printed = String::from_utf8_lossy(&output.stdout).into_owned();
    assert!(output.status.success(), ".ci/times fails on an empty log");
    assert!(
        printed.ends_with("all                  0      0\n"),
        "{printed}"
    );
}

#[test]
fn a_file_that_is_not_there_is_named() {
    let parts = written("other-parts", PARTS);
    let output = times(&[Path::new("/nowhere/ci.log"), &parts]);
    assert!(!output.status.success());
    let said = String::from_utf8_lossy(&output.stderr);
    assert!(said.contains("/nowhere/ci.log"), "{said}");
}
