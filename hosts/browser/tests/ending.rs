//! A browser that is dropped leaves no process and no folder, and so does one whose test panics.

use std::fs;
use std::panic::{catch_unwind, AssertUnwindSafe};
use std::path::{Path, PathBuf};

use browser::{Browser, Size};

const SIZE: Size = Size {
    width: 400,
    height: 300,
    mobile: false,
    scale: 1.0,
};

/// How many processes have this folder as TMPDIR, in whatever group they are.
fn processes(folder: &Path) -> usize {
    let marked = format!("TMPDIR={}", folder.display());
    let all = fs::read_dir("/proc").expect("a machine with /proc");
    let environments = all.flatten().map(|process| process.path().join("environ"));
    let environments = environments.filter_map(|file| fs::read(file).ok());
    let is_marked = |environment: &Vec<u8>| {
        let mut variables = environment.split(|&byte| byte == 0);
        variables.any(|variable| variable == marked.as_bytes())
    };
    environments.filter(is_marked).count()
}

/// Starts a browser with a page in it: where its folder is.
fn in_use(browser: &Browser) -> PathBuf {
    let folder = browser.folder().to_path_buf();
    let file = folder.join("page.html");
    fs::write(&file, "<!doctype html><title>page</title><p>words").expect("the page is written");
    let page = browser.open(&file, SIZE).expect("the page opens");
    assert_eq!(page.evaluate("document.title"), Ok("page".to_string()));
    assert!(processes(&folder) >= 2, "a browser and its page");
    folder
}

fn assert_nothing_left(folder: &Path) {
    assert_eq!(processes(folder), 0, "processes");
    assert!(!folder.exists(), "{} is left", folder.display());
}

#[test]
fn nothing_is_left_of_a_browser() {
    let browser = Browser::start().unwrap_or_else(|fault| panic!("{fault}"));
    let folder = in_use(&browser);
    drop(browser);
    assert_nothing_left(&folder);
}

#[test]
fn nothing_is_left_when_a_test_panics() {
    let mut folder = PathBuf::new();
    let panicked = catch_unwind(AssertUnwindSafe(|| {
        let browser = Browser::start().unwrap_or_else(|fault| panic!("{fault}"));
        folder = in_use(&browser);
        let _page = browser.open(&folder.join("page.html"), SIZE);
        panic!("as a test that fails does");
    }));
    assert!(panicked.is_err());
    assert_nothing_left(&folder);
}
