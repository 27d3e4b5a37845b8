//! Without a browser on the machine one line says what to install. The variables are the whole process's, so that this file has one test.

use std::env;

use browser::Browser;

fn refused() -> String {
    match Browser::start() {
        Ok(_) => panic!("there is no browser to start"),
        Err(fault) => fault,
    }
}

#[test]
fn what_is_missing_is_named() {
    env::remove_var("SPELTMALLET_CHROMIUM");
    env::set_var("PATH", "/nowhere:/proc");
    assert_eq!(
        refused(),
        "there is no chromium on the PATH: install it, as by 'apt-get install chromium', or name its program in SPELTMALLET_CHROMIUM, and run this again"
    );
    env::set_var("SPELTMALLET_CHROMIUM", "/nowhere/chromium");
    assert_eq!(
        refused(),
        "SPELTMALLET_CHROMIUM names /nowhere/chromium, and there is no such file: name the program of Chromium, or unset it"
    );
    // a program that is no browser ends at once, and what it says is shown
    env::set_var("SPELTMALLET_CHROMIUM", "/bin/ls");
    let fault = refused();
    assert!(
        fault.starts_with("/bin/ls does not start: Browser.getVersion: the browser has ended; "),
        "{fault}"
    );
    assert!(fault.contains("unrecognized option"), "{fault}");
}
