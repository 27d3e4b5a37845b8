//! The browser's program: where it is, and how it is started.

use std::env;
use std::os::unix::process::CommandExt;
use std::path::{Path, PathBuf};
use std::process::{ChildStdin, ChildStdout, Command, Stdio};

use crate::folder::Folder;
use crate::group::Group;

/// The variable that names another program.
const NAMED: &str = "SPELTMALLET_CHROMIUM";

/// What the program is told.
const FLAGS: [&str; 20] = [
    "--headless",
    "--remote-debugging-pipe",
    // it runs as root in a container, with little shared memory and without a graphics card
    "--no-sandbox",
    "--disable-dev-shm-usage",
    "--disable-gpu",
    // it asks nobody for anything: no name is known, and no report of a crash is sent
    "--host-resolver-rules=MAP * ~NOTFOUND",
    "--disable-background-networking",
    "--disable-component-update",
    "--disable-extensions",
    "--disable-features=MediaRouter,OptimizationHints,Translate",
    "--disable-breakpad",
    "--no-first-run",
    "--no-default-browser-check",
    "--password-store=basic",
    // a page behind another one is drawn too
    "--disable-backgrounding-occluded-windows",
    "--disable-renderer-backgrounding",
    "--disable-background-timer-throttling",
    // a page is as wide as the screen, and looks alike on every machine with the same fonts
    "--hide-scrollbars",
    "--force-color-profile=srgb",
    "--font-render-hinting=none",
];

/// The program's standard input and output become its descriptors 3 and 4, by which DevTools speaks.
const TO_PIPES: &str = r#"exec "$0" "$@" 3<&0 4>&1 </dev/null >/dev/null"#;

/// Where the program is.
pub fn found() -> Result<PathBuf, String> {
    if let Some(named) = env::var_os(NAMED).map(PathBuf::from) {
        let shown = named.display();
        let fault = format!("{NAMED} names {shown}, and there is no such file: name the program of Chromium, or unset it");
        return named.is_file().then_some(named).ok_or(fault);
    }
    let folders = env::var_os("PATH").unwrap_or_default();
    let mut files = env::split_paths(&folders).map(|folder| folder.join("chromium"));
    files.find(|file| file.is_file()).ok_or(format!(
        "there is no chromium on the PATH: install it, as by 'apt-get install chromium', or name its program in {NAMED}, and run this again"
    ))
}

/// Starts the program as a process group of its own: the group, and the pipes to it and from it.
pub fn started(
    program: &Path,
    folder: &Folder,
) -> Result<(Group, ChildStdin, ChildStdout), String> {
    let mut profile = std::ffi::OsString::from("--user-data-dir=");
    profile.push(folder.path().join("profile"));
    let mut command = Command::new("/bin/sh");
    command.args(["-c", TO_PIPES]).arg(program);
    command.args(FLAGS).arg(profile).arg("about:blank");
    // whatever it writes goes into the folder, and it finds no screen and no other service of this machine
    for name in ["HOME", "TMPDIR", "XDG_CONFIG_HOME", "XDG_CACHE_HOME"] {
        command.env(name, folder.path());
    }
    command.env("DBUS_SESSION_BUS_ADDRESS", "disabled:");
    command.env_remove("DISPLAY").env_remove("WAYLAND_DISPLAY");
    let spawned = command
        .stdin(Stdio::piped())
        .stdout(Stdio::piped())
        .stderr(folder.stderr()?)
        .process_group(0)
        .spawn();
    let mut child = spawned.map_err(|error| format!("/bin/sh does not start: {error}"))?;
    let input = child.stdin.take().expect("its standard input");
    let output = child.stdout.take().expect("its standard output");
    let mark = format!("TMPDIR={}", folder.path().display());
    Ok((Group::of(child, mark), input, output))
}
