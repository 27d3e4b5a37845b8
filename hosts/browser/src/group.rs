//! The browser's processes, which end together. They are one process group, but for those that Chromium puts into groups of their own; all of
//! them have a variable by which they are known.

use std::fs;
use std::path::Path;
use std::process::{Child, Command, Stdio};
use std::thread;
use std::time::{Duration, Instant};

/// Killed processes are gone after this time.
const PATIENCE: Duration = Duration::from_secs(10);

/// A process that leads a process group, and all that it starts.
pub struct Group {
    leader: Child,
    /// `NAME=VALUE`, which no other process of this machine has.
    mark: String,
}

impl Group {
    /// The group of a process that leads one, and that was started with this variable.
    pub fn of(leader: Child, mark: String) -> Group {
        Group { leader, mark }
    }

    /// The numbers of its processes that still run. One that has ended and that nobody has asked about does not.
    fn running(&self) -> Vec<String> {
        let processes = fs::read_dir("/proc").into_iter().flatten().flatten();
        let ours = processes.filter(|process| self.is_ours(&process.path()));
        ours.map(|process| process.file_name().to_string_lossy().into_owned())
            .collect()
    }

    /// Is this folder of /proc that of a process of the group, or of one with the mark?
    fn is_ours(&self, process: &Path) -> bool {
        let stat = fs::read_to_string(process.join("stat")).unwrap_or_default();
        let environment = fs::read(process.join("environ")).unwrap_or_default();
        let mut variables = environment.split(|&byte| byte == 0);
        is_of_group(&stat, self.leader.id())
            || variables.any(|variable| variable == self.mark.as_bytes())
    }
}

/// Is this the line `NUMBER (NAME) STATE PARENT GROUP ..` of a process of the group that has not ended? A name may have brackets of its own.
fn is_of_group(stat: &str, group: u32) -> bool {
    let behind = stat.rsplit_once(')').map_or("", |(_, behind)| behind);
    let words: Vec<&str> = behind.split_whitespace().take(3).collect();
    match words[..] {
        ["Z" | "X", ..] => false,
        [_, _, found] => found == group.to_string(),
        _ => false,
    }
}

/// Kills the processes of these numbers. One that has ended meanwhile is none.
fn kill(numbers: &[String]) {
    let _ = Command::new("/bin/sh")
        .args(["-c", r#"kill -s KILL -- "$@""#, "sh"])
        .args(numbers)
        .stderr(Stdio::null())
        .status();
}

impl Drop for Group {
    /// Kills the processes, and waits until none of them runs.
    fn drop(&mut self) {
        kill(&[format!("-{}", self.leader.id())]);
        let _ = self.leader.kill();
        let _ = self.leader.wait();
        let deadline = Instant::now() + PATIENCE;
        let mut left = self.running();
        while !left.is_empty() && Instant::now() < deadline {
            kill(&left);
            thread::sleep(Duration::from_millis(2));
            left = self.running();
        }
    }
}

#[cfg(test)]
mod tests {
    use std::os::unix::process::CommandExt;
    use std::process::{Command, Stdio};
    use std::thread;
    use std::time::Duration;

    use super::Group;

    /// A group of three, with one process more that has left it, all of which would run for long.
    fn started(mark: &str) -> Group {
        let (name, value) = mark.split_once('=').expect("a variable");
        let leader = Command::new("/bin/sh")
            .args(["-c", "sleep 60 & sleep 60 & setsid sleep 60 & wait"])
            .env(name, value)
            .stdout(Stdio::null())
            .stderr(Stdio::null())
            .process_group(0)
            .spawn();
        Group::of(leader.expect("a shell"), mark.to_string())
    }

    #[test]
    fn processes_end_in_the_group_and_outside_of_it() {
        let mark = format!("SPELTMALLET_GROUP={}", std::process::id());
        let group = started(&mark);
        while group.running().len() < 4 {
            thread::sleep(Duration::from_millis(2));
        }
        // the look at what is left is another group's with the same mark
        let bystander = Command::new("true").process_group(0).spawn();
        let left = Group::of(bystander.expect("a process"), mark);
        drop(group);
        assert_eq!(left.running(), Vec::<String>::new());
    }
}
