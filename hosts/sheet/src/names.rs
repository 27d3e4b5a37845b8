//! The names of threads: a thread that is given none goes by its number.

use std::collections::BTreeMap;

use model::{INIT, THREADS};

/// The longest name, in characters.
const LONGEST: usize = 60;

/// The names that were given.
#[derive(Clone, Debug, Default)]
pub struct Names {
    given: BTreeMap<usize, String>,
}

impl Names {
    /// Reads `1=left lane (odd seats),2=right lane`. A comma begins another name only where a number and `=` stand behind it.
    pub fn read(text: &str) -> Result<Names, String> {
        let mut given: BTreeMap<usize, String> = BTreeMap::new();
        let mut last = None;
        for piece in text.split(',') {
            match (entry(piece), last) {
                (Some((thread, name)), _) => {
                    if given.insert(thread, name.to_string()).is_some() {
                        return Err(format!("thread {thread} is named twice"));
                    }
                    last = Some(thread);
                }
                (None, Some(thread)) => {
                    let name = given.entry(thread).or_default();
                    *name = format!("{name},{piece}");
                }
                (None, None) => {
                    return Err(format!("'{piece}' is no name of a thread: accepted is as \"1=left lane,2=right lane\""));
                }
            }
        }
        given
            .iter()
            .try_for_each(|(&thread, name)| fits(thread, name))?;
        Ok(Names { given })
    }

    /// The thread's name, or its number.
    pub fn of(&self, thread: usize) -> String {
        match self.given.get(&thread) {
            Some(name) => name.trim().to_string(),
            None if thread == INIT => String::from("Init"),
            None => format!("thread {thread}"),
        }
    }

    /// It has a name that is not its number.
    pub fn has(&self, thread: usize) -> bool {
        self.given.contains_key(&thread) || thread == INIT
    }
}

/// A number in decimal, `=` and a name.
fn entry(piece: &str) -> Option<(usize, &str)> {
    let (number, name) = piece.split_once('=')?;
    let number = number.trim();
    let is_decimal = !number.is_empty() && number.bytes().all(|byte| byte.is_ascii_digit());
    is_decimal.then(|| (number.parse().unwrap_or(THREADS), name))
}

fn fits(thread: usize, name: &str) -> Result<(), String> {
    let last = THREADS - 1;
    if thread > last {
        return Err(format!(
            "a name is given to a thread above {last}: accepted are 0 to {last}"
        ));
    }
    if name.trim().is_empty() {
        return Err(format!("the name of thread {thread} is empty"));
    }
    if name.trim().chars().count() > LONGEST {
        return Err(format!(
            "the name of thread {thread} is longer than {LONGEST} characters"
        ));
    }
    if name.chars().any(char::is_control) {
        return Err(format!(
            "the name of thread {thread} has a character that can't be shown"
        ));
    }
    Ok(())
}
