//! A bound on the door's stack that holds for every call: from the instructions of the archive, and
//! not from calls that were tried. Each function is followed over all its ways, jump tables among
//! them, and the deepest chain of calls is summed up.
//!
//! What cannot be summed up is refused: recursion, a call or jump to a place that is not known, a
//! frame whose size is not a constant, an instruction that two ways reach with different depths, a
//! return with stack still taken, instructions that no way leads to, and an instruction or a line
//! that is not known.
//!
//! Three things are taken from the compiler: an index is not below 0, so that of
//! `-0x58(%rsp,%rdx,1)` the number counts; an address in the frame that is put into a register is
//! not used below itself; and a function keeps the registers that it has to keep. The painted stack
//! is held to the bound, and shows calls where this is wrong.

mod flow;
mod line;
mod listing;
mod step;
mod tables;
#[cfg(test)]
mod tests;

use std::collections::BTreeMap;
use std::process::Command;

use flow::{follow, Found, Taken};
use listing::Listing;

/// The door's names: in the archive, and where it was compiled into a program.
const DOORS: [&str; 2] = ["speltmallet_door", "kernel::speltmallet_door"];

/// A function of the deepest chain of calls, with what it has taken where it calls the next one.
#[derive(Debug, PartialEq)]
pub struct Link {
    pub name: String,
    pub taken: Taken,
}

/// What the door takes at the most.
#[derive(Debug, PartialEq)]
pub struct Bound {
    /// From the door on.
    pub chain: Vec<Link>,
    /// How many functions the door reaches; each was followed.
    pub functions: usize,
}

impl Bound {
    /// In bytes below the caller's stack pointer; the return address counts.
    pub fn bytes(&self) -> i64 {
        self.chain.iter().map(|link| link.taken.bytes()).sum()
    }

    /// Prints the chain and its sum.
    pub fn print(&self) {
        println!("| Function, from the door on | frame | red zone |\n|---|---:|---:|");
        for Link { name, taken } in &self.chain {
            println!("| {name} | {} | {} |", taken.frame, taken.red_zone);
        }
        let bytes = self.bytes();
        println!("| **together** | **{bytes}** | |\n");
        println!(
            "At most {bytes} bytes: no recursion, no frame of changing size, {} functions read.\n",
            self.functions
        );
    }
}

/// The bound of the door in an object file or archive; the message says why there is none.
pub fn of_file(file: &str) -> Result<Bound, String> {
    let mut command = Command::new(env!("BENCH_TOOL"));
    command.args(["disassemble", "-D", "-r", file]);
    let output = command.env("LC_ALL", "C").output();
    let output = output.map_err(|error| format!("hosts/x86_64 cannot be run: {error}"))?;
    if !output.status.success() {
        let said = String::from_utf8_lossy(&output.stderr);
        return Err(said.trim().to_string());
    }
    bound(&String::from_utf8_lossy(&output.stdout))
}

/// The bound of the door in what `objdump -D -r` prints.
pub fn bound(text: &str) -> Result<Bound, String> {
    let listing = listing::read(text)?;
    let door = |name: &&str| listing.functions.iter().position(|f| f.name == *name);
    let door = DOORS.iter().find_map(door);
    let door = door.ok_or(format!("there is no function {}", DOORS.join(" or ")))?;
    let mut search = Search {
        listing: &listing,
        found: BTreeMap::new(),
        path: Vec::new(),
    };
    search.search(door)?;
    Ok(Bound {
        chain: search.chain(door),
        functions: search.found.len(),
    })
}

/// What a function comes to with all that it calls.
struct Deepest {
    bytes: i64,
    taken: Taken,
    /// Whom it calls there.
    next: Option<usize>,
}

struct Search<'a> {
    listing: &'a Listing,
    found: BTreeMap<usize, Deepest>,
    /// The calls that led to the function at hand.
    path: Vec<usize>,
}

impl Search<'_> {
    /// The bytes that a function takes with all that it calls.
    fn search(&mut self, function: usize) -> Result<i64, String> {
        if let Some(begin) = self.path.iter().position(|&on| on == function) {
            let circle = self.path[begin..].iter().chain([&function]);
            let names = circle.map(|&on| &self.listing.functions[on].name[..]);
            return Err(format!(
                "recursion: {}",
                names.collect::<Vec<_>>().join(" calls ")
            ));
        }
        if let Some(known) = self.found.get(&function) {
            return Ok(known.bytes);
        }
        self.path.push(function);
        let found = follow(self.listing, &self.listing.functions[function])?;
        let deepest = self.deepest(&found)?;
        let bytes = deepest.bytes;
        self.path.pop();
        self.found.insert(function, deepest);
        Ok(bytes)
    }

    /// The deepest of what a function takes itself and what each of its calls comes to.
    fn deepest(&mut self, found: &Found) -> Result<Deepest, String> {
        let mut deepest = Deepest {
            bytes: found.taken.bytes(),
            taken: found.taken,
            next: None,
        };
        for call in &found.calls {
            let bytes = call.frame + self.search(call.to)?;
            if bytes > deepest.bytes {
                deepest = Deepest {
                    bytes,
                    taken: Taken {
                        frame: call.frame,
                        red_zone: 0,
                    },
                    next: Some(call.to),
                };
            }
        }
        Ok(deepest)
    }

    /// The functions of the deepest chain.
    fn chain(&self, door: usize) -> Vec<Link> {
        let deepest = |function: &usize| &self.found[function];
        let functions = std::iter::successors(Some(door), |function| deepest(function).next);
        let link = |function: usize| Link {
            name: self.listing.functions[function].name.clone(),
            taken: deepest(&function).taken,
        };
        functions.map(link).collect()
    }
}
