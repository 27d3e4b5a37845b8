//! One function: how deep the stack pointer stands at each instruction, followed over every way
//! from the entry.

use std::collections::BTreeMap;

use super::line::Instruction;
use super::listing::{Function, Listing, Place};
use super::step::{below, is_padding, step, Step};
use super::tables::Facts;

/// The bytes of a return address.
const RETURN: i64 = 8;

/// What a function takes of stack.
#[derive(Clone, Copy, Debug, Default, PartialEq)]
pub struct Taken {
    /// Its return address, pushes and subtractions.
    pub frame: i64,
    /// What it reaches below the stack pointer.
    pub red_zone: i64,
}

impl Taken {
    pub fn bytes(self) -> i64 {
        self.frame + self.red_zone
    }
}

/// A call, or a jump to another function, which is a call that gives the own frame up first.
#[derive(Clone, Copy, Debug, PartialEq)]
pub struct Call {
    pub to: usize,
    /// What the caller has taken by then; nothing of it is left at a jump.
    pub frame: i64,
}

/// What was found of a function.
pub struct Found {
    /// What it takes itself, where that is the most.
    pub taken: Taken,
    pub calls: Vec<Call>,
}

/// What is known before an instruction.
#[derive(Clone, Copy, PartialEq)]
struct State {
    /// How far the stack pointer is below where it stood at the entry.
    depth: i64,
    facts: Facts,
}

impl State {
    /// What is known where two ways meet.
    fn joined(self, other: State) -> Result<State, String> {
        let (one, two) = (self.depth, other.depth);
        if one != two {
            return Err(format!(
                "it is reached with {one} and with {two} bytes taken"
            ));
        }
        Ok(State {
            facts: self.facts.common(other.facts),
            ..self
        })
    }
}

/// Where an instruction goes on.
enum Way {
    /// To an instruction of the function.
    To(usize),
    /// To another function's first one.
    Leaves(usize),
}

struct Flow<'a> {
    listing: &'a Listing,
    function: &'a Function,
    /// The instructions' numbers by their places.
    numbers: BTreeMap<i64, usize>,
    states: Vec<Option<State>>,
}

/// Follows a function; the message says where and why it is refused.
pub fn follow(listing: &Listing, function: &Function) -> Result<Found, String> {
    let instructions = function.instructions.iter();
    let mut flow = Flow {
        listing,
        function,
        numbers: instructions.enumerate().map(|(n, i)| (i.at, n)).collect(),
        states: vec![None; function.instructions.len()],
    };
    let entry = State {
        depth: 0,
        facts: Facts::NONE,
    };
    let mut open = vec![(0, entry)];
    while let Some((number, state)) = open.pop() {
        let ways = flow.visit(number, state);
        open.extend(ways.map_err(|what| flow.at(number, &what))?);
    }
    flow.found()
}

impl Flow<'_> {
    /// A message with its place.
    fn at(&self, number: usize, what: &str) -> String {
        let name = &self.function.name;
        match self.function.instructions.get(number) {
            Some(instruction) => format!("{name} at {:#x}: {what}", instruction.at),
            None => format!("{name}: {what}"),
        }
    }

    /// An instruction is reached with a state; gives the instructions that it goes on to, with
    /// theirs, or none where nothing is new.
    fn visit(&mut self, number: usize, state: State) -> Result<Vec<(usize, State)>, String> {
        let known = self.states.get(number).ok_or("it runs past its end")?;
        let state = known.map_or(Ok(state), |known| known.joined(state))?;
        if *known == Some(state) {
            return Ok(Vec::new());
        }
        self.states[number] = Some(state);
        let instruction = &self.function.instructions[number];
        let after = State {
            depth: state.depth + taken(instruction)?,
            facts: state.facts.after(instruction),
        };
        if after.depth < 0 {
            return Err("it gives back more stack than was taken".to_string());
        }
        let ways = self.ways(number, state)?.into_iter();
        let inside = ways.filter_map(|way| match way {
            Way::To(next) => Some((next, after)),
            Way::Leaves(_) => None,
        });
        Ok(inside.collect())
    }

    /// Where an instruction can go on.
    fn ways(&self, number: usize, state: State) -> Result<Vec<Way>, String> {
        let instruction = &self.function.instructions[number];
        let next = Way::To(number + 1);
        match step(instruction)? {
            Step::Takes(_) | Step::Calls => Ok(vec![next]),
            Step::Branches => Ok(vec![next, self.way(instruction, state)?]),
            Step::Jumps => Ok(vec![self.way(instruction, state)?]),
            Step::JumpsBy(register) => {
                let table = state.facts.table(register);
                self.by_table(table.ok_or("it jumps by no table that is known")?)
            }
            Step::Returns if state.depth != 0 => {
                Err(format!("it returns with {} bytes taken", state.depth))
            }
            Step::Returns | Step::Traps => Ok(Vec::new()),
        }
    }

    /// The instruction of this function at a place.
    fn inside(&self, place: Place) -> Option<usize> {
        let here = place.section == self.function.start.section;
        self.numbers.get(&place.offset).copied().filter(|_| here)
    }

    /// Where a jump goes: into this function, or to another one's first instruction with nothing
    /// taken any more.
    fn way(&self, instruction: &Instruction, state: State) -> Result<Way, String> {
        let place = self.target(instruction)?;
        if let Some(number) = self.inside(place) {
            return Ok(Way::To(number));
        }
        let to = self.listing.function_at(place);
        let to = to.ok_or("it jumps to no instruction of its own and to no function")?;
        match state.depth {
            0 => Ok(Way::Leaves(to)),
            depth => {
                let name = &self.listing.functions[to].name;
                Err(format!("it jumps to {name} with {depth} bytes taken"))
            }
        }
    }

    /// The place that a call or jump names: by its relocation, else in its own section.
    fn target(&self, instruction: &Instruction) -> Result<Place, String> {
        if let Some(relocation) = &instruction.relocation {
            let place = relocation.meant();
            return place.ok_or(format!("{} is not known", relocation.target));
        }
        let offset = i64::from_str_radix(&instruction.operands[0], 16);
        let offset = offset.map_err(|_| "where it goes cannot be read")?;
        let section = self.function.start.section;
        Ok(Place { section, offset })
    }

    /// Where a jump by a table goes: to an instruction of this function by each entry.
    fn by_table(&self, table: Place) -> Result<Vec<Way>, String> {
        let places = self.listing.targets(table);
        if places.is_empty() {
            return Err("its table has no entries".to_string());
        }
        let way = |place| self.inside(place).map(Way::To);
        let ways: Option<Vec<Way>> = places.into_iter().map(way).collect();
        Ok(ways.ok_or("its table has an entry that is no instruction of its own")?)
    }

    /// What all instructions come to, once every way is followed.
    fn found(&self) -> Result<Found, String> {
        let mut found = Found {
            taken: Taken::default(),
            calls: Vec::new(),
        };
        for number in 0..self.states.len() {
            let added = self.add(number, &mut found);
            added.map_err(|what| self.at(number, &what))?;
        }
        Ok(found)
    }

    /// What one instruction adds; one that no way leads to has to be padding. What it takes itself
    /// is seen at the next one.
    fn add(&self, number: usize, found: &mut Found) -> Result<(), String> {
        let instruction = &self.function.instructions[number];
        let Some(state) = self.states[number] else {
            return match is_padding(instruction) {
                true => Ok(()),
                false => Err("no way leads to it".to_string()),
            };
        };
        let frame = RETURN + state.depth;
        let red_zone = below(instruction)?;
        let taken = Taken { frame, red_zone };
        if taken.bytes() > found.taken.bytes() {
            found.taken = taken;
        }
        if step(instruction)? == Step::Calls {
            let to = self.listing.function_at(self.target(instruction)?);
            let to = to.ok_or("it calls no function")?;
            found.calls.push(Call { to, frame });
        }
        for way in self.ways(number, state)? {
            if let Way::Leaves(to) = way {
                found.calls.push(Call { to, frame: 0 });
            }
        }
        Ok(())
    }
}

/// The bytes of stack that an instruction takes for what comes after it.
fn taken(instruction: &Instruction) -> Result<i64, String> {
    match step(instruction)? {
        Step::Takes(bytes) => Ok(bytes),
        _ => Ok(0),
    }
}
