//! Reads what `objdump -D -r` prints of an object file or archive for x86-64: the functions with
//! their instructions, and the entries of jump tables. Sections of code are those whose names begin
//! with `.text`, and tables stand in those that begin with `.rodata`; all others are passed over.

use std::collections::{BTreeMap, BTreeSet};

use super::line::{instruction, label, relocation, sum, Instruction, Relocation};

/// A byte of a section. Sections are numbered over all members of an archive.
#[derive(Clone, Copy, Debug, PartialEq, Eq, PartialOrd, Ord)]
pub struct Place {
    pub section: usize,
    pub offset: i64,
}

impl Place {
    pub fn plus(self, bytes: i64) -> Place {
        let offset = self.offset + bytes;
        Place { offset, ..self }
    }
}

/// From a label to the next one.
pub struct Function {
    pub name: String,
    pub start: Place,
    pub instructions: Vec<Instruction>,
}

pub struct Listing {
    pub functions: Vec<Function>,
    /// The entries of jump tables, each with its relocation's target.
    entries: BTreeMap<Place, Place>,
    /// The entries whose address the code takes: there a table begins.
    tables: BTreeSet<Place>,
}

impl Listing {
    /// The function that begins at a place.
    pub fn function_at(&self, place: Place) -> Option<usize> {
        self.functions.iter().position(|f| f.start == place)
    }

    /// Where a jump by the table at a place can go. An entry is a distance from the table's start,
    /// and its relocation is made for the distance from the entry: the target is the relocation's
    /// less what lies between the two. A table goes on until the next one begins, or until
    /// something else than an entry.
    pub fn targets(&self, table: Place) -> Vec<Place> {
        let places = (0..).map(|n| table.plus(4 * n));
        let entries = places.map_while(|place| {
            let is_next = place != table && self.tables.contains(&place);
            let target = self.entries.get(&place).filter(|_| !is_next)?;
            Some(target.plus(table.offset - place.offset))
        });
        entries.collect()
    }
}

#[derive(PartialEq)]
enum Kind {
    Code,
    Constants,
    Other,
}

struct Section {
    member: usize,
    name: String,
    kind: Kind,
}

/// What is read so far. Relocations get their places at the end: they can name what comes later.
#[derive(Default)]
struct Reader {
    members: usize,
    sections: Vec<Section>,
    functions: Vec<Function>,
    constants: Vec<(Place, Relocation)>,
}

/// Reads a whole listing; the message names the line that cannot be read.
pub fn read(text: &str) -> Result<Listing, String> {
    let mut reader = Reader::default();
    for (number, line) in text.lines().enumerate() {
        let said = reader.line(line);
        said.map_err(|what| format!("line {} of the listing, '{line}': {what}", number + 1))?;
    }
    Ok(reader.end())
}

impl Reader {
    fn line(&mut self, line: &str) -> Result<(), &'static str> {
        if line.is_empty() || line.starts_with("In archive ") {
            return Ok(());
        }
        if let Some((_, format)) = line.split_once(":     file format ") {
            self.members += 1;
            let fits = format == "elf64-x86-64";
            return fits.then_some(()).ok_or("the file is not for x86-64");
        }
        if let Some(rest) = line.strip_prefix("Disassembly of section ") {
            return self.section(rest.strip_suffix(':').unwrap_or(rest));
        }
        match self.sections.last().map(|section| &section.kind) {
            Some(Kind::Code) => self.code(line),
            Some(Kind::Constants) => self.constant(line),
            Some(Kind::Other) => Ok(()),
            None => Err("it stands in no section"),
        }
    }

    fn section(&mut self, name: &str) -> Result<(), &'static str> {
        let is = |stem: &str| name == stem || name.starts_with(&format!("{stem}."));
        let kind = match () {
            () if is(".text") => Kind::Code,
            () if is(".rodata") => Kind::Constants,
            () => Kind::Other,
        };
        let twice = |other: &Section| other.member == self.members && other.name == name;
        if kind != Kind::Other && self.sections.iter().any(twice) {
            return Err("the file has two sections of that name");
        }
        self.sections.push(Section {
            member: self.members,
            name: name.to_string(),
            kind,
        });
        Ok(())
    }

    /// A byte of the section that is being read.
    fn place(&self, offset: i64) -> Place {
        let section = self.sections.len() - 1;
        Place { section, offset }
    }

    /// A label, an instruction, or what the linker is to put into the instruction before.
    fn code(&mut self, line: &str) -> Result<(), &'static str> {
        if let Some((at, name)) = label(line) {
            self.functions.push(Function {
                name: name.to_string(),
                start: self.place(at),
                instructions: Vec::new(),
            });
            return Ok(());
        }
        let section = self.sections.len() - 1;
        let function = self.functions.last_mut();
        let function = function.filter(|function| function.start.section == section);
        let function = function.ok_or("it stands in no function")?;
        if let Some((_, relocation)) = relocation(line) {
            let last = function.instructions.last_mut();
            let last = last.filter(|instruction| instruction.relocation.is_none());
            let last = last.ok_or("it belongs to no instruction, or is the second of one")?;
            last.relocation = Some(relocation);
            return Ok(());
        }
        let read = instruction(line).ok_or("it is no instruction")?;
        function.instructions.push(read);
        Ok(())
    }

    /// Of constants only what the linker is to put there is read: the rest is no entry of a table.
    fn constant(&mut self, line: &str) -> Result<(), &'static str> {
        if line.starts_with("\t\t\t") {
            let (at, relocation) = relocation(line).ok_or("it is no relocation")?;
            self.constants.push((self.place(at), relocation));
        }
        Ok(())
    }

    /// Each relocation gets its place, and with that the tables are known.
    fn end(mut self) -> Listing {
        let mut functions = std::mem::take(&mut self.functions);
        let starts = functions.iter().map(|f| (f.name.clone(), f.start));
        let names: Vec<(String, Place)> = starts.collect();
        let find = |from: Place, target: &str| self.find(&names, from.section, target);
        let resolve = |from: Place, instruction: &mut Instruction| {
            if let Some(relocation) = &mut instruction.relocation {
                relocation.place = find(from, &relocation.target);
            }
        };
        for function in &mut functions {
            let each = function.instructions.iter_mut();
            each.for_each(|instruction| resolve(function.start, instruction));
        }
        let constants = self.constants.iter();
        let near = constants.filter(|(_, relocation)| relocation.kind == "R_X86_64_PC32");
        let entry = |(at, relocation): &(Place, Relocation)| {
            let place = find(*at, &relocation.target)?;
            Some((*at, place))
        };
        let entries: BTreeMap<Place, Place> = near.filter_map(entry).collect();
        let instructions = functions.iter().flat_map(|f| &f.instructions);
        let taken = instructions.filter_map(Instruction::address);
        let tables = taken.filter(|place| entries.contains_key(place)).collect();
        Listing {
            functions,
            entries,
            tables,
        }
    }

    /// What a relocation in a section names: a section or a function of the same member, else a
    /// function that one other member has.
    fn find(&self, names: &[(String, Place)], from: usize, target: &str) -> Option<Place> {
        let (name, more) = sum(target)?;
        let member = self.sections[from].member;
        let is_section = |s: &Section| s.member == member && s.name == name;
        if let Some(section) = self.sections.iter().position(is_section) {
            let start = Place { section, offset: 0 };
            return Some(start.plus(more));
        }
        let named = names.iter().filter(|(other, _)| other == name);
        let places: Vec<Place> = named.map(|(_, place)| *place).collect();
        let is_own = |place: &&Place| self.sections[place.section].member == member;
        let own = places.iter().find(is_own).copied();
        let only = (places.len() == 1).then(|| places[0]);
        Some(own.or(only)?.plus(more))
    }
}
