//! Jumps by a table: what is known of the registers on the way from `lea TABLE(%rip),%rcx` by
//! `movslq (%rcx,%rax,4),%rax` and `add %rcx,%rax` to `jmp *%rax`.

use super::line::Instruction;
use super::listing::Place;
use super::step::{whole, written, REGISTERS};

/// What a register holds.
#[derive(Clone, Copy, Debug, PartialEq)]
enum Fact {
    /// The address of a table.
    Table(Place),
    /// An entry of the table.
    Entry(Place),
    /// The sum of the two: where the jump goes.
    Target(Place),
}

/// What is known of each register.
#[derive(Clone, Copy, Debug, PartialEq)]
pub struct Facts([Option<Fact>; REGISTERS]);

impl Facts {
    pub const NONE: Facts = Facts([None; REGISTERS]);

    /// What is known on both of two ways to an instruction.
    pub fn common(self, other: Facts) -> Facts {
        let both = |r: usize| self.0[r].filter(|_| self.0[r] == other.0[r]);
        Facts(std::array::from_fn(both))
    }

    /// The table by which a jump to the register's address goes.
    pub fn table(self, by: usize) -> Option<Place> {
        match self.0[by] {
            Some(Fact::Target(table)) => Some(table),
            _ => None,
        }
    }

    fn of(self, name: &str) -> Option<Fact> {
        self.0[whole(name)?]
    }

    fn with(mut self, name: &str, fact: Option<Fact>) -> Facts {
        if let Some(register) = whole(name) {
            self.0[register] = fact;
        }
        self
    }

    fn without(mut self, register: usize) -> Facts {
        self.0[register] = None;
        self
    }

    /// What is known after an instruction: nothing of a register that it names, unless it is one of
    /// the three.
    pub fn after(self, instruction: &Instruction) -> Facts {
        let Some(written) = written(instruction) else {
            return Facts::NONE;
        };
        let rest = written.into_iter().fold(self, Facts::without);
        let (name, operands) = instruction.words();
        match (name, &operands[..]) {
            ("lea", [_, to]) => rest.with(to, instruction.address().map(Fact::Table)),
            ("movslq", [from, to]) => self.entry(rest, from, to),
            ("add", [one, to]) => match (self.of(one), self.of(to)) {
                (Some(Fact::Table(table)), Some(Fact::Entry(of)))
                | (Some(Fact::Entry(of)), Some(Fact::Table(table)))
                    if of == table =>
                {
                    let kept = rest.with(one, self.of(one));
                    kept.with(to, Some(Fact::Target(table)))
                }
                _ => rest,
            },
            _ => rest,
        }
    }

    /// `movslq (%rcx,%rax,4),%rax` where %rcx has a table's address.
    fn entry(self, rest: Facts, from: &str, to: &str) -> Facts {
        let base = from
            .strip_prefix('(')
            .and_then(|from| from.strip_suffix(",4)"));
        let base = base.and_then(|words| words.split_once(','));
        let Some((base, _)) = base else {
            return rest;
        };
        match self.of(base) {
            Some(Fact::Table(table)) => {
                let kept = rest.with(base, Some(Fact::Table(table)));
                kept.with(to, Some(Fact::Entry(table)))
            }
            _ => rest,
        }
    }
}
