//! What Incident.antt says: who the threads are, the requests of its runs, and the figures that it states as proved. They are read out of
//! its text. What this program states again by itself (the doors, the counting) has to stand there word for word, so that a change of the
//! file is seen here.

use model::RECORD;

use crate::source::Source;

/// The file, from the top of the repository.
pub const FILE: &str = "crates/promises/specs/Incident.antt";

/// The rank of the lanes, as `counted` has it.
pub const RANK: u8 = 5;

/// The definitions that this program states again, each clause on a line of its own.
const STATED_AGAIN: [(&str, &str); 5] = [
    (
        "broken_off",
        "broken_off before after = let t = at after.threads before.running in is_ready t && ltb t.priority (caller after).priority",
    ),
    (
        "sends_back",
        "sends_back t r a = let d = door printer t r a in let before = decode printer t in let after = decode printer d.table in \
         let sent = with_threads (move before.running (λ t. t) after.threads) after in \
         record { code = d.code; table = if broken_off before after then encode sent else d.table; area = d.area }",
    ),
    ("again", "again zero rs = []\nagain (suc n) rs = rs ++ again n rs"),
    (
        "counted",
        "counted d rs from steps = figures d 5 (record { table = lanes; handed = asks rs; from = from; steps = steps })",
    ),
    (
        "lanes_get",
        "lanes_get n l r = record { sound = true; same = true; quiet = true; charged = n; turns = 4; \
         shares = share left 2 l ∷ share right 2 r ∷ [] }",
    ),
];

/// A request, as its record of 12 bytes.
pub type Record = [u8; RECORD];

/// Whose rule a run follows: `door printer`, or `sends_back`.
#[derive(Clone, Copy, Debug, PartialEq, Eq)]
pub enum Rule {
    Rules,
    Incident,
}

/// A claim of `OnlyTheOddSeats`: a run, the part of it that is counted, and what is charged to the rank and to each lane.
#[derive(Clone, Debug, PartialEq, Eq)]
pub struct Claim {
    pub name: String,
    pub rule: Rule,
    pub requests: Vec<Record>,
    pub from: usize,
    pub steps: usize,
    pub charged: usize,
    pub left: usize,
    pub right: usize,
}

/// The file, read.
#[derive(Debug)]
pub struct Incident {
    pub left: usize,
    pub right: usize,
    pub cutter: usize,
    /// What makes the table at the start, `lanes`, from a fresh one.
    pub lanes: Vec<Record>,
    pub claims: Vec<Claim>,
}

impl Incident {
    /// Reads the file's text.
    pub fn read(text: &str) -> Result<Incident, String> {
        let source = Source { text };
        for (name, stated) in STATED_AGAIN {
            let found = source.clauses(name)?;
            if found != stated {
                return Err(format!(
                    "{FILE}: `{name}` is not the one that hosts/picture states again.\nin the file: {found}\nstated again: {stated}\n\
                     Mend hosts/picture to say what the file says."
                ));
            }
        }
        Ok(Incident {
            left: source.number("left")?,
            right: source.number("right")?,
            cutter: source.number("cutter")?,
            lanes: source.lanes()?,
            claims: source.claims()?,
        })
    }

    /// The claim of this name.
    pub fn claim(&self, name: &str) -> Result<&Claim, String> {
        let found = self.claims.iter().find(|claim| claim.name == name);
        found.ok_or(format!("{FILE}: `OnlyTheOddSeats` has no field `{name}`"))
    }
}
