//! What is proved, as a page cites it: each theorem by its name and file, with what it says in a sentence.

/// A theorem.
pub struct Theorem {
    pub says: &'static str,
    pub name: &'static str,
    pub file: &'static str,
}

const fn theorem(says: &'static str, name: &'static str, file: &'static str) -> Theorem {
    Theorem { says, name, file }
}

/// Those that the page rests on.
pub const THEOREMS: [Theorem; 11] = [
    theorem(
        "Whatever table and request are handed over, each call ends, and a bad one gets its refusal number and changes nothing.",
        "Demand1",
        "crates/promises/specs/Demand1.antt",
    ),
    theorem(
        "Every answer, the next table and the running thread are those of the rules.",
        "Demand2",
        "crates/promises/specs/Demand2.antt",
    ),
    theorem(
        "Over whole rounds each thread of the rank is charged exactly its turns, whoever breaks in.",
        "WholeRounds",
        "crates/promises/specs/Demand3.antt",
    ),
    theorem(
        "Never far: in any part of a stretch, a thread with turn t in a rank whose turns sum to R is at most t × (R − t) ÷ R ticks from its share.",
        "NeverFar",
        "crates/lateness/specs/Moments.antt",
    ),
    theorem(
        "Never late: a part of a stretch in which it is charged nothing has at most R − t ticks of its rank.",
        "NeverLate",
        "crates/lateness/specs/Moments.antt",
    ),
    theorem(
        "Neither bound can be smaller: there are runs that reach them.",
        "Reached",
        "crates/lateness/specs/Reached.antt",
    ),
    theorem(
        "The rule of the incident keeps neither bound.",
        "BrokenByIncident",
        "crates/lateness/specs/Broken.antt",
    ),
    theorem(
        "The rule of the incident does not give each lane its turns over whole rounds either.",
        "Incident",
        "crates/promises/specs/Incident.antt",
    ),
    theorem(
        "The report's lag is 0 after whole rounds, where the terms hold since the lanes were created.",
        "NoLags",
        "crates/promises/specs/Lanes.antt",
    ),
    theorem(
        "Between whole rounds the report's lag is there no further from 0 than t × (R − t).",
        "LagBounds",
        "crates/lateness/specs/Lags.antt",
    ),
    theorem(
        "The demands, the shares, the bounds and the lags hold of the kernel's code: whatever its own contract allows keeps them, and the code meets that contract.",
        "Kernel",
        "crates/tight/specs/Kernel.antt",
    ),
];
