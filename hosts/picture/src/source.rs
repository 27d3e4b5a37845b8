//! The definitions of Incident.antt, found in its text and read as far as the picture needs them.

use crate::incident::{Claim, Record, FILE};
use crate::words::Words;

/// The text of the file.
pub struct Source<'a> {
    pub text: &'a str,
}

impl Source<'_> {
    /// The clauses that define a name, each on a line, with single spaces.
    pub fn clauses(&self, name: &str) -> Result<String, String> {
        let mut clauses: Vec<String> = Vec::new();
        let mut is_inside = false;
        let is_comment = |line: &&str| line.trim_start().starts_with("--");
        for line in self.text.lines().filter(|line| !is_comment(line)) {
            let words: Vec<&str> = line.split_whitespace().collect();
            if !line.starts_with(' ') {
                is_inside = words.first() == Some(&name) && words.get(1) != Some(&":");
                if is_inside {
                    clauses.push(words.join(" "));
                }
            } else if let Some(clause) = clauses.last_mut().filter(|_| is_inside) {
                *clause += " ";
                *clause += &words.join(" ");
            }
        }
        match clauses.is_empty() {
            true => Err(format!("{FILE}: nothing defines `{name}`")),
            false => Ok(clauses.join("\n")),
        }
    }

    /// What stands behind a beginning in a name's one clause.
    pub fn behind(&self, name: &str, beginning: &str) -> Result<Words<'_>, String> {
        let clause = self.clauses(name)?;
        let rest = clause.strip_prefix(beginning).ok_or(format!(
            "{FILE}: `{name}` is expected to begin `{beginning}`, and is: {clause}"
        ))?;
        Ok(Words::of(self, name, rest))
    }

    /// A name that stands for a number.
    pub fn number(&self, name: &str) -> Result<usize, String> {
        let mut words = self.behind(name, &format!("{name} ="))?;
        let number = words.number()?;
        words.end()?;
        Ok(number)
    }

    /// The requests that make the table at the start.
    pub fn lanes(&self) -> Result<Vec<Record>, String> {
        let beginning = "lanes = table_after printer (fresh_table printer) (asks";
        let mut words = self.behind("lanes", beginning)?;
        let requests = words.list()?;
        words.expect(")")?;
        words.end()?;
        Ok(requests)
    }

    /// The requests of a run that repeats some: `NAME n = again n (..)`.
    fn repeated(&self, name: &str, times: usize) -> Result<Vec<Record>, String> {
        let mut words = self.behind(name, &format!("{name} n = again n"))?;
        let once = words.list()?;
        words.end()?;
        Ok(once.repeat(times))
    }

    /// The fields of `OnlyTheOddSeats`.
    pub fn claims(&self) -> Result<Vec<Claim>, String> {
        let head = "pub record OnlyTheOddSeats : Type 0 where";
        let lines = self.text.lines().skip_while(|line| *line != head);
        let fields = lines.skip(1).take_while(|line| line.starts_with("  "));
        let fields = fields.filter_map(|line| line.trim().strip_prefix("pub "));
        let claims: Result<Vec<Claim>, String> = fields.map(|field| self.claim(field)).collect();
        match claims {
            Ok(claims) if claims.is_empty() => {
                Err(format!("{FILE}: there is no `{head}` with fields"))
            }
            claims => claims,
        }
    }

    /// `NAME : counted DOOR (RUN TIMES) FROM STEPS ≡ lanes_get CHARGED LEFT RIGHT`
    fn claim(&self, field: &str) -> Result<Claim, String> {
        let mut words = Words::of(self, "OnlyTheOddSeats", field);
        let name = words.next()?;
        words.expect(":")?;
        words.expect("counted")?;
        let rule = words.rule()?;
        words.expect("(")?;
        let run = words.next()?;
        let times = words.number()?;
        words.expect(")")?;
        let (from, steps) = (words.number()?, words.number()?);
        words.expect("≡")?;
        words.expect("lanes_get")?;
        let (charged, left, right) = (words.number()?, words.number()?, words.number()?);
        words.end()?;
        let requests = self.repeated(&run, times)?;
        Ok(Claim {
            name,
            rule,
            requests,
            from,
            steps,
            charged,
            left,
            right,
        })
    }
}
