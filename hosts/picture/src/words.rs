//! The words of a definition of Incident.antt, read one after the other: numbers, doors, requests and lists of them.

use std::collections::VecDeque;

use model::{operation as op, record};

use crate::incident::{Record, Rule, FILE};
use crate::source::Source;

/// The words of a definition that are not read yet; a bracket is a word.
pub struct Words<'a> {
    source: &'a Source<'a>,
    name: String,
    whole: String,
    left: VecDeque<String>,
}

impl<'a> Words<'a> {
    pub fn of(source: &'a Source<'a>, name: &str, text: &str) -> Words<'a> {
        let spaced = text.replace('(', " ( ").replace(')', " ) ");
        Words {
            source,
            name: name.to_string(),
            whole: text.trim().to_string(),
            left: spaced.split_whitespace().map(String::from).collect(),
        }
    }

    fn fault(&self, wanted: &str, found: &str) -> String {
        let Words { name, whole, .. } = self;
        format!(
            "{FILE}: in `{name}`, {wanted} is expected where `{found}` stands, in: {whole}\n\
             Mend hosts/picture/src/incident.rs if the file has another shape now."
        )
    }

    fn peek(&self) -> &str {
        self.left.front().map_or("its end", String::as_str)
    }

    pub fn next(&mut self) -> Result<String, String> {
        let fault = self.fault("a word", "its end");
        self.left.pop_front().ok_or(fault)
    }

    pub fn expect(&mut self, wanted: &str) -> Result<(), String> {
        if self.peek() != wanted {
            return Err(self.fault(&format!("`{wanted}`"), self.peek()));
        }
        self.left.pop_front();
        Ok(())
    }

    pub fn end(&self) -> Result<(), String> {
        match self.left.front() {
            None => Ok(()),
            Some(word) => Err(self.fault("its end", word)),
        }
    }

    /// A number, or a name that stands for one.
    pub fn number(&mut self) -> Result<usize, String> {
        let word = self.next()?;
        if let Ok(number) = word.parse() {
            return Ok(number);
        }
        match ["left", "right", "cutter"].contains(&word.as_str()) {
            true => self.source.number(&word),
            false => Err(self.fault("a number", &word)),
        }
    }

    /// `sends_back`, or `(door printer)`.
    pub fn rule(&mut self) -> Result<Rule, String> {
        if self.peek() == "sends_back" {
            self.left.pop_front();
            return Ok(Rule::Incident);
        }
        for word in ["(", "door", "printer", ")"] {
            self.expect(word)?;
        }
        Ok(Rule::Rules)
    }

    /// A list of requests: `[]`, `REQUEST ∷ LIST`, `LIST ++ LIST`, `set_up`, `cut`, or one of them in brackets.
    pub fn list(&mut self) -> Result<Vec<Record>, String> {
        let mut list = match self.peek() {
            "[]" => {
                self.left.pop_front();
                Vec::new()
            }
            "(" => {
                self.left.pop_front();
                let inner = self.list()?;
                self.expect(")")?;
                inner
            }
            "set_up" | "cut" => {
                let name = self.next()?;
                let mut words = self.source.behind(&name, &format!("{name} ="))?;
                let named = words.list()?;
                words.end()?;
                named
            }
            _ => {
                let request = self.request()?;
                self.expect("∷")?;
                let mut list = vec![request];
                list.extend(self.list()?);
                return Ok(list);
            }
        };
        if self.peek() == "++" {
            self.left.pop_front();
            list.extend(self.list()?);
        }
        Ok(list)
    }

    /// A request: its name, and its numbers in the order of the type `Request`.
    fn request(&mut self) -> Result<Record, String> {
        let name = self.next()?;
        let operation = match name.as_str() {
            "Tick" => return Ok(record(op::TICK, 0, 0, 0, 0)),
            "Create" => op::CREATE,
            "Make" => op::MAKE,
            "Pend" => op::PEND,
            "PostFromInterrupt" => op::POST_FROM_INTERRUPT,
            _ => return Err(self.fault("a request that hosts/picture knows", &name)),
        };
        let object = self.byte()?;
        let priority = match operation {
            op::CREATE => self.byte()?,
            _ => 0,
        };
        let word = self.number()?;
        let number = u32::try_from(word)
            .map_err(|_| self.fault("a number of four bytes", &word.to_string()))?;
        Ok(record(operation, object, priority, number, 0))
    }

    fn byte(&mut self) -> Result<u8, String> {
        let number = self.number()?;
        u8::try_from(number).map_err(|_| self.fault("a number of one byte", &number.to_string()))
    }
}
