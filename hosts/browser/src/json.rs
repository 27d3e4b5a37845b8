//! JSON as the browser speaks it: a text is read into a value, and words are written as a string.

use std::fmt::Write;

/// Lists and records stand in each other at most so deep.
const DEEPEST: usize = 256;

/// What a JSON text says.
#[derive(Clone, Debug, PartialEq)]
pub enum Value {
    Null,
    Bool(bool),
    Number(f64),
    Text(String),
    List(Vec<Value>),
    Record(Vec<(String, Value)>),
}

impl Value {
    /// Reads a whole text. Half of a surrogate pair is no character, and becomes U+FFFD.
    pub fn parse(text: &str) -> Result<Value, String> {
        let mut reader = Reader { text, at: 0 };
        let value = reader.value(0)?;
        reader.skip_space();
        match reader.peek() {
            None => Ok(value),
            Some(_) => Err(reader.fault("the end")),
        }
    }

    /// What stands under these keys, each in the record of the one before: `result.value`. Null if nothing does.
    pub fn at(&self, keys: &str) -> &Value {
        keys.split('.').fold(self, Value::field)
    }

    fn field(&self, key: &str) -> &Value {
        let Value::Record(fields) = self else {
            return &Value::Null;
        };
        let found = fields.iter().find(|(name, _)| name == key);
        found.map_or(&Value::Null, |(_, value)| value)
    }

    /// The words of a string.
    pub fn text(&self) -> Option<&str> {
        match self {
            Value::Text(text) => Some(text),
            _ => None,
        }
    }

    pub fn number(&self) -> Option<f64> {
        match self {
            Value::Number(number) => Some(*number),
            _ => None,
        }
    }

    /// The items of a list, and none of anything else.
    pub fn items(&self) -> &[Value] {
        match self {
            Value::List(items) => items,
            _ => &[],
        }
    }

    /// What a person reads: a string's words, and of a list or a record only that it is one.
    pub fn shown(&self) -> String {
        match self {
            Value::Null => "null".to_string(),
            Value::Bool(truth) => truth.to_string(),
            Value::Number(number) => number.to_string(),
            Value::Text(text) => text.clone(),
            Value::List(_) => "a list".to_string(),
            Value::Record(_) => "a record".to_string(),
        }
    }
}

/// The words as a JSON string.
pub fn quoted(words: &str) -> String {
    let mut string = String::from('"');
    for letter in words.chars() {
        match letter {
            '"' | '\\' => string.extend(['\\', letter]),
            // a NUL would end the message
            '\0'..='\x1f' => {
                let _ = write!(string, "\\u{:04x}", u32::from(letter));
            }
            _ => string.push(letter),
        }
    }
    string + "\""
}

/// A text, and how far it is read.
struct Reader<'a> {
    text: &'a str,
    at: usize,
}

impl Reader<'_> {
    fn peek(&self) -> Option<u8> {
        self.text.as_bytes().get(self.at).copied()
    }

    fn fault(&self, wanted: &str) -> String {
        let found = match self
            .text
            .get(self.at..)
            .and_then(|rest| rest.chars().next())
        {
            Some(letter) => format!("{letter:?}"),
            None => "the end".to_string(),
        };
        let at = self.at;
        format!("JSON: {wanted} is expected at byte {at}, where {found} stands")
    }

    fn skip_space(&mut self) {
        while matches!(self.peek(), Some(b' ' | b'\t' | b'\n' | b'\r')) {
            self.at += 1;
        }
    }

    /// Reads this if it comes next.
    fn takes(&mut self, word: &str) -> bool {
        let is_next = self.text.as_bytes()[self.at..].starts_with(word.as_bytes());
        if is_next {
            self.at += word.len();
        }
        is_next
    }

    fn expect(&mut self, word: &str) -> Result<(), String> {
        match self.takes(word) {
            true => Ok(()),
            false => Err(self.fault(&format!("`{word}`"))),
        }
    }

    /// A value that stands in so many lists and records.
    fn value(&mut self, depth: usize) -> Result<Value, String> {
        if depth > DEEPEST {
            return Err(self.fault(&format!("no more than {DEEPEST} levels")));
        }
        self.skip_space();
        match self.peek() {
            Some(b'{') => self.record(depth + 1),
            Some(b'[') => self.list(depth + 1),
            Some(b'"') => self.string().map(Value::Text),
            Some(b'-' | b'0'..=b'9') => self.number(),
            _ if self.takes("null") => Ok(Value::Null),
            _ if self.takes("true") => Ok(Value::Bool(true)),
            _ if self.takes("false") => Ok(Value::Bool(false)),
            _ => Err(self.fault("a value")),
        }
    }

    fn list(&mut self, depth: usize) -> Result<Value, String> {
        let mut items = Vec::new();
        self.expect("[")?;
        self.skip_space();
        if self.takes("]") {
            return Ok(Value::List(items));
        }
        loop {
            items.push(self.value(depth)?);
            self.skip_space();
            if self.takes("]") {
                return Ok(Value::List(items));
            }
            self.expect(",")?;
        }
    }

    fn record(&mut self, depth: usize) -> Result<Value, String> {
        let mut fields = Vec::new();
        self.expect("{")?;
        self.skip_space();
        if self.takes("}") {
            return Ok(Value::Record(fields));
        }
        loop {
            self.skip_space();
            let name = self.string()?;
            self.skip_space();
            self.expect(":")?;
            fields.push((name, self.value(depth)?));
            self.skip_space();
            if self.takes("}") {
                return Ok(Value::Record(fields));
            }
            self.expect(",")?;
        }
    }

    /// Reads digits, of which there is one at least.
    fn digits(&mut self) -> Result<(), String> {
        let first = self.at;
        while matches!(self.peek(), Some(b'0'..=b'9')) {
            self.at += 1;
        }
        match self.at > first {
            true => Ok(()),
            false => Err(self.fault("a digit")),
        }
    }

    fn number(&mut self) -> Result<Value, String> {
        let first = self.at;
        self.takes("-");
        if !self.takes("0") {
            self.digits()?;
        }
        if self.takes(".") {
            self.digits()?;
        }
        if self.takes("e") || self.takes("E") {
            let _ = self.takes("+") || self.takes("-");
            self.digits()?;
        }
        let number = self.text[first..self.at].parse();
        number
            .map(Value::Number)
            .map_err(|_| self.fault("a number"))
    }

    fn string(&mut self) -> Result<String, String> {
        self.expect("\"")?;
        let mut string = String::new();
        loop {
            let first = self.at;
            while !matches!(self.peek(), None | Some(b'"' | b'\\' | ..=0x1f)) {
                self.at += 1;
            }
            string += &self.text[first..self.at];
            if self.takes("\"") {
                return Ok(string);
            }
            self.expect("\\")?;
            string.push(self.escaped()?);
        }
    }

    /// The character that an escape stands for, after its backslash.
    fn escaped(&mut self) -> Result<char, String> {
        let letter = match self.peek() {
            Some(letter @ (b'"' | b'\\' | b'/')) => char::from(letter),
            Some(b'b') => '\u{8}',
            Some(b'f') => '\u{c}',
            Some(b'n') => '\n',
            Some(b'r') => '\r',
            Some(b't') => '\t',
            Some(b'u') => {
                self.at += 1;
                return self.by_number();
            }
            _ => return Err(self.fault("one of \"\\/bfnrtu")),
        };
        self.at += 1;
        Ok(letter)
    }

    /// The character with a number of four digits, or with two of them if they are a surrogate pair.
    fn by_number(&mut self) -> Result<char, String> {
        let first = self.four_digits()?;
        let behind = self.at;
        if (0xd800..0xdc00).contains(&first) && self.takes("\\u") {
            let second = self.four_digits()?;
            if (0xdc00..0xe000).contains(&second) {
                let number = 0x10000 + ((first - 0xd800) << 10) + (second - 0xdc00);
                return Ok(char::from_u32(number).expect("a pair is a character"));
            }
            self.at = behind;
        }
        Ok(char::from_u32(first).unwrap_or(char::REPLACEMENT_CHARACTER))
    }

    fn four_digits(&mut self) -> Result<u32, String> {
        let digits = self.text.get(self.at..self.at + 4);
        let digits = digits.filter(|four| four.bytes().all(|digit| digit.is_ascii_hexdigit()));
        let digits = digits.ok_or_else(|| self.fault("a number of four hexadecimal digits"))?;
        self.at += 4;
        Ok(u32::from_str_radix(digits, 16).expect("four digits"))
    }
}
