//! Holds the door to the model, call by call.

use model::{show, show_record, AREA, TABLE};

use crate::lent::Lent;
use crate::machine::call;

/// How many calls are gathered before they are put to the door.
const GATHERED: usize = 256;

/// What came of a call.
#[derive(Clone, PartialEq, Eq)]
pub struct Answered {
    pub code: i32,
    pub table: Vec<u8>,
    pub area: Vec<u8>,
}

/// Puts calls to the model at once and to the door in batches, and stops at the first on which they
/// differ.
pub struct Hold {
    origin: String,
    calls: Vec<Call>,
    /// The memory of each call.
    lents: Vec<Lent>,
    held: usize,
}

/// A call that is still to be put to the door, and what the model says that comes of it.
struct Call {
    table: Vec<u8>,
    record: Vec<u8>,
    wanted: Answered,
}

impl Hold {
    /// `origin` says how to make the cases again; a failing case prints it.
    pub fn new(origin: &str) -> Hold {
        Hold {
            origin: origin.to_string(),
            calls: Vec::new(),
            lents: Vec::new(),
            held: 0,
        }
    }

    /// One call on areas of any lengths; gives what the model says that comes of it.
    pub fn call(&mut self, table: &[u8], record: &[u8], area: &[u8]) -> Answered {
        let mut wanted = Answered {
            code: 0,
            table: table.to_vec(),
            area: area.to_vec(),
        };
        wanted.code = model::door(&mut wanted.table, record, &mut wanted.area);
        let guard = 13 + (self.held + self.calls.len()) % 8;
        self.lents.push(Lent::new(guard, table, record, area));
        self.calls.push(Call {
            table: table.to_vec(),
            record: record.to_vec(),
            wanted: wanted.clone(),
        });
        if self.calls.len() == GATHERED {
            self.compare();
        }
        wanted
    }

    /// One step of a run: the table becomes the next one, and the code is given.
    pub fn step(&mut self, table: &mut [u8; TABLE], record: &[u8]) -> i32 {
        let area = [self.calls.len() as u8 ^ 0xA5; AREA];
        let answered = self.call(table, record, &area);
        table.copy_from_slice(&answered.table);
        answered.code
    }

    /// A call whose code is known.
    pub fn expect(&mut self, table: &[u8], record: &[u8], area: &[u8], code: i32) {
        let got = self.call(table, record, area).code;
        let case = || format!("{}\n{}", show_record(record), show(table));
        assert!(
            got == code,
            "{}: the model answers {got}, wanted {code}\n{}",
            self.origin,
            case()
        );
    }

    /// Compares what is left; gives the number of calls.
    pub fn finish(mut self) -> usize {
        self.compare();
        self.held
    }

    fn compare(&mut self) {
        let codes = call(&mut self.lents);
        let lents = self.lents.drain(..);
        for ((call, lent), code) in self.calls.drain(..).zip(lents).zip(codes) {
            self.held += 1;
            let got = Answered {
                code,
                table: lent.table().to_vec(),
                area: lent.area().to_vec(),
            };
            if got != call.wanted || lent.record() != call.record || lent.broken_guard().is_some() {
                panic!(
                    "{}, call {}\n{}",
                    self.origin,
                    self.held,
                    case(&call, &got, &lent)
                );
            }
        }
    }
}

impl Drop for Hold {
    /// No call may stay without its comparison.
    fn drop(&mut self) {
        assert!(
            self.calls.is_empty() || std::thread::panicking(),
            "Hold::finish was not called"
        );
    }
}

/// A case as a person wants to see it.
fn case(call: &Call, got: &Answered, lent: &Lent) -> String {
    let mut text = format!(
        "{}\nbefore: {}",
        show_record(&call.record),
        show(&call.table)
    );
    for (name, answered) in [("model", &call.wanted), ("door", got)] {
        let (code, area) = (answered.code, &answered.area);
        let table = show(&answered.table);
        text += &format!("{name} returns {code}, area {area:02x?}, {table}");
    }
    for (offset, (want, is)) in call.wanted.table.iter().zip(&got.table).enumerate() {
        if want != is {
            text += &format!("table byte {offset}: model {want}, door {is}\n");
        }
    }
    if lent.record() != call.record {
        let record = show_record(lent.record());
        text += &format!("the door wrote to the record: {record}\n");
    }
    if let Some(offset) = lent.broken_guard() {
        text +=
            &format!("the door wrote outside what it was lent, {offset} bytes into the memory\n");
    }
    text
}
