//! The one door: "The firmware is in C and calls through one door".

use crate::kernel::{Answer, Kernel, Reply};
use crate::names::{code, operation as op};
use crate::request::{parse, Request};
use crate::sound::sound;
use crate::table::{put_word, read, write};

/// "an 8-byte answer area (code as signed 32 bits, then value)"
pub const AREA: usize = 8;

/// "it lends the table, the record and an 8-byte answer area (code as signed 32 bits, then
/// value), and gets the code back as the returned number too. On −7 nothing is written and only
/// the returned number says so. On every other refusal the table is untouched and the area holds
/// the code and value 0."
pub fn door(table: &mut [u8], record: &[u8], area: &mut [u8]) -> i32 {
    // "−7 is tested first, then −8, then the order above."
    if !sound(table) || area.len() != AREA {
        return code::UNSOUND;
    }
    let mut kernel = read(table);
    let reply = parse(record).and_then(|request| kernel.step(&request));
    let answer = match reply {
        Ok(answer) => {
            write(&kernel, table);
            answer
        }
        Err(code) => Answer { code, value: 0 },
    };
    put_word(area, 0, answer.code as u32);
    put_word(area, 4, answer.value);
    answer.code
}

impl Kernel {
    /// One request: its operation and, if that is not refused, the choice of the running thread.
    /// After a refusal the state has no meaning and is thrown away.
    pub fn step(&mut self, request: &Request) -> Reply {
        let answer = self.perform(request)?;
        self.choose_running();
        Ok(answer)
    }

    /// "The running thread is the caller, except in 9, 16 and 19, which come from interrupts." So
    /// does 21, which stands for many of 19.
    fn perform(&mut self, request: &Request) -> Reply {
        let Request {
            operation,
            object,
            priority,
            number,
            data,
        } = *request;
        match operation {
            op::YIELD => self.yield_turn(),
            op::CREATE => self.create(object, priority, number),
            op::DELETE => self.delete(object),
            op::SUSPEND => self.suspend(object),
            op::RESUME => self.resume(object),
            op::DELAY => self.delay(number),
            op::CANCEL => self.cancel(object),
            op::SEND => self.send(object, number, data),
            op::SEND_FROM_INTERRUPT => self.send_from_interrupt(object, data),
            op::RECEIVE => self.receive(number),
            op::MAKE => self.make(object, number),
            op::DROP => self.drop_semaphore(object),
            op::PEND => self.pend(object, number),
            op::ABORT => self.abort(object),
            op::POST => self.post(object, number, false),
            op::POST_FROM_INTERRUPT => self.post(object, number, true),
            op::LOCK => self.lock(),
            op::UNLOCK => self.unlock(),
            op::TICK => self.tick(),
            op::OUTCOME => self.outcome(object),
            op::TICKS => self.ticks(number),
            op::NEAREST => self.nearest(),
            op::SET_PRIORITY => self.set_priority(object, priority),
            op::SET_TURN => self.set_turn(object, number),
            _ => Err(code::MALFORMED),
        }
    }
}
