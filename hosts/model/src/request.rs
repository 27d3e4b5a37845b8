//! Request records: what a record of 12 bytes says and which records are malformed.

use crate::names::{code, operation as op};
use crate::table::word;

/// "Requests: records of 12 bytes, no header"
pub const RECORD: usize = 12;

/// What a well-formed record asks.
#[derive(Clone, Copy, Debug, PartialEq, Eq)]
pub(crate) struct Request {
    pub operation: u8,
    pub object: u8,
    pub priority: u8,
    pub number: u32,
    pub data: u32,
}

/// What the timer asks.
pub(crate) const TICK: Request = Request {
    operation: op::TICK,
    object: 0,
    priority: 0,
    number: 0,
    data: 0,
};

/// The fields that an operation uses.
#[derive(Clone, Copy, Debug, PartialEq, Eq)]
pub struct Uses {
    pub object: bool,
    pub priority: bool,
    pub number: bool,
    pub data: bool,
}

/// "Byte 0 operation; 1 object; 2 priority; 3 zero; 4-7 number; 8-11 data."
pub fn record(operation: u8, object: u8, priority: u8, number: u32, data: u32) -> [u8; RECORD] {
    let mut record = [0; RECORD];
    record[0] = operation;
    record[1] = object;
    record[2] = priority;
    record[4..8].copy_from_slice(&number.to_le_bytes());
    record[8..12].copy_from_slice(&data.to_le_bytes());
    record
}

/// The column "Uses" of the table of operations. Order 7: "Operation 21 takes a number", and 22
/// nothing. Order 8: "23 uses object and priority, 24 object and number." Nothing for 3 and above 24.
pub fn uses(operation: u8) -> Option<Uses> {
    let (object, priority, number, data) = match operation {
        op::YIELD | op::LOCK | op::UNLOCK | op::TICK => (false, false, false, false),
        op::NEAREST => (false, false, false, false),
        op::CREATE => (true, true, true, false),
        op::SET_PRIORITY => (true, true, false, false),
        op::DELETE | op::SUSPEND | op::RESUME | op::CANCEL => (true, false, false, false),
        op::DROP | op::ABORT | op::OUTCOME => (true, false, false, false),
        op::DELAY | op::RECEIVE | op::TICKS => (false, false, true, false),
        op::SEND => (true, false, true, true),
        op::SEND_FROM_INTERRUPT => (true, false, false, true),
        op::MAKE | op::PEND | op::SET_TURN => (true, false, true, false),
        op::POST | op::POST_FROM_INTERRUPT => (true, false, true, false),
        _ => return None,
    };
    Some(Uses {
        object,
        priority,
        number,
        data,
    })
}

/// −8: "record not 12 bytes, operation [3 or above 24, order 8], byte 3 or an unused field not zero"
pub(crate) fn parse(record: &[u8]) -> Result<Request, i32> {
    if record.len() != RECORD {
        return Err(code::MALFORMED);
    }
    let request = Request {
        operation: record[0],
        object: record[1],
        priority: record[2],
        number: word(record, 4),
        data: word(record, 8),
    };
    let uses = uses(request.operation).ok_or(code::MALFORMED)?;
    let zero = record[3] == 0
        && (uses.object || request.object == 0)
        && (uses.priority || request.priority == 0)
        && (uses.number || request.number == 0)
        && (uses.data || request.data == 0);
    if zero {
        Ok(request)
    } else {
        Err(code::MALFORMED)
    }
}
