//! The door of an archive that is for this machine: a call of its C symbol.

use crate::lent::Lent;

extern "C" {
    // a slice is its pointer and then its length
    fn speltmallet_door(
        table: *mut u8,
        table_len: usize,
        request: *const u8,
        request_len: usize,
        answer: *mut u8,
        answer_len: usize,
    ) -> i32;
}

/// The compiled door. It takes every length, so nothing is tested first. That the three do not
/// overlap is what Rust's borrows say.
pub fn door(table: &mut [u8], record: &[u8], area: &mut [u8]) -> i32 {
    // SAFETY: each pointer comes with its slice's length, the slices are disjoint, and the door
    // keeps none of them.
    unsafe {
        speltmallet_door(
            table.as_mut_ptr(),
            table.len(),
            record.as_ptr(),
            record.len(),
            area.as_mut_ptr(),
            area.len(),
        )
    }
}

/// Puts each call to the door; gives the returned numbers.
pub(crate) fn call(lents: &mut [Lent]) -> Vec<i32> {
    let call_one = |lent: &mut Lent| {
        let (table, record, area) = lent.areas();
        door(table, record, area)
    };
    lents.iter_mut().map(call_one).collect()
}
