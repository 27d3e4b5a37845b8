//! The rich sound table that the cases edit, and the edits.

use model::TABLE;

/// Some bytes of the table, and where they go.
#[derive(Clone, Debug)]
pub struct Edit {
    offset: usize,
    bytes: Vec<u8>,
}

impl Edit {
    pub fn apply(&self, table: &mut [u8]) {
        table[self.offset..self.offset + self.bytes.len()].copy_from_slice(&self.bytes);
    }
}

/// Offsets of a thread's fields, as document 01 gives them.
pub const IN_USE: usize = 0;
pub const PRIORITY: usize = 1;
pub const SUSPENDED: usize = 2;
pub const KIND: usize = 3;
pub const OBJECT: usize = 4;
pub const PLACE: usize = 5;
pub const FULL: usize = 6;
pub const OUTCOME: usize = 7;
pub const TURN: usize = 8;
pub const COUNTER: usize = 12;
pub const VALUE: usize = 16;
pub const PARCEL: usize = 20;

/// A field of one byte of record `index`.
pub fn byte(index: usize, field: usize, value: u8) -> Edit {
    Edit {
        offset: index * 24 + field,
        bytes: vec![value],
    }
}

/// A field of four bytes of record `index`.
pub fn wide(index: usize, field: usize, value: u32) -> Edit {
    Edit {
        offset: index * 24 + field,
        bytes: value.to_le_bytes().to_vec(),
    }
}

/// A whole record.
pub fn whole(index: usize, narrow: [u8; 8], wide: [u32; 4]) -> Edit {
    let wide = wide.iter().flat_map(|word| word.to_le_bytes());
    Edit {
        offset: index * 24,
        bytes: narrow.into_iter().chain(wide).collect(),
    }
}

/// A record of zeros.
pub fn free(index: usize) -> Edit {
    whole(index, [0; 8], [0; 4])
}

pub fn running(thread: u8) -> Edit {
    byte(24, 0, thread)
}

pub fn lock(count: u8) -> Edit {
    byte(24, 1, count)
}

/// The ready word.
pub fn word(bits: u32) -> Edit {
    wide(24, 2, bits)
}

/// The ready word with the bits of these ready lines, and with no other.
pub fn ready_lines(lines: &[u32]) -> Edit {
    word(lines.iter().fold(0, |bits, line| bits | 1 << line))
}

const FAILED: u8 = 0xFB;

/// Threads 0 to 11 stand in every state that there is, some suspended. Init is at place 2 of its
/// line behind thread 10 and has mail; 1 runs before 2; 3 is suspended; 4 is in a delay with a
/// full mailbox of value 0; 5 receives; 6 and 7 send to 2; 9 and 8 wait on semaphore 1; 11 is
/// suspended in a delay. Semaphores 0 to 3 have counts 99, 0, 0 and 1. Of the ready lines 0 and 5
/// have members: all that there are of priorities 9 and 31 wait or are suspended.
pub fn rich() -> [u8; TABLE] {
    let edits = [
        whole(0, [1, 0, 0, 0, 0, 2, 1, FAILED], [10, 10, 7, 0]),
        whole(1, [1, 5, 0, 0, 0, 1, 0, 1], [3, 2, 0, 0]),
        whole(2, [1, 5, 0, 0, 0, 2, 1, 0], [4, 4, 22, 9]),
        whole(3, [1, 9, 1, 0, 0, 0, 0, 0], [6, 0, 0, 55]),
        whole(4, [1, 9, 0, 1, 0, 0, 1, 1], [6, 7, 0, 0]),
        whole(5, [1, 9, 0, 2, 0, 0, 0, 1], [6, 0, 0, 0]),
        whole(6, [1, 9, 0, 3, 2, 1, 0, 1], [6, 3, 0, 66]),
        whole(7, [1, 9, 1, 3, 2, 2, 0, 1], [6, 0, 0, 77]),
        whole(8, [1, 9, 1, 4, 1, 2, 0, 1], [6, 5, 0, 0]),
        whole(9, [1, 9, 0, 4, 1, 1, 0, 1], [6, 0, 0, 0]),
        whole(10, [1, 0, 0, 0, 0, 1, 0, FAILED], [99_999, 99_999, 0, 0]),
        whole(11, [1, 31, 1, 1, 0, 0, 0, 1], [6, 99_999, 0, 0]),
        whole(16, [1, 99, 0, 0, 0, 0, 0, 0], [0; 4]),
        whole(17, [1, 0, 0, 0, 0, 0, 0, 0], [0; 4]),
        whole(18, [1, 0, 0, 0, 0, 0, 0, 0], [0; 4]),
        whole(19, [1, 1, 0, 0, 0, 0, 0, 0], [0; 4]),
        running(1),
        lock(0),
        ready_lines(&[0, 5]),
    ];
    let mut table = [0; TABLE];
    for edit in edits {
        edit.apply(&mut table);
    }
    table
}
