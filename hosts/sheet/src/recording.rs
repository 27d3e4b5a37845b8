//! A recorded event: its bytes, cut into requests.

use std::io::{self, Read};

use model::{MOST_RECORDS, RECORD};

/// The bytes of a recording, as far as the report reads them.
pub struct Recording {
    /// The whole records that count.
    pub bytes: Vec<u8>,
    /// Whole records come behind those that count.
    pub is_stopped: bool,
    /// The bytes at its end that are no whole record.
    pub left_over: usize,
}

impl Recording {
    /// Reads the records that count, and one more, so that it is known whether there are more.
    pub fn read(input: impl Read) -> io::Result<Recording> {
        let most = RECORD * (MOST_RECORDS + 1);
        let mut bytes = Vec::new();
        input.take(most as u64).read_to_end(&mut bytes)?;
        let is_stopped = bytes.len() == most;
        let left_over = bytes.len() % RECORD;
        bytes.truncate((bytes.len() - left_over).min(RECORD * MOST_RECORDS));
        Ok(Recording {
            bytes,
            is_stopped,
            left_over,
        })
    }

    pub fn count(&self) -> usize {
        self.bytes.len() / RECORD
    }

    pub fn records(&self) -> impl Iterator<Item = &[u8; RECORD]> {
        let records = self.bytes.chunks_exact(RECORD);
        records.map(|record| record.try_into().expect("a chunk is a record"))
    }
}
