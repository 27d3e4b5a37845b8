//! Memory as the firmware lends it.

use std::ops::Range;

/// Table, record and area in one stretch of bytes, with guard bytes before, between and behind.
pub struct Lent {
    pub(crate) bytes: Vec<u8>,
    pub(crate) table: Range<usize>,
    pub(crate) record: Range<usize>,
    pub(crate) area: Range<usize>,
}

impl Lent {
    /// Copies of the three. `guard` is the number of guard bytes on each side; with it the areas'
    /// alignment changes.
    pub fn new(guard: usize, table: &[u8], record: &[u8], area: &[u8]) -> Lent {
        let mut bytes = Vec::new();
        let mut lend = |part: &[u8]| {
            let begin = bytes.len() + guard;
            bytes.extend((bytes.len()..begin).map(guard_byte));
            bytes.extend(part);
            begin..bytes.len()
        };
        let (table, record, area) = (lend(table), lend(record), lend(area));
        lend(&[]);
        Lent {
            bytes,
            table,
            record,
            area,
        }
    }

    pub fn table(&self) -> &[u8] {
        &self.bytes[self.table.clone()]
    }

    pub fn record(&self) -> &[u8] {
        &self.bytes[self.record.clone()]
    }

    pub fn area(&self) -> &[u8] {
        &self.bytes[self.area.clone()]
    }

    /// The three, to be lent at once.
    #[cfg(not(emulated))]
    pub(crate) fn areas(&mut self) -> (&mut [u8], &[u8], &mut [u8]) {
        let (front, area) = self.bytes.split_at_mut(self.area.start);
        let (front, record) = front.split_at_mut(self.record.start);
        let table = &mut front[self.table.clone()];
        (
            table,
            &record[..self.record.len()],
            &mut area[..self.area.len()],
        )
    }

    /// Where a guard byte was written, if one was.
    pub fn broken_guard(&self) -> Option<usize> {
        let parts = [&self.table, &self.record, &self.area];
        let is_guard = |i: &usize| !parts.iter().any(|part| part.contains(i));
        let mut guards = (0..self.bytes.len()).filter(is_guard);
        guards.find(|&i| self.bytes[i] != guard_byte(i))
    }
}

/// The guard byte at an offset: no two in a row are the same.
fn guard_byte(offset: usize) -> u8 {
    (offset as u8).wrapping_mul(7) ^ 0xC5
}
