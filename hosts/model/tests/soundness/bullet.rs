//! A bullet of soundness and its cases.

use crate::rich::{byte, wide, Edit};
use crate::Case;

/// The cases of one bullet.
pub struct Bullet {
    words: &'static str,
    pub cases: Vec<Case>,
}

impl Bullet {
    pub fn new(words: &'static str) -> Bullet {
        let cases = Vec::new();
        Bullet { words, cases }
    }

    fn case(&mut self, sound: bool, what: String, edits: Vec<Edit>) {
        let bullet = self.words;
        self.cases.push(Case {
            bullet,
            what,
            edits,
            sound,
        });
    }

    pub fn sound(&mut self, what: &str, edits: &[Edit]) {
        self.case(true, what.to_string(), edits.to_vec());
    }

    pub fn unsound(&mut self, what: &str, edits: &[Edit]) {
        self.case(false, what.to_string(), edits.to_vec());
    }

    /// A field of one byte with these values, sound and unsound.
    pub fn bytes(&mut self, what: &str, at: (usize, usize), sound: &[u8], unsound: &[u8]) {
        for (values, judged) in [(sound, true), (unsound, false)] {
            for &value in values {
                let what = format!("{what} {value} in record {}", at.0);
                self.case(judged, what, vec![byte(at.0, at.1, value)]);
            }
        }
    }

    /// A field of four bytes with these values, sound and unsound.
    pub fn wides(&mut self, what: &str, at: (usize, usize), sound: &[u32], unsound: &[u32]) {
        for (values, judged) in [(sound, true), (unsound, false)] {
            for &value in values {
                let what = format!("{what} {value} in record {}", at.0);
                self.case(judged, what, vec![wide(at.0, at.1, value)]);
            }
        }
    }
}
