//! Soundness: a table unsound in each single way that document 01 and order 6 name, and a sound
//! one on the other side of each boundary. Each case is an edit of one rich sound table and names
//! the bullet that an unsound one breaks.

mod bullet;
mod fields;
mod lines;
mod mail;
mod rich;
mod word;

use model::{at, door, show, sound, TABLE};
use rich::{rich, Edit};

/// A bullet's words, what the edit does, the edit, and whether the table is still sound.
pub struct Case {
    pub bullet: &'static str,
    pub what: String,
    pub edits: Vec<Edit>,
    pub sound: bool,
}

impl Case {
    /// The rich table with the edits.
    fn table(&self) -> [u8; TABLE] {
        let mut table = rich();
        for edit in &self.edits {
            edit.apply(&mut table);
        }
        table
    }
}

/// The list of cases, bullet by bullet.
fn all_cases() -> Vec<Case> {
    let bullets = [
        fields::bytes_and_ranges(),
        fields::init(),
        lines::places(),
        lines::counters(),
        mail::wait_objects(),
        mail::mail(),
        lines::running_thread(),
        word::ready_word(),
    ];
    bullets
        .into_iter()
        .flat_map(|bullet| bullet.cases)
        .collect()
}

#[test]
fn the_rich_table_is_sound() {
    assert!(sound(&rich()), "{}", show(&rich()));
}

#[test]
fn each_edit_is_judged_as_its_bullet_says() {
    let cases = all_cases();
    for case in &cases {
        let mut table = case.table();
        let (got, want) = (sound(&table), case.sound);
        let text = show(&table);
        let (bullet, what) = (case.bullet, &case.what);
        assert_eq!(
            got, want,
            "{bullet}: {what}: sound is {got}, not {want}\n{text}"
        );
        let code = door(&mut table, &[0; 11], &mut [0; 8]);
        assert_eq!(code, if want { -8 } else { -7 }, "{bullet}: {what}");
    }
    let count = |sound| cases.iter().filter(|case| case.sound == sound).count();
    println!("{} unsound and {} sound edits", count(false), count(true));
}

/// The word that the threads' bytes ask for: each that is in use, not suspended and without a wait
/// sets the bit of its priority.
fn asked_for(table: &[u8]) -> u32 {
    let threads = table[..16 * 24].chunks(24);
    let ready = threads.filter(|thread| (thread[0], thread[2], thread[3]) == (1, 0, 0));
    ready.fold(0, |word, thread| word | 1 << thread[1])
}

/// What breaks another bullet does not break this one too, so that a case is unsound in a single
/// way.
#[test]
fn only_its_own_bullet_has_the_ready_word_wrong() {
    for case in all_cases() {
        let (is_its_own, table) = (case.bullet == word::WORDS, case.table());
        let is_right = model::word(&table, at::READY_WORD) == asked_for(&table);
        assert_eq!(
            is_right,
            case.sound || !is_its_own,
            "{}: {}\n{}",
            case.bullet,
            case.what,
            show(&table)
        );
    }
}

#[test]
fn only_the_length_600_is_sound() {
    let mut long = rich().to_vec();
    long.resize(2 * TABLE, 0);
    for length in 0..=2 * TABLE {
        assert_eq!(sound(&long[..length]), length == TABLE, "length {length}");
    }
}

/// Bytes of which every change is unsound whatever the table: those of no meaning and those of
/// free records. Of the kernel's record these are bytes 6 to 23.
#[test]
fn bytes_of_no_meaning_and_of_free_records_are_zero() {
    let mut offsets: Vec<usize> = Vec::new();
    for thread in 12..16 {
        offsets.extend(thread * 24..thread * 24 + 24);
    }
    for used in 16..20 {
        offsets.extend(used * 24 + 2..used * 24 + 24);
    }
    for free in 20..24 {
        offsets.extend(free * 24 + 1..free * 24 + 24);
    }
    offsets.extend(24 * 24 + 6..TABLE);
    for offset in offsets {
        for value in 1..=255 {
            let mut table = rich();
            table[offset] = value;
            assert!(!sound(&table), "byte {offset} is {value}\n{}", show(&table));
        }
    }
}
