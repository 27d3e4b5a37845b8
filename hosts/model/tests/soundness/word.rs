//! The bullet of order 6 on the ready word.

use crate::bullet::Bullet;
use crate::rich::*;

/// What the bullet says.
pub const WORDS: &str = "bit p set exactly when ready line p has a member";

/// Thread `i` is suspended, and out of its ready line.
fn out_of_line(i: usize) -> [Edit; 3] {
    [
        byte(i, SUSPENDED, 1),
        byte(i, PLACE, 0),
        wide(i, COUNTER, 0),
    ]
}

pub fn ready_word() -> Bullet {
    let mut b = Bullet::new(WORDS);
    let right = 1 << 5 | 1;
    b.sound("the word is right", &[word(right)]);
    for line in 0..32 {
        let (what, wrong) = (format!("bit {line} is wrong"), right ^ 1 << line);
        b.unsound(&what, &[word(wrong)]);
        b.unsound(&(what + " under lock"), &[word(wrong), lock(1)]);
    }
    for (offset, right) in (2..).zip([right as u8, 0, 0, 0]) {
        let wrong: Vec<u8> = (0..=255).filter(|&value| value != right).collect();
        b.bytes("a byte of the word", (24, offset), &[right], &wrong);
    }
    b.unsound("no bit, as in tables saved earlier", &[word(0)]);
    b.unsound("every bit", &[word(u32::MAX)]);
    b.unsound("the highest byte first", &[word(right.swap_bytes())]);
    b.unsound("the highest bit for line 0", &[word(right.reverse_bits())]);
    b.unsound(
        "a bit for each priority in use",
        &[ready_lines(&[0, 5, 9, 31])],
    );
    b.unsound("the word a byte too early", &[lock(right as u8), word(0)]);
    b.unsound("the word a byte too late", &[word(right << 8)]);
    one_after_the_other(&mut b);
    in_every_line(&mut b);
    b
}

/// The bit goes with the last member, and not with the first.
fn one_after_the_other(b: &mut Bullet) {
    let second = out_of_line(2);
    b.sound("one of two is left in line 5", &second);
    b.unsound(
        "one of two is left in line 5, without its bit",
        &[&second[..], &[ready_lines(&[0])]].concat(),
    );
    let both = [&out_of_line(1)[..], &second, &[running(10)]].concat();
    b.unsound("nobody is left in line 5, and its bit stays", &both);
    b.sound(
        "nobody is left in line 5",
        &[&both[..], &[ready_lines(&[0])]].concat(),
    );
}

/// Thread 10 goes to each line in turn, where it is alone but in line 5.
fn in_every_line(b: &mut Bullet) {
    for line in 1..32 {
        let place = if line == 5 { 3 } else { 1 };
        let runs = running(if line > 5 { 10 } else { 1 });
        let there = [
            byte(10, PRIORITY, line),
            byte(10, PLACE, place),
            byte(0, PLACE, 1),
            runs,
        ];
        let lines = [0, 5, u32::from(line)];
        let with = |word: Edit| [&there[..], &[word]].concat();
        b.sound(&format!("10 in line {line}"), &with(ready_lines(&lines)));
        b.unsound(
            &format!("10 in line {line}, without the bit of line 0"),
            &with(ready_lines(&lines[1..])),
        );
        if line != 5 {
            let what = format!("10 in line {line}, without its bit");
            b.unsound(&what, &with(ready_lines(&lines[..2])));
        }
    }
}
