//! The door of an archive that is for x86-64, on another machine: a program of that processor has
//! the door (far/far.c), the emulator runs it, and calls go to it by pipes. Each thread has a
//! program of its own.

use std::cell::RefCell;
use std::io::{Read, Write};
use std::process::{Child, ChildStdin, ChildStdout, Command, Stdio};

use crate::lent::Lent;

/// The most bytes that go out before the answers are read: a pipe holds them, so that neither side
/// waits for the other.
const BATCH: usize = 48 << 10;

struct Far {
    program: Child,
    to: Option<ChildStdin>,
    from: ChildStdout,
}

thread_local! {
    static FAR: RefCell<Far> = RefCell::new(Far::start());
}

/// The compiled door. It takes every length, so nothing is tested first.
pub fn door(table: &mut [u8], record: &[u8], area: &mut [u8]) -> i32 {
    let mut lent = [Lent::new(0, table, record, area)];
    let code = call(&mut lent)[0];
    table.copy_from_slice(lent[0].table());
    area.copy_from_slice(lent[0].area());
    code
}

/// Puts each call to the door; gives the returned numbers.
pub(crate) fn call(lents: &mut [Lent]) -> Vec<i32> {
    let mut codes = Vec::with_capacity(lents.len());
    let mut rest = lents;
    while !rest.is_empty() {
        let mut bytes = 0;
        let fits = |lent: &&Lent| {
            bytes += lent.bytes.len() + 32;
            bytes <= BATCH
        };
        let count = rest.iter().take_while(fits).count().max(1);
        let (batch, later) = rest.split_at_mut(count);
        FAR.with(|far| far.borrow_mut().exchange(batch, &mut codes));
        rest = later;
    }
    codes
}

impl Far {
    fn start() -> Far {
        let mut command = Command::new(env!("DOOR_RUN"));
        command.arg("run").arg(env!("DOOR_FAR"));
        command.stdin(Stdio::piped()).stdout(Stdio::piped());
        let mut program = command.spawn().expect("hosts/x86_64 runs");
        let to = program.stdin.take();
        let from = program.stdout.take().expect("it is piped");
        Far { program, to, from }
    }

    fn exchange(&mut self, batch: &mut [Lent], codes: &mut Vec<i32>) {
        let mut out = word(batch.len()).to_vec();
        for lent in batch.iter() {
            out.extend(word(lent.bytes.len()));
            for part in [&lent.table, &lent.record, &lent.area] {
                out.extend(word(part.start));
                out.extend(word(part.len()));
            }
            out.extend(&lent.bytes);
        }
        let to = self.to.as_mut().expect("it is open until the end");
        to.write_all(&out).expect("the door's program reads");
        to.flush().expect("the door's program reads");
        for lent in batch {
            let mut code = [0; 4];
            self.receive(&mut code);
            codes.push(i32::from_le_bytes(code));
            self.receive(&mut lent.bytes);
        }
    }

    fn receive(&mut self, bytes: &mut [u8]) {
        let read = self.from.read_exact(bytes);
        read.expect("the door's program answers: it ends early only where the door itself fails");
    }
}

impl Drop for Far {
    /// The program ends when its input does.
    fn drop(&mut self) {
        self.to = None;
        let _ = self.program.wait();
    }
}

fn word(number: usize) -> [u8; 4] {
    u32::try_from(number)
        .expect("lengths are short")
        .to_le_bytes()
}
