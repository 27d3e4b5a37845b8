//! A program whose input does not end: it is asked for what it wrote so far.

use std::io::{BufReader, Read, Write};
use std::process::{Child, ChildStdin};
use std::sync::mpsc::{channel, Receiver, RecvTimeoutError, TryRecvError};
use std::thread;
use std::time::Duration;

use crate::Program;

/// Whoever waits longer for a program would wait for ever.
const PATIENCE: Duration = Duration::from_secs(30);

/// A program that runs, with its input open until it is closed.
pub struct Open {
    child: Child,
    input: Option<ChildStdin>,
    output: Receiver<u8>,
}

impl Open {
    pub fn start(program: Program) -> Open {
        let mut child = program.start();
        let input = child.stdin.take();
        let printed = child.stdout.take().expect("its standard output");
        let (sender, output) = channel();
        thread::spawn(move || {
            let bytes = BufReader::new(printed).bytes();
            bytes
                .map_while(Result::ok)
                .try_for_each(|byte| sender.send(byte))
        });
        Open {
            child,
            input,
            output,
        }
    }

    /// Feeds these bytes, and the input stays open.
    pub fn put(&mut self, bytes: &[u8]) {
        let input = self.input.as_mut().expect("the input is open");
        input.write_all(bytes).expect("the program reads on");
    }

    /// The input ends here.
    pub fn close(&mut self) {
        self.input = None;
    }

    /// The program has written nothing more so far, and has not ended.
    pub fn waits(&mut self) {
        let more = self.output.try_recv();
        assert_eq!(more, Err(TryRecvError::Empty), "what comes too early");
    }

    /// The next bytes of its output are these.
    pub fn gives(&mut self, bytes: &[u8]) {
        let next = |_: &u8| self.output.recv_timeout(PATIENCE).ok();
        let given: Vec<u8> = bytes.iter().map_while(next).collect();
        assert_eq!(given, bytes, "what comes while the input is open");
    }

    /// The program ends, although its input may be open, and has written nothing more but this on standard error.
    pub fn ends(mut self, said: &str) {
        let more = self.output.recv_timeout(PATIENCE);
        assert_eq!(more, Err(RecvTimeoutError::Disconnected), "the end");
        let mut error = String::new();
        let mut stream = self.child.stderr.take().expect("its standard error");
        let read = stream.read_to_string(&mut error);
        read.expect("standard error is text");
        assert_eq!(error, said);
    }
}

impl Drop for Open {
    /// A program that did not end is ended.
    fn drop(&mut self) {
        let _ = self.child.kill();
        let _ = self.child.wait();
    }
}
