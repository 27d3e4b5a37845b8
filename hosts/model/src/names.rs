//! The numbers of document 01 and their names: how many there are of each thing, the operations,
//! the codes, the wait kinds and the outcomes.

/// "16 threads (0 to 15), thread 0 is Init."
pub const THREADS: usize = 16;
/// "thread 0 is Init."
pub const INIT: usize = 0;
/// "8 semaphores (0 to 7)."
pub const SEMAPHORES: usize = 8;
/// "Priorities 0 to 31, larger outranks smaller."
pub const PRIORITIES: usize = 32;
/// "Turns and delays 1 to 99,999 ticks"
pub const LONGEST: u32 = 99_999;
/// "1 to 99,999 is a time limit; 100,000 or more is forever."
pub const FOREVER: u32 = 100_000;
/// "Semaphore count 0 to 99."
pub const FULL_COUNT: u8 = 99;
/// "Lock nesting 0 to 255."
pub const DEEPEST_LOCK: u8 = 255;

/// The operations: "Numbers 0 to 16 are 001's call list." Order 7 adds 21 and 22, and order 8 puts
/// 23 and 24 in the place of 3.
pub mod operation {
    pub const YIELD: u8 = 0;
    pub const CREATE: u8 = 1;
    pub const DELETE: u8 = 2;
    /// No operation. Order 8: "Operation 3 is gone."
    pub const GONE: u8 = 3;
    pub const SUSPEND: u8 = 4;
    pub const RESUME: u8 = 5;
    pub const DELAY: u8 = 6;
    pub const CANCEL: u8 = 7;
    pub const SEND: u8 = 8;
    pub const SEND_FROM_INTERRUPT: u8 = 9;
    pub const RECEIVE: u8 = 10;
    pub const MAKE: u8 = 11;
    pub const DROP: u8 = 12;
    pub const PEND: u8 = 13;
    pub const ABORT: u8 = 14;
    pub const POST: u8 = 15;
    pub const POST_FROM_INTERRUPT: u8 = 16;
    pub const LOCK: u8 = 17;
    pub const UNLOCK: u8 = 18;
    pub const TICK: u8 = 19;
    pub const OUTCOME: u8 = 20;
    pub const TICKS: u8 = 21;
    pub const NEAREST: u8 = 22;
    pub const SET_PRIORITY: u8 = 23;
    pub const SET_TURN: u8 = 24;
    /// The largest operation there is. Order 8: "−8 for 3 and above 24."
    pub const LAST: u8 = SET_TURN;

    /// Every operation there is.
    pub const EACH: [u8; 24] = [
        YIELD,
        CREATE,
        DELETE,
        SUSPEND,
        RESUME,
        DELAY,
        CANCEL,
        SEND,
        SEND_FROM_INTERRUPT,
        RECEIVE,
        MAKE,
        DROP,
        PEND,
        ABORT,
        POST,
        POST_FROM_INTERRUPT,
        LOCK,
        UNLOCK,
        TICK,
        OUTCOME,
        TICKS,
        NEAREST,
        SET_PRIORITY,
        SET_TURN,
    ];
}

/// The codes: "code 0 is done and 1 is blocked", and the refusals.
pub mod code {
    pub const BLOCKED: i32 = 1;
    pub const DONE: i32 = 0;
    /// "thread number above 15, or free (Create: in use)"
    pub const THREAD: i32 = -1;
    /// "priority above 31"
    pub const PRIORITY: i32 = -2;
    /// "turn or delay 0 or above 99,999", and order 7: "for 21 with 0 or above 99,999"
    pub const TURN: i32 = -3;
    /// "Suspend: already suspended; Resume: not; Cancel: not in a delay; Abort: not waiting on a
    /// semaphore"
    pub const STATE: i32 = -4;
    /// "as said under each operation below"
    pub const OPERATION: i32 = -5;
    /// "semaphore number above 7, or free (Make: in use)"
    pub const SEMAPHORE: i32 = -6;
    /// "table unsound, or answer area not 8 bytes"
    pub const UNSOUND: i32 = -7;
    /// "record not 12 bytes, operation [3 or above 24, order 8], byte 3 or an unused field not zero"
    pub const MALFORMED: i32 = -8;
}

/// The wait kinds: "0 none, 1 delay, 2 receive, 3 send, 4 semaphore".
pub mod wait {
    pub const NONE: u8 = 0;
    pub const DELAY: u8 = 1;
    pub const RECEIVE: u8 = 2;
    pub const SEND: u8 = 3;
    pub const SEMAPHORE: u8 = 4;
}

/// The outcomes: "a signed byte (1 none yet, 0 done, −5 failed)".
pub mod outcome {
    pub const NONE_YET: i8 = 1;
    pub const DONE: i8 = 0;
    pub const FAILED: i8 = -5;
}
