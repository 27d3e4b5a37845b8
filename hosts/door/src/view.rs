//! A sound table as someone outside sees it: fields by name, read off the bytes.

use model::{at, wait, word, THREADS};

/// A sound table.
#[derive(Clone, Copy)]
pub struct View<'a>(pub &'a [u8]);

impl View<'_> {
    fn byte(&self, i: usize, field: usize) -> u8 {
        self.0[at::thread(i) + field]
    }

    fn word(&self, i: usize, field: usize) -> u32 {
        word(self.0, at::thread(i) + field)
    }

    pub fn in_use(&self, i: usize) -> bool {
        self.byte(i, at::IN_USE) == 1
    }

    pub fn suspended(&self, i: usize) -> bool {
        self.byte(i, at::SUSPENDED) == 1
    }

    pub fn priority(&self, i: usize) -> u8 {
        self.byte(i, at::PRIORITY)
    }

    /// The wait's kind and object.
    pub fn wait(&self, i: usize) -> (u8, u8) {
        (self.byte(i, at::WAIT_KIND), self.byte(i, at::WAIT_OBJECT))
    }

    pub fn place(&self, i: usize) -> u8 {
        self.byte(i, at::PLACE)
    }

    pub fn turn(&self, i: usize) -> u32 {
        self.word(i, at::TURN)
    }

    pub fn counter(&self, i: usize) -> u32 {
        self.word(i, at::COUNTER)
    }

    pub fn count(&self, s: usize) -> u8 {
        self.0[at::semaphore(s) + at::COUNT]
    }

    pub fn running(&self) -> usize {
        usize::from(self.0[at::RUNNING])
    }

    pub fn lock(&self) -> u8 {
        self.0[at::LOCK]
    }

    pub fn ready_word(&self) -> u32 {
        word(self.0, at::READY_WORD)
    }

    /// "A thread is ready when in use, not suspended, not waiting"
    pub fn ready(&self, i: usize) -> bool {
        self.in_use(i) && !self.suspended(i) && self.wait(i).0 == wait::NONE
    }

    /// The ready threads of a rank, as bits.
    pub fn ready_set(&self, priority: u8) -> u16 {
        let member = |i: &usize| self.ready(*i) && self.priority(*i) == priority;
        (0..THREADS).filter(member).fold(0, |set, i| set | 1 << i)
    }

    /// How many threads have this wait: the length of a line of senders or of waiters.
    pub fn waiting(&self, wait: (u8, u8)) -> usize {
        let has = |i: &usize| self.in_use(*i) && self.wait(*i) == wait;
        (0..THREADS).filter(has).count()
    }

    /// The ticks that the wait of thread `i` has left; nothing where it has none or no time limit.
    pub fn left(&self, i: usize) -> Option<u32> {
        let waits = self.in_use(i) && self.wait(i).0 != wait::NONE;
        Some(self.counter(i)).filter(|&left| waits && left > 0)
    }

    /// The threads in a timed wait, as bits.
    pub fn timed(&self) -> u16 {
        let timed = (0..THREADS).filter(|&i| self.left(i).is_some());
        timed.fold(0, |set, i| set | 1 << i)
    }

    /// The sum of the turns of the rank that runs.
    pub fn round(&self) -> u32 {
        let set = self.ready_set(self.priority(self.running()));
        let members = (0..THREADS).filter(|&i| set >> i & 1 == 1);
        members.map(|i| self.turn(i)).sum()
    }

    /// How many threads stand behind thread `i` in its line.
    pub fn behind(&self, i: usize) -> usize {
        let length = match self.wait(i) {
            (wait::NONE, _) if self.ready(i) => {
                self.ready_set(self.priority(i)).count_ones() as usize
            }
            its if its.0 == wait::SEND || its.0 == wait::SEMAPHORE => self.waiting(its),
            _ => 0,
        };
        length.saturating_sub(usize::from(self.place(i)))
    }

    /// How many threads are in use.
    pub fn threads(&self) -> usize {
        (0..THREADS).filter(|&i| self.in_use(i)).count()
    }
}
