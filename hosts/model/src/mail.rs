//! The operations on mailboxes: Send, Send from interrupt and Receive.

use crate::kernel::{done_with, Kernel, Reply, Wait, DONE};
use crate::names::{code, outcome};

impl Kernel {
    /// "Send: to oneself −5. To a thread waiting to receive, the data ends that wait with 0; to
    /// an empty mailbox, it fills it; to a full one, the sender must wait."
    pub fn send(&mut self, object: u8, number: u32, data: u32) -> Reply {
        let to = self.thread_in_use(object)?;
        if to == self.running {
            return Err(code::OPERATION);
        }
        if self.thread(to).mailbox.is_some() {
            return self.must_wait(Wait::Send(to), number, data);
        }
        self.deliver(to, data);
        DONE
    }

    /// "From an interrupt: −5 under lock or if full."
    pub fn send_from_interrupt(&mut self, object: u8, data: u32) -> Reply {
        let to = self.thread_in_use(object)?;
        if self.locked() || self.thread(to).mailbox.is_some() {
            return Err(code::OPERATION);
        }
        self.deliver(to, data);
        DONE
    }

    /// "To a thread waiting to receive, the data ends that wait with 0; to an empty mailbox, it
    /// fills it". A receiver's own mailbox is empty, so the mailbox of `to` is empty in both.
    fn deliver(&mut self, to: usize, data: u32) {
        if self.thread(to).wait == Wait::Receive {
            self.end_wait(to, outcome::DONE, data);
        } else {
            self.thread_mut(to).mailbox = Some(data);
        }
    }

    /// "Receive: a full mailbox gives its data as value; then the first waiting sender's data
    /// moves in and that wait ends with 0; with no sender the mailbox is empty. An empty one must
    /// wait."
    pub fn receive(&mut self, number: u32) -> Reply {
        let caller = self.running;
        let Some(value) = self.thread(caller).mailbox else {
            return self.must_wait(Wait::Receive, number, 0);
        };
        let first = self.senders[caller].front().copied();
        self.thread_mut(caller).mailbox = first.map(|sender| self.thread(sender).parcel);
        if let Some(sender) = first {
            self.end_wait(sender, outcome::DONE, 0);
        }
        done_with(value)
    }
}
