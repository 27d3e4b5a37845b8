//! The pipes to a browser and from it: requests go out with a number, their replies come back with it, and events come unasked. A message is a
//! JSON text that a NUL byte ends.

use std::collections::HashMap;
use std::io::{BufRead, BufReader, Write};
use std::process::{ChildStdin, ChildStdout};
use std::sync::atomic::{AtomicU64, Ordering};
use std::sync::{Arc, Condvar, Mutex, MutexGuard, PoisonError};
use std::thread;
use std::time::{Duration, Instant};

use crate::json::{quoted, Value};

/// The browser answers, and a page is loaded, in this time.
pub const PATIENCE: Duration = Duration::from_secs(120);

/// What a browser tells without being asked.
#[derive(Clone, Debug)]
pub struct Event {
    pub method: String,
    pub params: Value,
}

/// What came and is not taken yet: replies by their number, and events by the session that they belong to.
#[derive(Default)]
struct Inbox {
    replies: HashMap<u64, Value>,
    events: HashMap<String, Vec<Event>>,
    /// Why nothing more comes.
    over: Option<String>,
}

#[derive(Default)]
struct Shared {
    inbox: Mutex<Inbox>,
    news: Condvar,
}

impl Shared {
    fn inbox(&self) -> MutexGuard<'_, Inbox> {
        held(&self.inbox)
    }

    /// What a look into the inbox finds, at once or when news come before the deadline.
    fn awaited<T>(
        &self,
        deadline: Instant,
        mut look: impl FnMut(&mut Inbox) -> Option<T>,
    ) -> Result<T, String> {
        let mut inbox = self.inbox();
        loop {
            if let Some(found) = look(&mut inbox) {
                return Ok(found);
            }
            if let Some(over) = &inbox.over {
                return Err(over.clone());
            }
            let left = deadline.saturating_duration_since(Instant::now());
            if left.is_zero() {
                return Err(format!("nothing came within {} s", PATIENCE.as_secs()));
            }
            let woken = self.news.wait_timeout(inbox, left);
            inbox = woken.unwrap_or_else(PoisonError::into_inner).0;
        }
    }

    /// Puts a message where it is looked for.
    fn put(&self, message: &Value) {
        let mut inbox = self.inbox();
        if let Some(number) = message.at("id").number() {
            inbox.replies.insert(number as u64, message.clone());
        } else if let Some(method) = message.at("method").text() {
            let session = message.at("sessionId").text().unwrap_or_default();
            let event = Event {
                method: method.to_string(),
                params: message.at("params").clone(),
            };
            let events = inbox.events.entry(session.to_string());
            events.or_default().push(event);
        }
        self.news.notify_all();
    }

    /// Reads messages until no more come.
    fn read(&self, output: ChildStdout) {
        let mut output = BufReader::new(output);
        let mut bytes = Vec::new();
        let over = loop {
            bytes.clear();
            match output.read_until(0, &mut bytes) {
                Ok(_) if bytes.pop() == Some(0) => (),
                Ok(_) => break "the browser has ended".to_string(),
                Err(error) => break format!("the browser cannot be heard: {error}"),
            }
            match Value::parse(&String::from_utf8_lossy(&bytes)) {
                Ok(message) => self.put(&message),
                Err(fault) => break format!("the browser says what is no message: {fault}"),
            }
        };
        self.inbox().over = Some(over);
        self.news.notify_all();
    }
}

/// What a lock guards, though a thread may have panicked while it held it.
fn held<T>(lock: &Mutex<T>) -> MutexGuard<'_, T> {
    lock.lock().unwrap_or_else(PoisonError::into_inner)
}

/// Both pipes.
pub struct Pipe {
    input: Mutex<ChildStdin>,
    shared: Arc<Shared>,
    last: AtomicU64,
}

impl Pipe {
    pub fn open(input: ChildStdin, output: ChildStdout) -> Pipe {
        let shared = Arc::new(Shared::default());
        let reader = Arc::clone(&shared);
        thread::spawn(move || reader.read(output));
        Pipe {
            input: Mutex::new(input),
            shared,
            last: AtomicU64::new(0),
        }
    }

    /// What the browser replies to a request with these parameters, a JSON record. A session is a page's; "" is the browser itself.
    pub fn ask(&self, session: &str, method: &str, params: &str) -> Result<Value, String> {
        let number = self.last.fetch_add(1, Ordering::Relaxed) + 1;
        let of_page = match session {
            "" => String::new(),
            _ => format!(r#","sessionId":{}"#, quoted(session)),
        };
        let message =
            format!("{{\"id\":{number},\"method\":\"{method}\",\"params\":{params}{of_page}}}\0");
        // if the browser has ended, that is what comes of waiting for the reply
        let _ = held(&self.input).write_all(message.as_bytes());
        let reply = self.shared.awaited(Instant::now() + PATIENCE, |inbox| {
            inbox.replies.remove(&number)
        });
        let reply = reply.map_err(|fault| format!("{method}: {fault}"))?;
        match reply.at("error") {
            Value::Null => Ok(reply.at("result").clone()),
            error => Err(format!(
                "{method}: the browser refuses: {}",
                error.at("message").shown()
            )),
        }
    }

    /// Waits until such an event of a session has come.
    pub fn wait_for(
        &self,
        session: &str,
        deadline: Instant,
        is_such: impl Fn(&Event) -> bool,
    ) -> Result<(), String> {
        self.shared.awaited(deadline, |inbox| {
            let events = inbox.events.get(session)?;
            events.iter().any(&is_such).then_some(())
        })
    }

    /// All events of a session so far.
    pub fn events(&self, session: &str) -> Vec<Event> {
        let inbox = self.shared.inbox();
        inbox.events.get(session).cloned().unwrap_or_default()
    }

    /// The events of a session are no longer wanted.
    pub fn forget(&self, session: &str) {
        self.shared.inbox().events.remove(session);
    }
}
