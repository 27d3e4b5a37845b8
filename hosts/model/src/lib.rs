//! The independent model of the kernel: document 01's rules over explicit queues, one queue for
//! each line. It is written from the documents only and shares no text with the proved kernel,
//! which is compared with it byte for byte.

mod door;
mod kernel;
mod listing;
mod mail;
mod names;
mod random_line;
mod random_record;
mod random_table;
mod random_trace;
mod report;
mod request;
mod rng;
mod semaphores;
mod show;
mod sound;
mod table;
mod threads;
mod time;
mod trace;

pub use door::{door, AREA};
pub use listing::{list, write, Listed, Written, LONGEST_LINE};
pub use names::{code, operation, outcome, wait};
pub use names::{DEEPEST_LOCK, FOREVER, FULL_COUNT, INIT, LONGEST};
pub use names::{PRIORITIES, SEMAPHORES, THREADS};
pub use random_line::{random_line, random_listing, random_request, random_requests};
pub use random_record::random_record;
pub use random_table::{random_sound, spoil};
pub use random_trace::random_trace;
pub use report::{report, report_to, MOST_RECORDS};
pub use request::{record, uses, Uses, RECORD};
pub use rng::Rng;
pub use show::{show, show_record};
pub use sound::sound;
pub use table::{at, fresh, word, TABLE, WIDTH};
pub use trace::{trace, trace_to};
