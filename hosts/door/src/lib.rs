//! The compiled door from Rust, and what holds it to the independent model: every call is put to
//! both, and the returned number, all bytes of the table, the ready word among them, the area and
//! the bytes around them must be the same.

pub mod boards;
mod coverage;
mod hold;
mod lent;
#[cfg_attr(emulated, path = "emulated.rs")]
#[cfg_attr(not(emulated), path = "linked.rs")]
mod machine;
mod runs;
mod setting_sorts;
mod sleep_sorts;
mod sorts;
mod together;
mod view;

pub use coverage::{Coverage, REFUSALS};
pub use hold::{Answered, Hold};
pub use machine::door;
pub use runs::random_run;
pub use together::ticked;
pub use view::View;
