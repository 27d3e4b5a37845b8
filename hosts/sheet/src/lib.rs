//! The auditor's sheet: one page of a recorded event, with what each lane was promised and what it got. Figures come from the proved
//! programs `trace` and `report`; what is counted besides is held against them, and a page with a figure that differs is refused.

pub mod about;
mod answer;
pub mod bands;
pub mod counts;
pub mod ending;
pub mod event;
pub mod names;
mod over_time;
pub mod page;
mod plot;
pub mod proved;
pub mod recording;
pub mod replay;
pub mod stretch;
mod stretch_list;
pub mod stretches;
pub mod text;
pub mod theorems;
pub mod view;
mod would_be;
