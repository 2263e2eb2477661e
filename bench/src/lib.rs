//! Fast plain Rust versions of the calls: the yardstick that other code is measured against.
//!
//! The rules are those of docs/RULES.md. No call allocates, and none uses unsafe code.

#![forbid(unsafe_code)]

mod bits;
mod desk;
pub mod inputs;
mod judge;
mod meter;
mod plan;
mod reader;
pub mod refusal;
mod shift;
mod slack;
mod step;
mod times;
pub mod words;
mod writer;

pub use desk::draw_up;
pub use judge::{judge, Fault, Verdict};
pub use meter::{read_log, speed_of, Reading, LARGEST_LOG};
pub use plan::{Job, Plan, Run, HI, LO, MOST_INTERVALS, MOST_JOBS, MOST_SPEEDS, PLACES};
pub use reader::read;
pub use shift::shift;
pub use slack::{slack, Slack};
pub use step::step;
pub use writer::write;
