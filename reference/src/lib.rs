//! The reference program: every call on plans, runs, job lists and meter logs, written by the plainest
//! means.
//!
//! `generate` makes test inputs out of a seed, on which other programs are compared with this one.

pub mod desk;
pub mod edition;
pub mod generate;
pub mod joblist;
pub mod judge;
pub mod lookup;
pub mod meter;
pub mod plan;
pub mod program;
pub mod reader;
pub mod refusal;
pub mod run;
pub mod shift;
pub mod slack;
pub mod writer;
