//! Test inputs, and the lengths of the buffers that are lent with them.

use crate::joblist::JobList;
use crate::plan::Plan;
use crate::run::Run;

/// How long the lent buffers are.
#[derive(Clone, Copy, Debug, PartialEq, Eq)]
pub struct Lent {
    pub table: usize,
    pub output: usize,
    pub grants: usize,
}

/// A plan file, right or wrong, and the speeds of a run.
#[derive(Clone, Debug, PartialEq, Eq)]
pub struct FileInput {
    pub lent: Lent,
    pub file: Vec<u8>,
    pub speeds: Vec<u16>,
}

/// A plan in hand with its table, a run record made by hand, and speeds.
#[derive(Clone, Debug, PartialEq, Eq)]
pub struct HandInput {
    pub lent: Lent,
    pub plan: Plan,
    /// The lent places that belong to the plan: at most 2,016, fewer if fewer are lent.
    pub table: Vec<u32>,
    pub run: Run,
    pub speeds: Vec<u16>,
}

/// A word of the host between two slots: the job at this position has ended.
#[derive(Clone, Copy, Debug, PartialEq, Eq)]
pub struct Word {
    /// How many of the run's speeds come before it.
    pub after: usize,
    pub position: u64,
}

/// The speeds of a shift, and how long the outputs are that are lent with it.
#[derive(Clone, Debug, PartialEq, Eq)]
pub struct ShiftInput {
    pub speeds: Vec<u16>,
    /// Places for the grant rows of all speeds.
    pub rows: usize,
    /// Places for the numbers of all speeds.
    pub numbers: usize,
}

/// A plan in hand for the desk, and the table as it is lent: any length, anything in it.
#[derive(Clone, Debug, PartialEq, Eq)]
pub struct DeskInput {
    pub plan: Plan,
    pub table: Vec<u32>,
}

/// A job list in hand, and how many bytes are lent for its text.
#[derive(Clone, Debug, PartialEq, Eq)]
pub struct ListInput {
    pub list: JobList,
    pub output: usize,
}

/// A reading of the meter as the bits of its floats, and a normal rate, which may be any.
#[derive(Clone, Copy, Debug, PartialEq, Eq)]
pub struct ReadingInput {
    pub mean: u64,
    pub lowest: u64,
    pub n: u16,
}

/// A log of the meter, right or wrong, a normal rate, and how many places are lent for the speeds.
#[derive(Clone, Debug, PartialEq, Eq)]
pub struct LogInput {
    pub log: Vec<u8>,
    pub n: u16,
    pub list: usize,
}
