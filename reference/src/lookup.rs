//! The name lookup: where in a file the name of a job stands.

use crate::edition::NAME_BYTES;
use crate::reader::contents;

/// A part of a file. An empty part has length 0.
#[derive(Clone, Copy, Debug, PartialEq, Eq)]
pub struct Part {
    pub offset: usize,
    pub length: usize,
}

const EMPTY: Part = Part {
    offset: 0,
    length: 0,
};

/// The part that holds the name of the job at `position`, or the empty part.
pub fn name_lookup(file: &[u8], position: u64) -> Part {
    let contents = match contents(file) {
        Ok(contents) => contents,
        Err(_) => return EMPTY,
    };
    if position >= contents.plan.count {
        return EMPTY;
    }
    Part {
        offset: contents.names_at[position as usize],
        length: NAME_BYTES,
    }
}
