//! Compares what the archive did in a call with what the model did: the number and every lent word.
//!
//! The calls themselves are in `calls.rs`.

use std::fmt;

use reference::refusal::DONE;

use crate::buffer::{Lent, Spot};
use crate::tally::{Call, Tally};

/// What the archive did otherwise than the model.
pub struct Difference {
    pub call: Call,
    what: String,
}

impl fmt::Display for Difference {
    fn fmt(&self, f: &mut fmt::Formatter<'_>) -> fmt::Result {
        write!(f, "{}: {}", self.call, self.what)
    }
}

/// A part of a call's answer.
#[derive(Clone, Copy, Debug, PartialEq, Eq)]
pub enum Part {
    Number,
    /// A word of one of the buffers, which are counted from 0 in the order of the call's pointers.
    Word(usize, Spot),
    /// A word of the last buffer, where the call answers this number: the offset of read, import and
    /// speeds, the pair of shortage.
    Last(u32, usize),
    /// A word of what the wrapper makes of the answer.
    Wrapped(usize),
    /// A word of what single calls come to at the speeds of shifts, or for a reading of a log.
    Singly(usize),
    /// What the judge says of a timetable that was drawn up.
    Judged,
}

/// Which word of the wrapper's answer to read, import and speeds is the offset.
pub const WRAPPED_OFFSET: usize = 2;

/// For the self-test: a part of one call's answers that is changed before it is compared.
#[derive(Clone, Copy)]
pub struct Spoil {
    pub call: Call,
    pub part: Part,
}

/// Makes calls by the archive and by the model.
#[derive(Default)]
pub struct Both {
    pub tally: Tally,
    pub spoil: Option<Spoil>,
    /// Prints each call, its answer and its buffers.
    pub tells: bool,
}

impl Both {
    /// Compares the answers and the buffers of a call, and counts it under a number.
    pub fn compare(
        &mut self,
        call: Call,
        (mut got, expected): (u64, u64),
        counted: u32,
        buffers: &mut [&mut dyn Lent],
    ) -> Result<(), Difference> {
        match self.spoilt_part(call) {
            Some(Part::Number) => got += 1,
            Some(Part::Word(k, spot)) => buffers[k].spoil(spot),
            Some(Part::Last(number, word)) if number == counted => {
                buffers[buffers.len() - 1].spoil(Spot::At(word))
            }
            _ => (),
        }
        if self.tells {
            println!("{}: expected {}, got {}; then", call, expected, got);
            buffers
                .iter()
                .for_each(|buffer| println!("{}", buffer.told()));
        }
        self.tally.add(call, counted, 1);
        if got != expected {
            let what = format!("the answer: expected {}, got {}", expected, got);
            return Err(Difference { call, what });
        }
        match buffers.iter().find_map(|buffer| buffer.difference()) {
            Some(what) => Err(Difference { call, what }),
            None => Ok(()),
        }
    }

    /// Compares what the wrapper makes of a call with what the call itself gave, as lists of words.
    pub fn agree(
        &mut self,
        call: Call,
        mut wrapped: Vec<u64>,
        bare: Vec<u64>,
    ) -> Result<(), Difference> {
        if let Some(Part::Wrapped(word)) = self.spoilt_part(call) {
            wrapped[word] += 1;
        }
        equal(call, "the wrapper", wrapped, bare)
    }

    /// Compares what single calls come to with what shifts came to at the same speeds, as lists of
    /// words.
    pub fn agree_singly(
        &mut self,
        mut singly: Vec<u64>,
        shifted: Vec<u64>,
    ) -> Result<(), Difference> {
        if let Some(Part::Singly(word)) = self.spoilt_part(Call::Shift) {
            singly[word] += 1;
        }
        equal(Call::Shift, "single calls", singly, shifted)
    }

    /// Compares what the judge says of a timetable that was drawn up with what it has to say.
    pub fn agree_drawn(&mut self, verdict: u32) -> Result<(), Difference> {
        let is_spoilt = self.spoilt_part(Call::Draw) == Some(Part::Judged);
        let judged = u64::from(verdict) + u64::from(is_spoilt);
        equal(Call::Draw, "the judge", vec![judged], vec![DONE.into()])
    }

    /// Compares the speed of a reading by itself with the one that was read from its log.
    pub fn agree_of_log(&mut self, singly: u16, read: u16) -> Result<(), Difference> {
        let is_spoilt = self.spoilt_part(Call::Speeds) == Some(Part::Singly(0));
        let singly = u64::from(singly) + u64::from(is_spoilt);
        equal(Call::Speeds, "a single call", vec![singly], vec![read.into()])
    }

    fn spoilt_part(&self, call: Call) -> Option<Part> {
        let spoil = self.spoil.filter(|spoil| spoil.call == call);
        spoil.map(|spoil| spoil.part)
    }
}

/// Whether the words that were got in some way are those that are expected of a call.
fn equal(call: Call, way: &str, got: Vec<u64>, expected: Vec<u64>) -> Result<(), Difference> {
    let differs = |&at: &usize| got.get(at) != expected.get(at);
    let at = match (0..got.len().max(expected.len())).find(differs) {
        Some(at) => at,
        None => return Ok(()),
    };
    let told = |words: &[u64]| words.get(at).map_or("nothing".to_string(), u64::to_string);
    let what = format!(
        "{}, word {}: expected {}, got {}",
        way,
        at,
        told(&expected),
        told(&got)
    );
    Err(Difference { call, what })
}
