//! The text of a job list in the making: header, lines and fields, each open to damage.

use super::prng::Prng;
use crate::joblist::{quoted, values_of, written_field, HEADER, LINE_END};
use crate::plan::Job;

/// One line: the job that it is made of, its fields as they stand in the text, and its end.
#[derive(Clone, Debug)]
pub struct Line {
    pub job: Job,
    pub fields: Vec<Vec<u8>>,
    pub end: Vec<u8>,
}

impl Line {
    pub fn text(&self) -> Vec<u8> {
        [self.fields.join(&b','), self.end.clone()].concat()
    }

    /// Replaces a field, if earlier damage has left it.
    pub fn set(&mut self, field: usize, text: &[u8]) {
        if let Some(place) = self.fields.get_mut(field) {
            *place = text.to_vec();
        }
    }
}

/// A whole text. The rest stands after the last line.
#[derive(Clone, Debug)]
pub struct Sheet {
    pub header: Vec<u8>,
    pub lines: Vec<Line>,
    pub rest: Vec<u8>,
}

impl Sheet {
    /// A sheet whose fields are made of their values, each in turn.
    fn of(jobs: &[Job], mut field_of: impl FnMut(&[u8]) -> Vec<u8>) -> Sheet {
        let mut lines = Vec::new();
        for job in jobs {
            let values = values_of(job);
            lines.push(Line {
                job: *job,
                fields: values.iter().map(|value| field_of(value)).collect(),
                end: LINE_END.to_vec(),
            });
        }
        Sheet {
            header: HEADER.to_vec(),
            lines,
            rest: Vec::new(),
        }
    }

    /// Quotes only where they must be.
    pub fn plain(jobs: &[Job]) -> Sheet {
        Sheet::of(jobs, written_field)
    }

    /// Quotes around every field.
    pub fn quoted(jobs: &[Job]) -> Sheet {
        Sheet::of(jobs, quoted)
    }

    /// Quotes around one field in some, beside those that must be quoted.
    pub fn drawn(prng: &mut Prng, jobs: &[Job]) -> Sheet {
        match prng.below(6) {
            0 => Sheet::plain(jobs),
            1 => Sheet::quoted(jobs),
            some => Sheet::of(jobs, |value| field(prng, value, some)),
        }
    }

    pub fn text(&self) -> Vec<u8> {
        let mut text = self.header.clone();
        for line in &self.lines {
            text.extend(line.text());
        }
        text.extend(&self.rest);
        text
    }
}

/// A value as a field, quoted once in so many times even if it need not be.
pub fn field(prng: &mut Prng, value: &[u8], times: u64) -> Vec<u8> {
    if prng.once_in(times) {
        quoted(value)
    } else {
        written_field(value)
    }
}
