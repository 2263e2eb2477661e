//! Says in words where a meter log is wrong, and what is wrong there.
//!
//! That it is wrong, by which number and at which offset, comes from the log reader of the library. Here the offset is turned into a reading and a
//! field, and the number into a sentence with the values that the log has.

use crate::encoding::VERSION;
use crate::readings::{MOST_READINGS, READING_LENGTH};
use crate::words::{bytes, grouped};

// Where fields begin, in the log and in a reading, and how many bytes they have.
const LENGTH_AT: usize = 1;
const LENGTH_BYTES: usize = 4;
const READINGS_AT: usize = LENGTH_AT + LENGTH_BYTES;
const READING_BYTES: usize = 1 + READING_LENGTH as usize;
const RATE_BYTES: usize = 8;
const LOWEST_IN: usize = 1 + RATE_BYTES;

// What a field is called, with its reading, which is counted from 0.
fn place(offset: usize) -> String {
    if offset < READINGS_AT {
        return if offset < LENGTH_AT { "version" } else { "length" }.to_string();
    }
    let reading = (offset - READINGS_AT) / READING_BYTES;
    let field = match (offset - READINGS_AT) % READING_BYTES {
        0 => "length byte",
        within if within < LOWEST_IN => "mean",
        _ => "lowest rate",
    };
    format!("reading {reading}, {field}")
}

// The bytes from an offset on as a number; those that are there count.
fn number(log: &[u8], at: usize, length: usize) -> u64 {
    log.iter().skip(at).take(length).fold(0, |number, &byte| number << 8 | u64::from(byte))
}

fn rate(log: &[u8], at: usize) -> f64 {
    f64::from_bits(number(log, at, RATE_BYTES))
}

// A length that disagrees, or a field that is cut.
fn extent_words(log: &[u8], offset: usize) -> String {
    let there = log.len() - offset;
    let length = if offset == LENGTH_AT { LENGTH_BYTES } else { RATE_BYTES };
    if there >= length {
        return format!("the length is {}, and after it the log has {}", grouped(number(log, offset, length)), bytes(there - length));
    }
    match there {
        0 => "the log ends before it".to_string(),
        _ => format!("the log ends after {there} of its {length} bytes"),
    }
}

// What is wrong with a reading whose mean begins here.
fn reading_words(log: &[u8], mean_at: usize, must: &str) -> String {
    let (mean, lowest) = (rate(log, mean_at), rate(log, mean_at + RATE_BYTES));
    format!("the mean is {mean:?} and the lowest rate {lowest:?}: {must}")
}

// What is wrong at an offset of a log that the library refuses there.
fn what(log: &[u8], number: u8, offset: usize) -> String {
    let value = log.get(offset).copied().unwrap_or_default();
    match number {
        1 if log.is_empty() => format!("the log is empty, and a meter log begins with its version, {VERSION}"),
        1 => format!("the version is {value}, and must be {VERSION}"),
        2 => extent_words(log, offset),
        3 => format!("the length byte is {value}, and a reading has {READING_LENGTH}"),
        27 => format!("{MOST_READINGS} readings come before it, and a log has no more"),
        30 => reading_words(log, offset, "both must be finite"),
        31 => reading_words(log, offset, "the lowest rate must be from 0 to the mean"),
        _ => format!("refusal {number} is none of a log's"),
    }
}

/// Where a log is wrong that the library refuses at this offset, and what is wrong there.
pub fn sentence(log: &[u8], number: u8, offset: usize) -> String {
    format!("{}, byte {offset}: {}", place(offset), what(log, number, offset))
}
