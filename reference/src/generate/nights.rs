//! Draws inputs of `runplan`: plan files of all kinds, and the bytes that follow them.

use super::accepted::accepted;
use super::damaged::{random_bytes, sprinkled};
use super::draft::{patch, Draft, LENGTH_AT};
use super::prng::{Prng, Purpose};
use super::{damaged_file, limits_of, refused_draft, speeds_of_draft};
use crate::edition::{HEAD_BYTES, LARGEST_FILE};

/// An input of `runplan`, drawn from the seed and its own number alone.
pub fn night(seed: u64, number: u64) -> Vec<u8> {
    let prng = &mut Prng::new(seed, Purpose::Night, number);
    let limits = limits_of(number);
    let draft = accepted(prng, limits);
    let rest = speed_bytes(prng, &draft);
    match prng.below(20) {
        0..=11 => [draft.file(), rest].concat(),
        12 | 13 => [refused_draft(prng, limits).file(), rest].concat(),
        14 | 15 => [damaged_file(prng, limits), rest].concat(),
        16 => [with_lie(prng, draft.file()), rest].concat(),
        17 => cut(prng, [draft.file(), rest].concat()),
        18 => [sprinkled(prng, limits), rest].concat(),
        _ => random_bytes(prng),
    }
}

/// The speeds of a run, now and then none, and now and then an odd byte after them.
fn speed_bytes(prng: &mut Prng, draft: &Draft) -> Vec<u8> {
    let speeds = speeds_of_draft(prng, draft);
    let mut bytes: Vec<u8> = speeds
        .iter()
        .flat_map(|speed| speed.to_be_bytes())
        .collect();
    if prng.once_in(4) {
        bytes.push(prng.below(256) as u8);
    }
    bytes
}

/// A length field that says less or more than there is.
fn with_lie(prng: &mut Prng, mut file: Vec<u8>) -> Vec<u8> {
    let right = (file.len() - HEAD_BYTES) as u32;
    let largest = (LARGEST_FILE - HEAD_BYTES) as u32;
    let lies = [
        0,
        right - 1,
        right + 1,
        right + 2,
        right + 256,
        largest,
        largest + 1,
        u32::MAX,
    ];
    let lie = prng.pick(&lies);
    patch(&mut file, LENGTH_AT, &lie.to_be_bytes());
    file
}

/// A beginning of an input, often so short that the length field is cut.
fn cut(prng: &mut Prng, mut input: Vec<u8>) -> Vec<u8> {
    let end = if prng.once_in(3) {
        prng.index(HEAD_BYTES + 1)
    } else {
        prng.index(input.len())
    };
    input.truncate(end);
    input
}
