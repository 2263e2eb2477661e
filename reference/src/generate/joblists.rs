//! Draws sound jobs for lists: names with commas and quotes, numbers of all lengths and at their bounds.

use super::accepted::grades;
use super::prng::Prng;
use crate::edition::{
    LEAST_NAME_BYTE, MOST_DEADLINE, MOST_JOBS, MOST_NAME_BYTE, MOST_SIZE, NAME_BYTES,
};
use crate::plan::Job;

/// Digits of the largest times and of the largest size, less one.
const TIME_DIGITS: u64 = 5;
const SIZE_DIGITS: u64 = 8;

/// A sound list of at most so many jobs.
pub fn jobs(prng: &mut Prng, most: usize) -> Vec<Job> {
    let most = most.min(MOST_JOBS);
    let count = match prng.below(8) {
        0 => 1,
        1 | 2 => most,
        3 | 4 => prng.between(1, most as u64) as usize,
        _ => prng.between(2, 4).min(most as u64) as usize,
    };
    jobs_of(prng, count)
}

/// So many jobs, all of them sound; they may be more than a list can hold.
pub fn jobs_of(prng: &mut Prng, count: usize) -> Vec<Job> {
    let names = names(prng, count);
    let grades = grades(prng, count);
    let mut jobs = Vec::new();
    for position in 0..count {
        let (release, deadline) = times(prng);
        jobs.push(Job {
            name: names[position],
            grade: grades[position],
            release,
            size: size(prng),
            deadline,
        });
    }
    jobs
}

/// Names that differ, however little.
fn names(prng: &mut Prng, count: usize) -> Vec<[u8; NAME_BYTES]> {
    let mut names = Vec::new();
    while names.len() < count {
        let name = name(prng);
        if !names.contains(&name) {
            names.push(name);
        }
    }
    names
}

fn name(prng: &mut Prng) -> [u8; NAME_BYTES] {
    let mut name = *b"mirror-A";
    match prng.below(6) {
        // One byte of the usual name is another.
        0 => name[prng.index(NAME_BYTES)] = allowed(prng),
        // One byte of the usual name is a comma or a quote, often the first or the last one.
        1 => {
            let any = prng.index(NAME_BYTES);
            let place = prng.pick(&[0, NAME_BYTES - 1, any]);
            name[place] = prng.pick(b",\"");
            name[(place + 4) % NAME_BYTES] = allowed(prng);
        }
        // Nothing but commas and quotes.
        2 => name.fill_with(|| prng.pick(b",\"")),
        // Much that stands for something in one program or another.
        3 => name.fill_with(|| prng.pick(b",\"\"a';=+-0")),
        _ => name.fill_with(|| allowed(prng)),
    }
    name
}

/// Any byte that a name may hold.
fn allowed(prng: &mut Prng) -> u8 {
    prng.between(u64::from(LEAST_NAME_BYTE), u64::from(MOST_NAME_BYTE)) as u8
}

/// A release and a later deadline.
fn times(prng: &mut Prng) -> (u32, u32) {
    match prng.below(8) {
        0 => (0, MOST_DEADLINE),
        1 => (MOST_DEADLINE - 1, MOST_DEADLINE),
        2 => (0, 1),
        _ => {
            let deadline = of_any_length(prng, TIME_DIGITS);
            let release = prng.below(deadline);
            (release as u32, deadline as u32)
        }
    }
}

fn size(prng: &mut Prng) -> u64 {
    match prng.below(8) {
        0 => MOST_SIZE,
        1 => 1,
        _ => of_any_length(prng, SIZE_DIGITS),
    }
}

/// A number from 1 to ten to the power of some number of digits, short ones as often as long ones.
fn of_any_length(prng: &mut Prng, digits: u64) -> u64 {
    let digits = prng.between(0, digits);
    prng.between(1, 10_u64.pow(digits as u32))
}
