//! Makes job lists in hand for export: sound ones, each rule broken, and outputs around the exact length.

use super::hand::{rubbish_job, twist_times_or_size, wrong_count};
use super::input::ListInput;
use super::joblists::jobs;
use super::prng::Prng;
use crate::edition::{MOST_JOBS, NAME_BYTES};
use crate::joblist::{text_of, JobList, HEADER};

/// A list with up to two twists, now and then with rubbish from its count on.
pub fn list(prng: &mut Prng, most: usize) -> ListInput {
    let drawn = jobs(prng, most);
    let mut list = JobList::of(&drawn);
    for _ in 0..prng.pick(&[0, 0, 0, 1, 1, 2]) {
        twist(prng, &mut list, drawn.len());
    }
    if prng.once_in(3) {
        rubbish(prng, &mut list, drawn.len());
    }
    // An unsound list has no text; the one that it was made of has.
    let text = text_of(&list).or_else(|_| text_of(&JobList::of(&drawn)));
    let exact = text.expect("a sound list").len();
    let output = match prng.below(8) {
        0..=2 => exact,
        3 | 4 => exact - 1,
        5 => exact + prng.between(1, 40) as usize,
        6 => prng.pick(&[0, 1, HEADER.len() - 1, HEADER.len()]),
        _ => prng.index(exact),
    };
    ListInput { list, output }
}

/// Does one twist to a list that was drawn with so many jobs.
fn twist(prng: &mut Prng, list: &mut JobList, jobs: usize) {
    let position = prng.index(jobs);
    match prng.below(6) {
        0 => list.count = wrong_count(prng, list.count),
        1 => {
            let byte = prng.pick(&[0, b'\n', b'\r', 0x20, 0x7F, 0x80, u8::MAX]);
            list.jobs[position].name[prng.index(NAME_BYTES)] = byte;
        }
        2 => list.jobs[position].name = list.jobs[prng.index(jobs)].name,
        3 => list.jobs[position].grade = prng.pick(&[2, 3, b'H', b'L', 0x80, u8::MAX]),
        4 => twist_times_or_size(prng, &mut list.jobs[position]),
        _ => list.count = prng.between(1, jobs as u64),
    }
}

/// Rubbish in the records from the count on, if the count leaves any.
fn rubbish(prng: &mut Prng, list: &mut JobList, jobs: usize) {
    let count = list.count.min(jobs as u64) as usize;
    for position in count..MOST_JOBS {
        list.jobs[position] = rubbish_job(prng);
    }
    // The first of them looks like a job that has the name of another.
    if 0 < count && count < MOST_JOBS {
        list.jobs[count] = list.jobs[0];
    }
}
