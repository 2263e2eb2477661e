//! Makes shifts that go on from a run: lists of speeds, most of them short, some with refused speeds
//! between others, some that go past the last deadline, some around the most speeds that there may be,
//! and outputs around the lengths that they need.

use super::input::ShiftInput;
use super::prng::Prng;
use super::speeds::speeds_of;
use crate::edition::{MOST_JOBS, MOST_SHIFT_SPEEDS};
use crate::plan::{Job, Plan};

/// Most speeds of a short list.
const SHORT_LIST: u64 = 12;
/// Most speeds after the last deadline, in a list that is as long as the rest of its run.
const LATE_SPEEDS: u64 = 4;
/// Speeds of a list that is longer than allowed by far.
const FAR_TOO_MANY: u64 = 300;
/// Most places of an output beyond those that are needed.
const SPARE_PLACES: u64 = 40;

/// A shift that goes on from a clock. The plan in hand may be any.
pub fn shift(prng: &mut Prng, plan: &Plan, clock: u32) -> ShiftInput {
    let jobs = &plan.jobs[..plan.count.min(MOST_JOBS as u64) as usize];
    let count = how_many(prng, slots_left(jobs, clock));
    let mut speeds = speeds_of(prng, plan, count);
    if prng.once_in(4) {
        speed_up(prng, plan.n, &mut speeds);
    }
    ShiftInput {
        rows: output(prng, speeds.len() * jobs.len()),
        numbers: output(prng, speeds.len()),
        speeds,
    }
}

/// The slots from a clock to the last deadline, if the records in hand leave any.
fn slots_left(jobs: &[Job], clock: u32) -> u64 {
    let last = jobs.iter().map(|job| job.deadline).max().unwrap_or(0);
    u64::from(last.saturating_sub(clock))
}

/// How many speeds: a few, the rest of the run and some more, around the most allowed, or none.
fn how_many(prng: &mut Prng, left: u64) -> u64 {
    let most = MOST_SHIFT_SPEEDS as u64;
    match prng.below(16) {
        0 => 0,
        1 | 2 => prng.pick(&[most - 1, most, most + 1, FAR_TOO_MANY]),
        // A run that goes on for so long can have a full shift without a refusal.
        3..=7 if left >= most => most,
        3..=7 => most.min(left + prng.between(1, LATE_SPEEDS)),
        _ => prng.between(1, SHORT_LIST),
    }
}

/// Puts speeds above the rate here and there, so that they are refused between others.
fn speed_up(prng: &mut Prng, n: u16, speeds: &mut [u16]) {
    for speed in speeds {
        if prng.once_in(4) {
            *speed = prng.pick(&[n.saturating_add(1), u16::MAX]);
        }
    }
}

/// The length of an output that needs so many places: those, some more, one too few, or none.
fn output(prng: &mut Prng, exact: usize) -> usize {
    match prng.below(20) {
        0 => exact.saturating_sub(1),
        1 => 0,
        2..=12 => exact,
        _ => exact + prng.between(1, SPARE_PLACES) as usize,
    }
}
