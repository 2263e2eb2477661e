//! Makes the words of a host between the slots of a run: jobs that ended in their windows, and jobs
//! that cannot end: not released yet, told of twice, finished, given up or too late, or no jobs at all.

use super::input::Word;
use super::prng::Prng;
use crate::edition::MOST_JOBS;
use crate::plan::{Job, Plan};

/// Words for a run that goes on from a clock over so many speeds, in the order in which they are said.
pub fn words(prng: &mut Prng, plan: &Plan, clock: u32, speeds: usize) -> Vec<Word> {
    // The count in hand may be any number, but a word has to tell of some record.
    let jobs = plan.count.clamp(1, MOST_JOBS as u64) as usize;
    let mut words = Vec::new();
    for _ in 0..how_many(prng, jobs) {
        let i = prng.index(jobs);
        let after = moment(prng, &plan.jobs[i], clock, speeds);
        let position = if prng.once_in(8) {
            no_such_position(prng, plan.count, i as u64)
        } else {
            i as u64
        };
        words.push(Word { after, position });
        if prng.once_in(4) {
            let after = prng.between(after as u64, speeds as u64) as usize;
            words.push(Word { after, position });
        }
    }
    // Words between the same two slots stay in the order in which they were drawn.
    words.sort_by_key(|word| word.after);
    words
}

/// How many jobs the host tells of; in some runs none, and seldom all of them.
fn how_many(prng: &mut Prng, jobs: usize) -> u64 {
    match prng.below(6) {
        0 => 0,
        1 | 2 => 1,
        _ => prng.between(1, jobs as u64 + 2),
    }
}

/// The number of speeds before a word on a job: in its window, at one of its ends, or anywhere.
fn moment(prng: &mut Prng, job: &Job, clock: u32, speeds: usize) -> usize {
    let (release, deadline) = (job.release, job.deadline);
    let before = |time: u32| time.saturating_sub(1);
    let time = match prng.below(4) {
        0 => prng.pick(&[before(release), release, before(deadline), deadline]),
        1 | 2 => between_ends(prng, release, deadline),
        _ => return prng.index(speeds + 1),
    };
    // No speed before this one is refused in most runs, so each moves the clock by 1.
    speeds.min(time.saturating_sub(clock) as usize)
}

/// A time from a job's release to the slot before its deadline, if the record in hand has them.
fn between_ends(prng: &mut Prng, release: u32, deadline: u32) -> u32 {
    let length = deadline.saturating_sub(release).max(1);
    release + prng.below(u64::from(length)) as u32
}

/// A position that is not below the count, some of them below it in fewer bits.
fn no_such_position(prng: &mut Prng, count: u64, position: u64) -> u64 {
    let positions = [
        count,
        count.saturating_add(1),
        MOST_JOBS as u64,
        position | 1 << 8,
        position | 1 << 16,
        position | 1 << 32,
        u64::MAX,
    ];
    prng.pick(&positions)
}
