//! Makes plans that keep every rule of a file and that the judge refuses at a wanted place.

use super::accepted::{accepted_of, covered, grades, names, Rooms};
use super::draft::{job, Draft, Limits, Where};
use super::prng::Prng;
use crate::edition::{HI, LO, MOST_DEADLINE, MOST_JOBS, MOST_RATE, MOST_SIZE};
use crate::judge::judge;
use crate::plan::{place_of, Job};
use crate::refusal::{ABOVE_RATE, FLOOR_RULE, NOT_THE_SIZE, OUTSIDE_WINDOW};

/// Tries for the wanted place; after them any spoilt plan will do.
const TRIES: usize = 60;

/// As few jobs as can have 2^31 units together, each of them no more than a size may be.
const LEAST_HEAVY_JOBS: u64 = 22;

/// The numbers that the judge gives with places.
pub const PLACED: [u8; 4] = [OUTSIDE_WINDOW, NOT_THE_SIZE, ABOVE_RATE, FLOOR_RULE];

/// A plan refused with a number, if it can be at the first, a middle or the last place.
pub fn refused(prng: &mut Prng, limits: &Limits, number: u8, place: Where) -> Draft {
    let mut draft = spoilt(prng, limits, number, place);
    for _ in 0..TRIES {
        if is_refused_at(&draft, number, place) {
            break;
        }
        draft = spoilt(prng, limits, number, place);
    }
    draft
}

fn spoilt(prng: &mut Prng, limits: &Limits, number: u8, place: Where) -> Draft {
    let jobs: usize = match prng.below(20) {
        0 => MOST_JOBS,
        1 => 1,
        _ => prng.between(3, 7) as usize,
    };
    let jobs = jobs.min(limits.jobs);
    let boundaries = prng.between(2, 2 * jobs as u64) as usize;
    let mut draft = accepted_of(prng, limits, jobs, boundaries);
    match number {
        OUTSIDE_WINDOW => spoil_window(prng, &mut draft, place),
        NOT_THE_SIZE => spoil_size(prng, &mut draft, place),
        ABOVE_RATE => spoil_interval(prng, &mut draft, place),
        _ => spoil_floor(prng, &mut draft, place),
    }
    draft
}

fn is_refused_at(draft: &Draft, number: u8, place: Where) -> bool {
    let refusal = match judge(&draft.plan, &draft.table) {
        Ok(()) => return false,
        Err(refusal) => refusal,
    };
    let of_jobs = number == OUTSIDE_WINDOW || number == NOT_THE_SIZE;
    let length = if of_jobs {
        draft.jobs()
    } else {
        draft.intervals().len()
    };
    let last = (length - 1) as u64;
    refusal.number == number
        && match place {
            Where::First => refusal.places[0] == 0,
            Where::Middle => 0 < refusal.places[0] && refusal.places[0] < last,
            Where::Last => refusal.places[0] == last,
        }
}

/// Puts units into an interval outside a job's window, moved from inside or new.
fn spoil_window(prng: &mut Prng, draft: &mut Draft, place: Where) {
    let i = place.index(draft.jobs());
    let inside = covered(draft, i);
    let all = 0..draft.intervals().len();
    let outside: Vec<usize> = all.filter(|j| !inside.contains(j)).collect();
    if outside.is_empty() {
        return;
    }
    let j = prng.pick(&outside);
    let from = place_of(i, prng.pick(&inside));
    if draft.table[from] > 0 && prng.once_in(2) {
        draft.table[from] -= 1;
        draft.table[place_of(i, j)] = 1;
    } else {
        draft.table[place_of(i, j)] = prng.pick(&[1, 2, 1_000, u32::MAX]);
    }
}

/// Makes size and allotments of a job differ, by 1 or by exactly 2^32.
fn spoil_size(prng: &mut Prng, draft: &mut Draft, place: Where) {
    let i = place.index(draft.jobs());
    let inside = covered(draft, i);
    let at = place_of(i, prng.pick(&inside));
    match prng.below(6) {
        0 if draft.plan.jobs[i].size > 1 => draft.plan.jobs[i].size -= 1,
        1 => draft.plan.jobs[i].size += 1,
        2 if draft.table[at] > 0 => draft.table[at] -= 1,
        3 => draft.plan.jobs[i].size = MOST_SIZE,
        4 | 5 if inside.len() > 1 => {
            // Two halves of 2^32 vanish in a sum of 32 bits.
            draft.table[place_of(i, inside[0])] += 1 << 31;
            draft.table[place_of(i, inside[1])] += 1 << 31;
        }
        _ => draft.table[at] += 1,
    }
}

/// Fills an interval to one unit above its room, or far above, sizes following.
fn spoil_interval(prng: &mut Prng, draft: &mut Draft, place: Where) {
    let j = place.index(draft.intervals().len());
    let covering: Vec<usize> = (0..draft.jobs())
        .filter(|&i| covered(draft, i).contains(&j))
        .collect();
    if covering.is_empty() {
        return;
    }
    let mut units = Rooms::of(draft).of_interval(j) + 1;
    if prng.once_in(4) {
        units += prng.below(1_000_000);
    }
    add(draft, prng.pick(&covering), j, units);
}

/// Gives a HI job one unit more than the floor leaves, in an interval freed of LO units.
fn spoil_floor(prng: &mut Prng, draft: &mut Draft, place: Where) {
    let j = place.index(draft.intervals().len());
    let essential = |&i: &usize| draft.plan.jobs[i].grade == HI && covered(draft, i).contains(&j);
    let candidates: Vec<usize> = (0..draft.jobs()).filter(essential).collect();
    if candidates.is_empty() {
        return;
    }
    free_of_lo(draft, j);
    let i = prng.pick(&candidates);
    let rooms = Rooms::of(draft);
    let least = rooms.of_floor(&draft.plan.jobs[i], j) + 1;
    let most = rooms.of_interval(j);
    if least <= most {
        let units = if prng.once_in(2) {
            least
        } else {
            prng.between(least, most)
        };
        add(draft, i, j, units);
    }
}

/// Takes the LO units out of an interval where the job keeps others.
fn free_of_lo(draft: &mut Draft, interval: usize) {
    for i in 0..draft.jobs() {
        let units = u64::from(draft.table[place_of(i, interval)]);
        let job = &mut draft.plan.jobs[i];
        if job.grade == LO && job.size > units {
            job.size -= units;
            draft.table[place_of(i, interval)] = 0;
        }
    }
}

/// More units for a job, as far as a size may go.
fn add(draft: &mut Draft, position: usize, interval: usize, units: u64) {
    let job = &mut draft.plan.jobs[position];
    let units = units.min(MOST_SIZE - job.size);
    job.size += units;
    draft.table[place_of(position, interval)] += units as u32;
}

/// A plan with an interval whose units are 2^32 more than they should be.
///
/// No plan with right sizes can hold them, so the sizes are found wrong before.
pub fn wide_column(prng: &mut Prng, limits: &Limits) -> Draft {
    let jobs = prng.between(2, 5) as usize;
    let mut draft = accepted_of(prng, limits, jobs, 2);
    for i in 0..2 {
        draft.table[place_of(i, 0)] += 1 << 31;
    }
    draft
}

/// A plan whose sizes are right and whose units in one interval are about 2^31.
///
/// A sum that takes 2^31 for a number below 0 would find room for them.
pub fn heavy_column(prng: &mut Prng) -> Draft {
    let jobs = heavy_jobs(prng);
    let n = prng.between(2, u64::from(MOST_RATE)) as u16;
    let d = prng.between(1, u64::from(n) - 1) as u16;
    let mut draft = Draft::new(n, d, &jobs);
    // All windows share the interval that begins with the last release.
    let start = jobs.iter().map(|job| job.release).max();
    let shared = draft.boundaries().iter().position(|&t| Some(t) == start);
    for (i, job) in jobs.iter().enumerate() {
        draft.table[place_of(i, shared.expect("a boundary"))] = job.size as u32;
    }
    draft
}

/// Jobs that are all live together, with sizes that sum to 2^31, a little more or one less.
fn heavy_jobs(prng: &mut Prng) -> Vec<Job> {
    let count = prng.between(LEAST_HEAVY_JOBS, MOST_JOBS as u64);
    let half = 1 << 31;
    let little = prng.below(1_000_000);
    let most = count * MOST_SIZE;
    let total = prng.pick(&[half - 1, half, half, half + 1, half + little, most]);
    let names = names(prng, count as usize);
    let grades = grades(prng, count as usize);
    let (first, last) = prng.pick(&[(1, 2), (1, 21), (7, 90_000), (1, MOST_DEADLINE - 1)]);
    let mut jobs = Vec::new();
    for i in 0..count {
        let size = total / count + u64::from(i < total % count);
        let (release, deadline) = (first - prng.below(2) as u32, last + prng.below(2) as u32);
        let (name, grade) = (names[i as usize], grades[i as usize]);
        jobs.push(job(&name, grade, release, size, deadline));
    }
    prng.shuffle(&mut jobs);
    jobs
}
