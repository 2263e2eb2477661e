//! The planning desk: draws up the table for jobs with one common release, or says what is too much.

use crate::edition::{HI, LO, TABLE_PLACES};
use crate::plan::{allotment, intervals, names_hold, numbers_hold, place_of, Interval, Job, Plan};
use crate::refusal;

/// Two times of a plan, what is asked of the link by them, and what it carries.
#[derive(Clone, Copy, Debug, PartialEq, Eq)]
pub struct Pair {
    /// The common release or the deadline of a HI job.
    pub essential: u32,
    /// The common release or the deadline of a LO job.
    pub other: u32,
    /// The sizes of the HI jobs due by the one time and of the LO jobs due by the other.
    pub asked: u64,
    /// The normal rate up to the other time, and the floor from there up to the essential one.
    pub carries: u64,
}

/// What a planner is told about the jobs in hand.
#[derive(Clone, Copy, Debug, PartialEq, Eq)]
pub enum Shortage {
    /// The number of the refusal that comes before the question of a timetable.
    Refused(u8),
    TimetableExists,
    /// The first pair by which more is asked than the link carries.
    At(Pair),
}

/// Draws up a table: 0 when it is done, else the refusal number.
///
/// A short table or an unsound plan leaves the table as it was; without a common release or without
/// a timetable its own places are zeros. Places beyond them stay in any case.
pub fn draw_up(plan: &Plan, table: &mut [u32]) -> u8 {
    if table.len() < TABLE_PLACES {
        return refusal::TOO_SHORT;
    }
    if !rules_hold(plan) {
        return refusal::UNSOUND;
    }
    table[..TABLE_PLACES].fill(0);
    if !one_release(plan.counted()) {
        return refusal::RELEASES_DIFFER;
    }
    if first_short_pair(plan).is_some() {
        return refusal::NO_TIMETABLE;
    }
    lay_down_all(plan, table);
    refusal::DONE
}

/// Where the link carries too little for the jobs in hand, if it does.
pub fn shortage(plan: &Plan) -> Shortage {
    if !rules_hold(plan) {
        return Shortage::Refused(refusal::UNSOUND);
    }
    if !one_release(plan.counted()) {
        return Shortage::Refused(refusal::RELEASES_DIFFER);
    }
    match first_short_pair(plan) {
        Some(pair) => Shortage::At(pair),
        None => Shortage::TimetableExists,
    }
}

/// Rates, count, names, grades, times and sizes.
fn rules_hold(plan: &Plan) -> bool {
    numbers_hold(plan) && names_hold(plan.counted())
}

fn one_release(jobs: &[Job]) -> bool {
    jobs.iter().all(|job| job.release == jobs[0].release)
}

/// The first pair by which more is asked than the link carries.
fn first_short_pair(plan: &Plan) -> Option<Pair> {
    pairs(plan)
        .into_iter()
        .find(|pair| pair.asked > pair.carries)
}

/// All pairs, by the essential time and then by the other one, both rising.
///
/// A timetable exists exactly when no pair asks for more than the link carries. Asked only of a sound
/// plan whose jobs have one release.
pub fn pairs(plan: &Plan) -> Vec<Pair> {
    let jobs = plan.counted();
    let mut pairs = Vec::new();
    for essential in times(jobs, HI) {
        for other in times(jobs, LO) {
            pairs.push(Pair {
                essential,
                other,
                asked: due_by(jobs, HI, essential) + due_by(jobs, LO, other),
                carries: carries(plan, essential, other),
            });
        }
    }
    pairs
}

/// The common release and the distinct deadlines of a grade, rising.
fn times(jobs: &[Job], grade: u8) -> Vec<u32> {
    let of_grade = jobs.iter().filter(|job| job.grade == grade);
    let mut times: Vec<u32> = of_grade.map(|job| job.deadline).collect();
    times.push(jobs[0].release);
    times.sort_unstable();
    times.dedup();
    times
}

/// The sizes of a grade's jobs that are due by a time.
fn due_by(jobs: &[Job], grade: u8, time: u32) -> u64 {
    let due = |job: &&Job| job.grade == grade && job.deadline <= time;
    jobs.iter().filter(due).map(|job| job.size).sum()
}

/// The normal rate from the release to the other time, then the floor if there is time left.
fn carries(plan: &Plan, essential: u32, other: u32) -> u64 {
    let normal_slots = other - plan.counted()[0].release;
    let floor_slots = essential.saturating_sub(other);
    u64::from(plan.n) * u64::from(normal_slots) + u64::from(plan.d) * u64::from(floor_slots)
}

/// Lays down all jobs of a plan that has a timetable; the table's own places are zeros before.
fn lay_down_all(plan: &Plan, table: &mut [u32]) {
    let jobs = plan.counted();
    let intervals = intervals(jobs);
    for position in in_order(jobs, LO).into_iter().rev() {
        let deadline = jobs[position].deadline;
        let before = |j: &usize| intervals[*j].end <= deadline;
        let late: Vec<usize> = (0..intervals.len()).filter(before).rev().collect();
        lay_down(plan, &intervals, table, position, &late);
    }
    for position in in_order(jobs, HI) {
        let early: Vec<usize> = (0..intervals.len()).collect();
        lay_down(plan, &intervals, table, position, &early);
    }
}

/// The positions of a grade's jobs by rising deadline, of equal ones by position.
fn in_order(jobs: &[Job], grade: u8) -> Vec<usize> {
    let of_grade = |&i: &usize| jobs[i].grade == grade;
    let mut positions: Vec<usize> = (0..jobs.len()).filter(of_grade).collect();
    positions.sort_by_key(|&i| (jobs[i].deadline, i));
    positions
}

/// Puts the units of a job, as long as there are any, into the first of these intervals that has room.
fn lay_down(
    plan: &Plan,
    intervals: &[Interval],
    table: &mut [u32],
    position: usize,
    choice: &[usize],
) {
    let mut rest = plan.counted()[position].size;
    while rest > 0 {
        let room = |j: usize| room(plan, &intervals[j], table, j);
        let with_room = choice.iter().find(|&&j| room(j) > 0);
        let &j = with_room.expect("a timetable has room for all units");
        // As many units as would go there one after the other.
        let units = rest.min(room(j));
        table[place_of(position, j)] += units as u32;
        rest -= units;
    }
}

/// What is left of an interval: the normal rate times its length, less all that is there.
fn room(plan: &Plan, interval: &Interval, table: &[u32], j: usize) -> u64 {
    let jobs = plan.counted().len();
    let there: u64 = (0..jobs).map(|i| allotment(table, i, j)).sum();
    u64::from(plan.n) * interval.length() - there
}
