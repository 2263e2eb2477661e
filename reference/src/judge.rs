//! The judge of plans: each rule over all its places, the first place that breaks it is named.

use crate::edition::{HI, TABLE_PLACES};
use crate::plan::{allotment, boundaries, intervals, sound, Interval, Job, Plan};
use crate::refusal::{self, Refusal};

/// Accepts a plan or refuses it with a number and its places.
pub fn judge(plan: &Plan, table: &[u32]) -> Result<(), Refusal> {
    judge_without_floor(plan, table)?;
    floor_rule(plan, table, &boundaries(plan.counted()))
}

/// All of the judge's work but the floor rule.
pub fn judge_without_floor(plan: &Plan, table: &[u32]) -> Result<(), Refusal> {
    if table.len() < TABLE_PLACES {
        return Err(Refusal::without_place(refusal::TOO_SHORT));
    }
    if !sound(plan, table) {
        return Err(Refusal::without_place(refusal::UNSOUND));
    }
    nothing_outside_windows(plan, table)?;
    all_sizes_reached(plan, table)?;
    no_interval_above_rate(plan, table)
}

fn nothing_outside_windows(plan: &Plan, table: &[u32]) -> Result<(), Refusal> {
    let intervals = intervals(plan.counted());
    for (i, job) in plan.counted().iter().enumerate() {
        for (j, interval) in intervals.iter().enumerate() {
            if !job.covers(interval) && allotment(table, i, j) != 0 {
                return Err(Refusal::at(refusal::OUTSIDE_WINDOW, &[i as u64, j as u64]));
            }
        }
    }
    Ok(())
}

fn all_sizes_reached(plan: &Plan, table: &[u32]) -> Result<(), Refusal> {
    let intervals = intervals(plan.counted()).len();
    for (i, job) in plan.counted().iter().enumerate() {
        let sum: u64 = (0..intervals).map(|j| allotment(table, i, j)).sum();
        if sum != job.size {
            return Err(Refusal::at(refusal::NOT_THE_SIZE, &[i as u64]));
        }
    }
    Ok(())
}

fn no_interval_above_rate(plan: &Plan, table: &[u32]) -> Result<(), Refusal> {
    let jobs = plan.counted().len();
    for (j, interval) in intervals(plan.counted()).iter().enumerate() {
        let sum: u64 = (0..jobs).map(|i| allotment(table, i, j)).sum();
        if sum > u64::from(plan.n) * interval.length() {
            return Err(Refusal::at(refusal::ABOVE_RATE, &[j as u64]));
        }
    }
    Ok(())
}

/// The floor rule for every interval and every later one of the given deadlines, which rise.
pub fn floor_rule(plan: &Plan, table: &[u32], deadlines: &[u32]) -> Result<(), Refusal> {
    let intervals = intervals(plan.counted());
    for (j, interval) in intervals.iter().enumerate() {
        for &deadline in deadlines
            .iter()
            .filter(|&&deadline| deadline > interval.start)
        {
            let allowed = floor_units(plan, interval, deadline);
            if essential_units(plan.counted(), table, &intervals, j, deadline) > allowed {
                let places = [j as u64, u64::from(deadline)];
                return Err(Refusal::at(refusal::FLOOR_RULE, &places));
            }
        }
    }
    Ok(())
}

/// What the floor rate moves from the start of an interval up to a deadline.
pub fn floor_units(plan: &Plan, interval: &Interval, deadline: u32) -> u64 {
    u64::from(plan.d) * u64::from(deadline - interval.start)
}

/// The HI allotments from interval `first` up to a deadline, of jobs due by then.
pub fn essential_units(
    jobs: &[Job],
    table: &[u32],
    intervals: &[Interval],
    first: usize,
    deadline: u32,
) -> u64 {
    let mut sum = 0;
    for (i, job) in jobs.iter().enumerate() {
        if job.grade == HI && job.deadline <= deadline {
            for (j, interval) in intervals.iter().enumerate() {
                if j >= first && interval.end <= deadline {
                    sum += allotment(table, i, j);
                }
            }
        }
    }
    sum
}
