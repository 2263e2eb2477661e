//! A run: its start, one slot of it, the host's word that a job has ended, and the outcome of each job.

use crate::edition::{HI, LO, MOST_JOBS, TABLE_PLACES};
use crate::judge::judge;
use crate::plan::{allotment, boundaries, intervals, numbers_hold, Job, Plan};
use crate::refusal::{self, Refusal};

/// The record that a host keeps between slots. Made by hand it may hold anything.
#[derive(Clone, Debug, PartialEq, Eq)]
pub struct Run {
    pub clock: u32,
    pub slow: bool,
    pub below_floor: bool,
    pub carried: [u32; MOST_JOBS],
    pub ended: [bool; MOST_JOBS],
}

/// How a job stands in a run.
#[derive(Clone, Copy, Debug, PartialEq, Eq)]
pub enum Outcome {
    Met,
    Ended,
    Discarded,
    Missed,
    Open,
}

/// The run at its beginning, or the judge's refusal.
pub fn start(plan: &Plan, table: &[u32]) -> Result<Run, Refusal> {
    judge(plan, table)?;
    let clock = first_release(plan.counted());
    Ok(Run {
        clock,
        slow: false,
        below_floor: false,
        carried: [0; MOST_JOBS],
        ended: [false; MOST_JOBS],
    })
}

/// One slot at a speed: 0 when done, else the refusal number with run and grants as they were.
pub fn step(plan: &Plan, table: &[u32], run: &mut Run, speed: u16, grants: &mut [u32]) -> u8 {
    if !sound_to_run(plan, run) {
        return refusal::UNSOUND;
    }
    let jobs = plan.counted();
    if table.len() < TABLE_PLACES || grants.len() < jobs.len() {
        return refusal::TOO_SHORT;
    }
    if run.clock == last_deadline(jobs) {
        return refusal::AT_LAST_DEADLINE;
    }
    if speed > plan.n {
        return refusal::SPEED;
    }
    set_marks(plan, table, run, speed);
    for (i, &grant) in serve(plan, table, run, speed).iter().enumerate() {
        grants[i] = grant;
        run.carried[i] += grant;
    }
    run.clock += 1;
    refusal::DONE
}

/// The host's word that the job at a position has ended: 0 when done, else the refusal number with
/// the run as it was.
pub fn end(plan: &Plan, run: &mut Run, position: u64) -> u8 {
    if !sound_to_run(plan, run) {
        return refusal::UNSOUND;
    }
    if position >= plan.count {
        return refusal::NO_SUCH_POSITION;
    }
    let position = position as usize;
    let job = &plan.counted()[position];
    // A job that is not open has been met, ended, discarded or missed already.
    if run.clock < job.release || standing(job, run, position) != Outcome::Open {
        return refusal::CANNOT_END;
    }
    run.ended[position] = true;
    refusal::DONE
}

/// The outcome of the job at a position, or the refusal number.
pub fn outcome(plan: &Plan, run: &Run, position: u64) -> Result<Outcome, u8> {
    if !sound_to_run(plan, run) || position >= plan.count {
        return Err(refusal::UNSOUND);
    }
    let position = position as usize;
    Ok(standing(&plan.counted()[position], run, position))
}

/// The outcome of a job in a sound run: the first of the five that holds.
fn standing(job: &Job, run: &Run, position: usize) -> Outcome {
    if u64::from(run.carried[position]) == job.size {
        Outcome::Met
    } else if run.ended[position] {
        Outcome::Ended
    } else if job.grade == LO && run.slow {
        Outcome::Discarded
    } else if run.clock >= job.deadline {
        Outcome::Missed
    } else {
        Outcome::Open
    }
}

/// What a slot, a shift, a word of the host and an outcome ask of plan and run.
pub fn sound_to_run(plan: &Plan, run: &Run) -> bool {
    numbers_hold(plan)
        && first_release(plan.counted()) <= run.clock
        && run.clock <= last_deadline(plan.counted())
        && (0..plan.counted().len()).all(|i| u64::from(run.carried[i]) <= plan.jobs[i].size)
}

/// The first boundary is the earliest release, since each release is before its deadline.
fn first_release(jobs: &[Job]) -> u32 {
    boundaries(jobs)[0]
}

/// The last boundary is the latest deadline, for the same reason.
fn last_deadline(jobs: &[Job]) -> u32 {
    boundaries(jobs)[boundaries(jobs).len() - 1]
}

/// Sets the marks of a slot at a speed, for good: nothing clears them.
fn set_marks(plan: &Plan, table: &[u32], run: &mut Run, speed: u16) {
    // The slow mark is set only when the speed is below the lesser of n and the sum of the live jobs'
    // dues. So a speed of n is never slow, and no speed is when nothing is due.
    let lesser = u64::from(plan.n).min(sum_of_dues(plan, table, run));
    if u64::from(speed) < lesser {
        run.slow = true;
    }
    // The below-floor mark asks for no due.
    if speed < plan.d {
        run.below_floor = true;
    }
}

/// The sum of the live jobs' dues for the present slot: HI and LO, as with the slow mark clear, and
/// each in full, whatever the speed.
fn sum_of_dues(plan: &Plan, table: &[u32], run: &Run) -> u64 {
    let mut sum: u64 = 0;
    for (i, job) in plan.counted().iter().enumerate() {
        if live(job, run, i) {
            sum += due_with_mark_clear(plan, table, run, i);
        }
    }
    sum
}

/// The grants of one slot, one number per job, the marks of this slot being set already.
fn serve(plan: &Plan, table: &[u32], run: &Run, speed: u16) -> Vec<u32> {
    let mut grants = vec![0; plan.counted().len()];
    let mut rest = u64::from(speed);
    for position in turns(plan.counted(), run) {
        let grant = rest.min(due(plan, table, run, position));
        grants[position] = grant as u32;
        rest -= grant;
    }
    grants
}

/// The positions of the jobs to be served, in the order of their turns.
fn turns(jobs: &[Job], run: &Run) -> Vec<usize> {
    let served = |&i: &usize| live(&jobs[i], run, i) && (jobs[i].grade == HI || !run.slow);
    let mut positions: Vec<usize> = (0..jobs.len()).filter(served).collect();
    // HI before LO, then the earlier deadline, then the lower position.
    positions.sort_by_key(|&i| (jobs[i].grade == LO, jobs[i].deadline, i));
    positions
}

/// Whether the present slot lies in a job's window and the job has not ended.
fn live(job: &Job, run: &Run, position: usize) -> bool {
    job.release <= run.clock && run.clock < job.deadline && !run.ended[position]
}

/// The units that a job in its turn may have at most. An ended job has no turn: its due is 0.
fn due(plan: &Plan, table: &[u32], run: &Run, position: usize) -> u64 {
    if run.slow {
        due_with_mark_set(plan, run, position)
    } else {
        due_with_mark_clear(plan, table, run, position)
    }
}

/// All that is left.
fn due_with_mark_set(plan: &Plan, run: &Run, position: usize) -> u64 {
    plan.counted()[position].size - u64::from(run.carried[position])
}

/// The lesser of the size and the allotments up to and including the present interval, less what is
/// carried, or 0.
fn due_with_mark_clear(plan: &Plan, table: &[u32], run: &Run, position: usize) -> u64 {
    let mut allotted = 0;
    for (j, interval) in intervals(plan.counted()).iter().enumerate() {
        if interval.start <= run.clock {
            allotted += allotment(table, position, j);
        }
    }
    let size = plan.counted()[position].size;
    let carried = u64::from(run.carried[position]);
    size.min(allotted).saturating_sub(carried)
}
