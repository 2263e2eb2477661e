//! Calls that are refused in the middle of a night. The word that makes them so is put back, and the
//! night goes on.

use reference::edition::{MOST_DEADLINE, MOST_JOBS, MOST_RATE, MOST_SHIFT_SPEEDS};
use reference::generate::Prng;

use crate::both::{Both, Difference};
use crate::memory::{Memory, Shift};
use crate::shorts::{short, SHORTS, SPEED};
use crate::words::{
    job_at, BELOW_FLOOR, CARRIED, CLOCK, DEADLINE, ENDED, FLOOR, GRADE, JOB_COUNT, NORMAL_RATE,
    RELEASE, SIZE, SLOW,
};

/// Marks that are neither 0 nor 1, some of them with such a last byte or half.
const WRONG_MARKS: [u32; 8] = [2, 3, 0x100, 0x101, 0x1_0001, 1 << 31, (1 << 31) + 1, u32::MAX];

/// Counts of speeds that are too many, and few or none in a byte.
const TOO_MANY: [usize; 3] = [MOST_SHIFT_SPEEDS + 1, MOST_SHIFT_SPEEDS + 2, 2 * MOST_SHIFT_SPEEDS];

/// A wrong mark and where it stands: one of the run's own two, a counted job's, or any job's.
pub fn wrong_mark(prng: &mut Prng, jobs: usize) -> (usize, u32) {
    let counted = ENDED + prng.index(jobs.max(1));
    let any = ENDED + prng.index(MOST_JOBS);
    let at = prng.pick(&[SLOW, BELOW_FLOOR, counted, any]);
    (at, prng.pick(&WRONG_MARKS))
}

/// A call with a speed above the rate or too many speeds, a position that no job has, a short
/// buffer, or a wrong word in the plan or the run.
pub fn refused(both: &mut Both, prng: &mut Prng, memory: &mut Memory) -> Result<(), Difference> {
    memory.lend_all();
    match prng.below(6) {
        0 => too_fast(both, prng, memory),
        1 => no_such_job(both, prng, memory),
        2 => {
            let call = prng.pick(&SHORTS);
            short(both, prng, memory, call)
        }
        3 => with_wrong_plan(both, prng, memory),
        4 => too_many(both, prng, memory),
        _ => with_wrong_run(both, prng, memory),
    }
}

/// A step, or a shift of such speeds alone: it is done, and leaves the run as it was.
fn too_fast(both: &mut Both, prng: &mut Prng, memory: &mut Memory) -> Result<(), Difference> {
    let rate = memory.plan.contents()[NORMAL_RATE].min(u16::MAX.into());
    let above = (rate as u16).saturating_add(1);
    if prng.once_in(2) {
        both.step(memory, prng.pick(&[above, u16::MAX]))?;
    } else {
        both.shift(memory, &mut Shift::at(&[above, u16::MAX], memory.jobs(), 0))?;
    }
    Ok(())
}

/// A shift of more speeds than there may be; its outputs are long enough or not.
fn too_many(both: &mut Both, prng: &mut Prng, memory: &mut Memory) -> Result<(), Difference> {
    let speeds = vec![SPEED; prng.pick(&TOO_MANY)];
    let shift = &mut Shift::at(&speeds, memory.jobs(), 0);
    if prng.once_in(2) {
        shift.rows.lend(prng.index(speeds.len()));
        shift.numbers.lend(prng.index(speeds.len()));
    }
    both.shift(memory, shift)?;
    Ok(())
}

/// A step or a shift that lacks nothing but what its caller has changed.
fn carry(both: &mut Both, prng: &mut Prng, memory: &mut Memory) -> Result<u32, Difference> {
    if prng.once_in(2) {
        both.step(memory, SPEED)
    } else {
        both.shift(memory, &mut Shift::at(&[SPEED; 2], memory.jobs(), 0))
    }
}

/// A word on a job that the plan has not; some positions are those of a job in fewer bits.
fn no_such_job(both: &mut Both, prng: &mut Prng, memory: &mut Memory) -> Result<(), Difference> {
    let jobs = memory.jobs();
    let i = prng.index(jobs.max(1));
    let position = prng.pick(&[jobs, MOST_JOBS, i | 1 << 8, i | 1 << 16, i | 1 << 32, usize::MAX]);
    both.end(memory, position)?;
    Ok(())
}

/// A step, a shift, a word on a job, an outcome or a start with a word of the plan that breaks a
/// rule.
fn with_wrong_plan(
    both: &mut Both,
    prng: &mut Prng,
    memory: &mut Memory,
) -> Result<(), Difference> {
    let job = job_at(prng.index(memory.jobs().max(1)));
    let words = memory.plan.contents();
    let changes = [
        (NORMAL_RATE, u64::from(MOST_RATE) + 1),
        (NORMAL_RATE, words[NORMAL_RATE] | 1 << 16),
        (FLOOR, 0),
        (FLOOR, words[FLOOR] | 1 << 32),
        (JOB_COUNT, 0),
        (JOB_COUNT, MOST_JOBS as u64 + 1),
        (JOB_COUNT, words[JOB_COUNT] | 1 << 8),
        (JOB_COUNT, words[JOB_COUNT] | 1 << 32),
        (job + GRADE, words[job + GRADE] | 1 << 8),
        (job + RELEASE, words[job + DEADLINE]),
        (job + SIZE, 0),
        (job + SIZE, words[job + SIZE] | 1 << 32),
        (job + DEADLINE, u64::from(MOST_DEADLINE) + 1),
        (job + DEADLINE, words[job + DEADLINE] | 1 << 32),
    ];
    let (at, wrong) = prng.pick(&changes);
    let right = words[at];
    memory.plan.put(at, &[wrong]);
    match prng.below(5) {
        0 => both.outcome(memory, 0)?,
        1 => both.start(memory)?,
        2 => both.end(memory, 0)?,
        _ => carry(both, prng, memory)?,
    };
    memory.plan.put(at, &[right]);
    Ok(())
}

/// A step, a shift, a word on a job or an outcome with a word of the run that cannot stand there.
fn with_wrong_run(both: &mut Both, prng: &mut Prng, memory: &mut Memory) -> Result<(), Difference> {
    let i = prng.index(memory.jobs().max(1));
    let size = memory.plan.contents()[job_at(i) + SIZE].min(u64::from(u32::MAX) - 1) as u32;
    let changes = [
        (CLOCK, MOST_DEADLINE + 1),
        (CLOCK, u32::MAX),
        (CARRIED + i, size + 1),
        (CARRIED + i, u32::MAX),
    ];
    let (at, wrong) = if prng.once_in(2) {
        wrong_mark(prng, memory.jobs())
    } else {
        prng.pick(&changes)
    };
    let right = memory.run.contents()[at];
    memory.run.put(at, &[wrong]);
    match prng.below(4) {
        0 => both.outcome(memory, i)?,
        1 => both.end(memory, i)?,
        _ => carry(both, prng, memory)?,
    };
    memory.run.put(at, &[right]);
    Ok(())
}
