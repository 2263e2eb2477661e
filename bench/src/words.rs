//! Plans and runs in the words that a host lends, and step and shift on them as `libgateway.a` has
//! them.

use crate::plan::{Job, Plan, Run, MOST_JOBS};
use crate::refusal::{TOO_SHORT, UNSOUND};
use crate::{shift, step};

const HEAD_WORDS: usize = 3;
const JOB_WORDS: usize = 5;
const MARK_WORDS: usize = 3;
const ENDED_START: usize = MARK_WORDS + MOST_JOBS;

pub const PLAN_WORDS: usize = HEAD_WORDS + JOB_WORDS * MOST_JOBS;
pub const RUN_WORDS: usize = ENDED_START + MOST_JOBS;

/// Makes a call on the plan and the run that words stand for, and puts the run back unless the call
/// is refused. A function would take the call as a closure, which costs instructions.
macro_rules! on_words {
    ($plan_words:ident, $run_words:ident, |$plan:ident, $run:ident| $call:expr) => {{
        let (Some(words), Some(lent)) = (
            $plan_words.get(..PLAN_WORDS),
            $run_words.get_mut(..RUN_WORDS),
        ) else {
            return Err(TOO_SHORT);
        };
        if lent[1] > 1 || lent[2] > 1 || !are_marks(&lent[ENDED_START..]) {
            return Err(UNSOUND);
        }
        // Both are filled where they stand: a function that returned them would have them copied.
        let mut $plan = NO_PLAN;
        fill_plan(&mut $plan, words);
        let mut $run = NO_RUN;
        fill_run(&mut $run, lent);
        $call?;
        put_slots(lent, &$run);
        Ok(())
    }};
}

/// Serves one slot at a speed. A refusal leaves run and grants as they were.
pub fn step_words(
    plan: &[u64],
    table: &[u32],
    run: &mut [u32],
    speed: u16,
    grants: &mut [u32],
) -> Result<(), u8> {
    on_words!(plan, run, |in_hand, going| {
        step(&in_hand, table, &mut going, speed, grants)
    })
}

/// Serves a slot at each of the speeds. A refusal leaves run, rows and numbers as they were.
pub fn shift_words(
    plan: &[u64],
    table: &[u32],
    run: &mut [u32],
    speeds: &[u16],
    rows: &mut [u32],
    numbers: &mut [u8],
) -> Result<(), u8> {
    on_words!(plan, run, |in_hand, going| {
        shift(&in_hand, table, &mut going, speeds, rows, numbers)
    })
}

/// Whether all words are 0 or 1.
#[inline]
fn are_marks(words: &[u32]) -> bool {
    words.iter().fold(0, |bits, &word| bits | word) <= 1
}

const NO_JOB: Job = Job {
    name: 0,
    grade: 0,
    release: 0,
    size: 0,
    deadline: 0,
};
const NO_PLAN: Plan = Plan {
    n: 0,
    d: 0,
    count: 0,
    jobs: [NO_JOB; MOST_JOBS],
};
const NO_RUN: Run = Run {
    clock: 0,
    slow: false,
    below_floor: false,
    carried: [0; MOST_JOBS],
    ended: [false; MOST_JOBS],
};

/// Fills in the counted jobs. A word that its field has no room for becomes the field's greatest
/// number, which no rule allows.
#[inline]
fn fill_plan(plan: &mut Plan, words: &[u64]) {
    plan.n = u16::try_from(words[0]).unwrap_or(u16::MAX);
    plan.d = u16::try_from(words[1]).unwrap_or(u16::MAX);
    plan.count = words[2] as usize;
    let counted = plan.count.min(MOST_JOBS);
    let records = words[HEAD_WORDS..].chunks_exact(JOB_WORDS);
    for (job, words) in plan.jobs[..counted].iter_mut().zip(records) {
        *job = Job {
            name: words[0],
            grade: u8::try_from(words[1]).unwrap_or(u8::MAX),
            release: u32::try_from(words[2]).unwrap_or(u32::MAX),
            size: words[3],
            deadline: u32::try_from(words[4]).unwrap_or(u32::MAX),
        };
    }
}

#[inline]
fn fill_run(run: &mut Run, words: &[u32]) {
    run.clock = words[0];
    run.slow = words[1] == 1;
    run.below_floor = words[2] == 1;
    run.carried.copy_from_slice(&words[MARK_WORDS..ENDED_START]);
    for (ended, &word) in run.ended.iter_mut().zip(&words[ENDED_START..]) {
        *ended = word == 1;
    }
}

/// Writes what slots change: the ended marks stay.
#[inline]
fn put_slots(words: &mut [u32], run: &Run) {
    let (marks, carried) = words[..ENDED_START].split_at_mut(MARK_WORDS);
    marks.copy_from_slice(&[run.clock, run.slow.into(), run.below_floor.into()]);
    carried.copy_from_slice(&run.carried);
}

/// A plan as a host keeps it.
pub fn plan_words(plan: &Plan) -> [u64; PLAN_WORDS] {
    let mut words = [0; PLAN_WORDS];
    words[..HEAD_WORDS].copy_from_slice(&[plan.n.into(), plan.d.into(), plan.count as u64]);
    let records = words[HEAD_WORDS..].chunks_exact_mut(JOB_WORDS);
    for (words, job) in records.zip(&plan.jobs) {
        words.copy_from_slice(&[
            job.name,
            job.grade.into(),
            job.release.into(),
            job.size,
            job.deadline.into(),
        ]);
    }
    words
}

/// A run as a host keeps it.
pub fn run_words(run: &Run) -> [u32; RUN_WORDS] {
    let mut words = [0; RUN_WORDS];
    put_slots(&mut words, run);
    words[ENDED_START..].copy_from_slice(&run.ended.map(u32::from));
    words
}
