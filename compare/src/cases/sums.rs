//! Sums of 2^31 units and more: of an interval, which takes 22 jobs, and of what a job is due.

use reference::edition::MOST_INTERVALS;

use super::judged::{answers, hold};
use super::plan_e::{memory_of, HI, JOBS, LO};
use super::Cases;
use crate::memory::Memory;
use crate::words::{
    CARRIED, DEADLINE, GRADE, HEAD_WORDS, JOB_WORDS, NAME, PLAN_WORDS, RUN_WORDS, SIZE,
};

/// As few jobs as can have 2^31 units together, at most 100,000,000 each.
pub const JOB_COUNT: u64 = 22;
pub const HALF: u64 = 1 << 31;
/// The file: ten bytes, 22 for each job, two for the row count, 15 for each row.
const FILE_LENGTH: usize = 10 + 22 * 22 + 2 + 22 * 15;

/// Jobs of one window and one grade that get all their units, this many in total, in one interval.
pub fn heavy(total: u64, grade: u64) -> Memory {
    let mut memory = memory_of(&[], &[]);
    let mut words = vec![1_000, 999, JOB_COUNT];
    words.resize(PLAN_WORDS, 0);
    for (i, job) in (0..JOB_COUNT).zip(words[HEAD_WORDS..].chunks_mut(JOB_WORDS)) {
        job[NAME] = u64::from_be_bytes(*b"heavy--a") + i;
        job[GRADE] = grade;
        job[SIZE] = total / JOB_COUNT + u64::from(i < total % JOB_COUNT);
        job[DEADLINE] = 100_000;
        memory
            .table
            .put(i as usize * MOST_INTERVALS, &[job[SIZE] as u32]);
    }
    memory.plan.put(0, &words);
    memory.run.put(0, &[0; RUN_WORDS]);
    memory
}

/// No interval holds more than 1,000 times 100,000 units.
pub fn columns(cases: &mut Cases) -> Result<(), String> {
    let none = [0, 0];
    for total in [
        HALF - 1,
        HALF,
        HALF + 1,
        HALF + 1_000,
        JOB_COUNT * 100_000_000,
    ] {
        for grade in [LO, HI] {
            let name = format!("{} units in one interval", total);
            let answers = answers((0, FILE_LENGTH), (17, none), (17, 0, none));
            hold(cases, &name, &mut heavy(total, grade), answers)?;
        }
    }
    Ok(())
}

/// What is due on tables that no judge has seen.
pub fn dues(cases: &mut Cases) -> Result<(), String> {
    let memory = &mut heavy(HALF + 1, HI);
    let size = memory.table.contents()[0];
    memory.run.put(CARRIED, &[size - 10]);
    let got = cases.both.step(memory, 1_000);
    cases.expect("22 jobs are due 2^31 units", got, 0)?;
    let grants = &memory.grants.contents()[..JOB_COUNT as usize];
    let mut expected = vec![0; JOB_COUNT as usize];
    expected[..2].copy_from_slice(&[10, 990]);
    cases.expect("22 jobs are due 2^31 units", Ok(grants), &expected)?;
    let half = HALF as u32;
    for row in [[half - 1, 1], [half, 0], [half, half], [u32::MAX, u32::MAX]] {
        // Six units in all and three of them carried: two go out at speed 2.
        let memory = &mut memory_of(&JOBS, &[&row, &[0, 0]]);
        memory.run.put(0, &[0; RUN_WORDS]);
        memory.run.put(0, &[1, 0, 0, 3]);
        let got = cases.both.step(memory, 2);
        cases.expect("a row of 2^31 units and more", got, 0)?;
        let grants = &memory.grants.contents()[..2];
        cases.expect("a row of 2^31 units and more", Ok(grants), &[2, 0])?;
    }
    Ok(())
}
