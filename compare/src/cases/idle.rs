//! Slots below the normal rate: slow if what is due by the plan does not fit into their speed, and
//! idle or carried as planned if it does. Each is held by single calls and by one shift.

use reference::edition::{MOST_INTERVALS, MOST_JOBS};

use super::judged::{P13, P13_ROWS, P5, P5_ROWS, P9, P9_ROWS};
use super::plan_e::{memory_of, Job, HI, JOBS, LO, ROWS};
use super::sums::{heavy, HALF, JOB_COUNT};
use super::{shifts, Cases};
use crate::memory::Memory;
use crate::model::{DISCARDED, ENDED, MET, MISSED, OPEN};
use crate::words::{
    job_at, BELOW_FLOOR, CARRIED, CLOCK, ENDED as ENDED_MARKS, FLOOR, JOB_COUNT as COUNT_AT,
    NORMAL_RATE, PLAN_WORDS, RUN_WORDS, SLOW as SLOW_MARK,
};

/// The slow mark and the below-floor mark.
type Marks = [u32; 2];
const CLEAR: Marks = [0, 0];
const SLOW: Marks = [1, 0];
const BELOW: Marks = [0, 1];
const BOTH: Marks = [1, 1];

/// A slot: its speed, the grants, both marks after it, and how each job stands then.
type Slot<'a> = (u16, &'a [u32], Marks, &'a [u32]);

/// A case, the first words of a run, the places of its ended jobs, and a slot.
type One = (&'static str, &'static [u32], &'static [usize], Slot<'static>);

/// Rates 10 and 3; intervals begin at 0 and 4, and the last deadline is 8.
const THREE: [Job; 3] =
    [(b"other--A", LO, 0, 8, 8), (b"essent-H", HI, 0, 9, 8), (b"other--B", LO, 4, 5, 8)];
/// By the first interval 5 and 4 units are due, by the second all.
const THREE_ROWS: [&[u32]; 3] = [&[5, 3], &[4, 5], &[0, 5]];

/// How the three jobs may stand: none is over; the slow mark is set; the essential one is met, too;
/// all are met.
const ALL_OPEN: &[u32] = &[OPEN, OPEN, OPEN];
const LOST: &[u32] = &[DISCARDED, OPEN, DISCARDED];
const HI_MET: &[u32] = &[DISCARDED, MET, DISCARDED];
const ALL_MET: &[u32] = &[MET, MET, MET];

/// One slot with three units of each of the first two jobs due: it is slow below 6.
const AROUND: [One; 8] = [
    ("n", &[1, 0, 0, 2, 1, 0], &[], (10, &[3, 3, 0], CLEAR, ALL_OPEN)),
    ("one below n", &[1, 0, 0, 2, 1, 0], &[], (9, &[3, 3, 0], CLEAR, ALL_OPEN)),
    ("one above the dues", &[1, 0, 0, 2, 1, 0], &[], (7, &[3, 3, 0], CLEAR, ALL_OPEN)),
    ("just the dues", &[1, 0, 0, 2, 1, 0], &[], (6, &[3, 3, 0], CLEAR, ALL_OPEN)),
    ("one below the dues", &[1, 0, 0, 2, 1, 0], &[], (5, &[0, 5, 0], SLOW, LOST)),
    ("two below the dues", &[1, 0, 0, 2, 1, 0], &[], (4, &[0, 4, 0], SLOW, LOST)),
    ("the due of each", &[1, 0, 0, 2, 1, 0], &[], (3, &[0, 3, 0], SLOW, LOST)),
    ("below the floor", &[1, 0, 0, 2, 1, 0], &[], (2, &[0, 2, 0], BOTH, LOST)),
];

/// One slot in which jobs of one grade are due something. Where it is slow the essential job gets
/// what is left of its size, due or not, and nobody the rest.
const ONE_GRADE: [One; 12] = [
    ("LO due 4", &[1, 0, 0, 1, 4, 0], &[], (4, &[4, 0, 0], CLEAR, ALL_OPEN)),
    ("LO due 4", &[1, 0, 0, 1, 4, 0], &[], (3, &[0, 3, 0], SLOW, LOST)),
    ("LO due 4, HI lacks 2", &[1, 0, 0, 1, 7, 0], &[], (3, &[0, 2, 0], SLOW, HI_MET)),
    ("LO due 4, HI met", &[1, 0, 0, 1, 9, 0], &[], (3, &[0, 0, 0], SLOW, HI_MET)),
    ("HI due 4", &[1, 0, 0, 5, 0, 0], &[], (4, &[0, 4, 0], CLEAR, ALL_OPEN)),
    ("HI due 4", &[1, 0, 0, 5, 0, 0], &[], (3, &[0, 3, 0], SLOW, LOST)),
    ("HI due 4, LO met", &[1, 0, 0, 8, 0, 0], &[], (4, &[0, 4, 0], CLEAR, &[MET, OPEN, OPEN])),
    ("HI due 4, LO met", &[1, 0, 0, 8, 0, 0], &[], (3, &[0, 3, 0], SLOW, &[MET, OPEN, DISCARDED])),
    ("LO due 1", &[1, 0, 0, 4, 4, 0], &[], (1, &[1, 0, 0], BELOW, ALL_OPEN)),
    ("LO due 1", &[1, 0, 0, 4, 4, 0], &[], (0, &[0, 0, 0], BOTH, LOST)),
    ("HI due 1", &[1, 0, 0, 5, 3, 0], &[], (1, &[0, 1, 0], BELOW, ALL_OPEN)),
    ("HI due 1", &[1, 0, 0, 5, 3, 0], &[], (0, &[0, 0, 0], BOTH, LOST)),
];

/// One slot in which nothing is due, be more carried than the table allots or not; and one in which
/// a job that is ahead takes nothing from the due of another.
const NOTHING_DUE: [One; 11] = [
    ("idle", &[1, 0, 0, 5, 4, 0], &[], (10, &[0, 0, 0], CLEAR, ALL_OPEN)),
    ("idle", &[1, 0, 0, 5, 4, 0], &[], (9, &[0, 0, 0], CLEAR, ALL_OPEN)),
    ("idle", &[1, 0, 0, 5, 4, 0], &[], (3, &[0, 0, 0], CLEAR, ALL_OPEN)),
    ("idle", &[1, 0, 0, 5, 4, 0], &[], (2, &[0, 0, 0], BELOW, ALL_OPEN)),
    ("idle", &[1, 0, 0, 5, 4, 0], &[], (0, &[0, 0, 0], BELOW, ALL_OPEN)),
    ("idle, an interval's last", &[3, 0, 0, 5, 4, 0], &[], (3, &[0, 0, 0], CLEAR, ALL_OPEN)),
    ("idle, an interval's last", &[3, 0, 0, 5, 4, 0], &[], (0, &[0, 0, 0], BELOW, ALL_OPEN)),
    ("both ahead", &[1, 0, 0, 7, 6, 0], &[], (3, &[0, 0, 0], CLEAR, ALL_OPEN)),
    ("both met", &[1, 0, 0, 8, 9, 0], &[], (3, &[0, 0, 0], CLEAR, &[MET, MET, OPEN])),
    ("LO due 2, HI ahead", &[1, 0, 0, 3, 9, 0], &[], (2, &[2, 0, 0], BELOW, &[OPEN, MET, OPEN])),
    ("LO due 2, HI ahead", &[1, 0, 0, 3, 9, 0], &[], (1, &[0, 0, 0], BOTH, HI_MET)),
];

/// One slot of the second interval, in which all that is left of each size is due: 13 units, more
/// than n; n and one more; one less; and the units of one job.
const SECOND_INTERVAL: [One; 14] = [
    ("13 due", &[4, 0, 0, 5, 4, 0], &[], (10, &[3, 5, 2], CLEAR, &[MET, MET, OPEN])),
    ("13 due", &[4, 0, 0, 5, 4, 0], &[], (9, &[0, 5, 0], SLOW, HI_MET)),
    ("11 due", &[4, 0, 0, 5, 6, 0], &[], (10, &[3, 3, 4], CLEAR, &[MET, MET, OPEN])),
    ("11 due", &[4, 0, 0, 5, 6, 0], &[], (9, &[0, 3, 0], SLOW, HI_MET)),
    ("10 due", &[4, 0, 0, 5, 7, 0], &[], (10, &[3, 2, 5], CLEAR, ALL_MET)),
    ("10 due", &[4, 0, 0, 5, 7, 0], &[], (9, &[0, 2, 0], SLOW, HI_MET)),
    ("9 due", &[4, 0, 0, 5, 8, 0], &[], (9, &[3, 1, 5], CLEAR, ALL_MET)),
    ("9 due", &[4, 0, 0, 5, 8, 0], &[], (8, &[0, 1, 0], SLOW, HI_MET)),
    ("4 due to the first", &[4, 0, 0, 4, 9, 5], &[], (4, &[4, 0, 0], CLEAR, ALL_MET)),
    ("4 due to the first", &[4, 0, 0, 4, 9, 5], &[], (3, &[0, 0, 0], SLOW, &[DISCARDED, MET, MET])),
    ("6 due to the second", &[4, 0, 0, 8, 3, 5], &[], (6, &[0, 6, 0], CLEAR, ALL_MET)),
    ("6 due to the second", &[4, 0, 0, 8, 3, 5], &[], (5, &[0, 5, 0], SLOW, &[MET, OPEN, MET])),
    ("4 due to the last", &[4, 0, 0, 8, 9, 1], &[], (4, &[0, 0, 4], CLEAR, ALL_MET)),
    ("4 due to the last", &[4, 0, 0, 8, 9, 1], &[], (3, &[0, 0, 0], SLOW, &[MET, MET, DISCARDED])),
];

/// One slot under marks that are set already, with and without dues.
const MARKED: [One; 8] = [
    ("slow, nothing due", &[1, 1, 0, 5, 4, 0], &[], (3, &[0, 3, 0], SLOW, LOST)),
    ("slow, nothing left", &[1, 1, 0, 5, 9, 0], &[], (3, &[0, 0, 0], SLOW, HI_MET)),
    ("slow, nothing left", &[1, 1, 0, 5, 9, 0], &[], (10, &[0, 0, 0], SLOW, HI_MET)),
    ("slow, nothing left", &[1, 1, 0, 5, 9, 0], &[], (0, &[0, 0, 0], BOTH, HI_MET)),
    ("below, nothing due", &[1, 0, 1, 5, 4, 0], &[], (3, &[0, 0, 0], BELOW, ALL_OPEN)),
    ("below, just the dues", &[1, 0, 1, 2, 1, 0], &[], (6, &[3, 3, 0], BELOW, ALL_OPEN)),
    ("below, one less", &[1, 0, 1, 2, 1, 0], &[], (5, &[0, 5, 0], BOTH, LOST)),
    ("both, nothing due", &[1, 1, 1, 5, 4, 0], &[], (10, &[0, 5, 0], BOTH, HI_MET)),
];

/// One slot with ended jobs, whose dues do not count.
const SOME_ENDED: [One; 14] = [
    ("LO ended", &[1, 0, 0, 2, 1, 0], &[0], (3, &[0, 3, 0], CLEAR, &[ENDED, OPEN, OPEN])),
    ("LO ended", &[1, 0, 0, 2, 1, 0], &[0], (2, &[0, 2, 0], BOTH, &[ENDED, OPEN, DISCARDED])),
    ("LO ended", &[1, 0, 0, 0, 0, 0], &[0], (4, &[0, 4, 0], CLEAR, &[ENDED, OPEN, OPEN])),
    ("LO ended", &[1, 0, 0, 0, 0, 0], &[0], (3, &[0, 3, 0], SLOW, &[ENDED, OPEN, DISCARDED])),
    ("HI ended", &[1, 0, 0, 2, 1, 0], &[1], (3, &[3, 0, 0], CLEAR, &[OPEN, ENDED, OPEN])),
    ("HI ended", &[1, 0, 0, 1, 1, 0], &[1], (3, &[0, 0, 0], SLOW, &[DISCARDED, ENDED, DISCARDED])),
    ("both ended", &[1, 0, 0, 2, 1, 0], &[0, 1], (3, &[0, 0, 0], CLEAR, &[ENDED, ENDED, OPEN])),
    ("both ended", &[1, 0, 0, 2, 1, 0], &[0, 1], (0, &[0, 0, 0], BELOW, &[ENDED, ENDED, OPEN])),
    ("last ended", &[4, 0, 0, 5, 4, 0], &[2], (8, &[3, 5, 0], CLEAR, &[MET, MET, ENDED])),
    ("last ended", &[4, 0, 0, 5, 4, 0], &[2], (7, &[0, 5, 0], SLOW, &[DISCARDED, MET, ENDED])),
    ("last ended", &[4, 0, 0, 8, 9, 0], &[2], (3, &[0, 0, 0], CLEAR, &[MET, MET, ENDED])),
    ("all ended", &[4, 0, 0, 0, 0, 0], &[0, 1, 2], (3, &[0, 0, 0], CLEAR, &[ENDED, ENDED, ENDED])),
    ("marks past the count", &[1, 0, 0, 2, 1, 0], &[3, 31], (6, &[3, 3, 0], CLEAR, ALL_OPEN)),
    ("marks past the count", &[1, 0, 0, 2, 1, 0], &[3, 31], (5, &[0, 5, 0], SLOW, LOST)),
];

/// Moves a run on by a slot.
fn advance(run: &mut [u32], grants: &[u32], [slow, below]: Marks) {
    run[CLOCK] += 1;
    (run[SLOW_MARK], run[BELOW_FLOOR]) = (slow, below);
    run[CARRIED..].iter_mut().zip(grants).for_each(|(carried, grant)| *carried += grant);
}

/// Holds each job to its outcome.
fn stand(
    cases: &mut Cases,
    case: &str,
    memory: &mut Memory,
    outcomes: &[u32],
) -> Result<(), String> {
    for (position, &outcome) in outcomes.iter().enumerate() {
        let got = cases.both.outcome(memory, position);
        cases.expect(case, got, outcome)?;
    }
    Ok(())
}

/// Holds slots to their answers by single calls, then by one shift that begins with the same run.
fn hold(cases: &mut Cases, case: &str, memory: &mut Memory, slots: &[Slot]) -> Result<(), String> {
    let before = memory.run.contents().to_vec();
    let mut run = before.clone();
    for (k, &(speed, grants, marks, outcomes)) in slots.iter().enumerate() {
        let case = format!("{}, slot {} at speed {}", case, k, speed);
        advance(&mut run, grants, marks);
        let got = cases.both.step(memory, speed);
        cases.expect(&case, got, 0)?;
        cases.expect_list(&case, &memory.grants.contents()[..grants.len()], grants)?;
        cases.expect_list(&case, memory.run.contents(), &run)?;
        stand(cases, &case, memory, outcomes)?;
    }
    memory.run.put(0, &before);
    let carried = slots.iter().map(|&(speed, grants, ..)| (speed, 0, grants));
    let carried: Vec<shifts::Slot> = carried.collect();
    let case = format!("shift, {}", case);
    shifts::hold(cases, &case, memory, &carried, &run)?;
    let after_all = slots.last().map_or(&[][..], |slot| slot.3);
    stand(cases, &case, memory, after_all)
}

/// A plan with a run that begins with these words; all its other words are 0.
fn with_run(jobs: &[Job], rows: &[&[u32]], words: &[u32]) -> Memory {
    let mut memory = memory_of(jobs, rows);
    memory.run.put(0, &[0; RUN_WORDS]);
    memory.run.put(0, words);
    memory
}

/// Puts other rates into a plan.
fn rates(memory: &mut Memory, n: u64, d: u64) {
    memory.plan.put(NORMAL_RATE, &[n]);
    memory.plan.put(FLOOR, &[d]);
}

/// The three jobs with a table and a run.
fn three(rows: &[&[u32]], words: &[u32]) -> Memory {
    let mut memory = with_run(&THREE, rows, words);
    rates(&mut memory, 10, 3);
    memory
}

fn hold_three(cases: &mut Cases, rows: &[&[u32]], slots: &[One]) -> Result<(), String> {
    for &(case, words, ended, slot) in slots {
        let memory = &mut three(rows, words);
        ended.iter().for_each(|place| memory.run.put(ENDED_MARKS + place, &[1]));
        hold(cases, case, memory, &[slot])?;
    }
    Ok(())
}

/// Single slots.
pub fn slots(cases: &mut Cases) -> Result<(), String> {
    let lists: [&[One]; 6] =
        [&AROUND, &ONE_GRADE, &NOTHING_DUE, &SECOND_INTERVAL, &MARKED, &SOME_ENDED];
    for list in lists {
        hold_three(cases, &THREE_ROWS, list)?;
    }
    not_live(cases)?;
    not_judged(cases)?;
    past_the_count(cases)?;
    two_essential(cases)
}

/// Holds single slots of a plan of rates 2 and 1. No job has ended.
fn hold_each(
    cases: &mut Cases,
    jobs: &[Job],
    rows: &[&[u32]],
    slots: &[One],
) -> Result<(), String> {
    for &(case, words, _, slot) in slots {
        hold(cases, case, &mut with_run(jobs, rows, words), &[slot])?;
    }
    Ok(())
}

/// What a job lacks before its release and from its deadline on does not count. Before its release
/// only a table that no judge has seen gives it units.
fn not_live(cases: &mut Cases) -> Result<(), String> {
    let slots: [One; 3] = [
        ("LO job, a slot early", &[3, 0, 0, 5, 4, 0], &[], (4, &[0, 0, 0], CLEAR, ALL_OPEN)),
        ("LO job, released", &[4, 0, 0, 8, 9, 0], &[], (5, &[0, 0, 5], CLEAR, ALL_MET)),
        ("LO job, released", &[4, 0, 0, 8, 9, 0], &[], (4, &[0; 3], SLOW, &[MET, MET, DISCARDED])),
    ];
    hold_three(cases, &[&[5, 3], &[4, 5], &[5, 0]], &slots)?;
    let slots: [One; 2] = [
        ("HI job, a slot early", &[0, 0, 0, 2, 0], &[], (1, &[0, 0], CLEAR, &[OPEN, OPEN])),
        ("HI job, released", &[1, 0, 0, 6, 0], &[], (1, &[0, 1], SLOW, &[MET, OPEN])),
    ];
    hold_each(cases, &JOBS, &[&[2, 4, 0], &[3, 1, 4]], &slots)?;
    let slots: [One; 4] = [
        ("LO job, last slot", &[4, 0, 0, 5, 8], &[], (1, &[1, 0], CLEAR, &[MET, MET])),
        ("LO job, last slot", &[4, 0, 0, 2, 8], &[], (1, &[0, 0], SLOW, &[DISCARDED, MET])),
        ("LO job, a slot late", &[5, 0, 0, 2, 8], &[], (1, &[0, 0], CLEAR, &[MISSED, MET])),
        ("LO job, a slot late", &[5, 0, 0, 2, 7], &[], (1, &[0, 1], CLEAR, &[MISSED, MET])),
    ];
    hold_each(cases, &JOBS, &ROWS, &slots)?;
    // The second job is essential, so no slow mark makes it discarded.
    let last = &[MISSED, OPEN, MET, DISCARDED];
    let late = &[MISSED, OPEN, MET, MET];
    let memory = &mut with_run(&P5, &P5_ROWS, &[9, 0, 0, 0, 0, 6, 6]);
    hold(cases, "HI job, last slot", memory, &[(1, &[1, 0, 0, 0], SLOW, last)])?;
    let memory = &mut with_run(&P5, &P5_ROWS, &[10, 0, 0, 0, 0, 6, 10]);
    hold(cases, "HI job, a slot late", memory, &[(1, &[0; 4], CLEAR, late)])
}

/// Tables that the judge refuses: more due than n, more allotted than the size, sums of a row from
/// 2^31 on, and units at places that no job and no interval has.
fn not_judged(cases: &mut Cases) -> Result<(), String> {
    let slots: [One; 3] = [
        ("6 due at n", &[0, 0, 0, 0, 0], &[], (2, &[2, 0], CLEAR, &[OPEN, OPEN])),
        ("6 due below n", &[0, 0, 0, 0, 0], &[], (1, &[0, 0], SLOW, &[DISCARDED, OPEN])),
        ("1 due below n", &[0, 0, 0, 5, 0], &[], (1, &[1, 0], CLEAR, &[MET, OPEN])),
    ];
    hold_each(cases, &JOBS, &[&[6, 0, 0], &[0, 0, 0]], &slots)?;
    let slots: [One; 2] = [
        ("9 of 8, 3 due", &[1, 0, 0, 5, 4, 0], &[], (3, &[3, 0, 0], CLEAR, &[MET, OPEN, OPEN])),
        ("9 of 8, 4 due", &[1, 0, 0, 4, 4, 0], &[], (3, &[0, 3, 0], SLOW, LOST)),
    ];
    hold_three(cases, &[&[9, 3], &[4, 5], &[0, 5]], &slots)?;
    let half = HALF as u32;
    for row in [[half - 1, 1], [half, 0], [half, half], [u32::MAX, 2], [u32::MAX, u32::MAX]] {
        let of_first = &SECOND_INTERVAL[8..10];
        hold_three(cases, &[&row, &[4, 5], &[0, 5]], of_first)?;
        let of_second = &SECOND_INTERVAL[10..12];
        hold_three(cases, &[&[5, 3], &row, &[0, 5]], of_second)?;
    }
    let stray: &[u32] = &[5, 3, 9, 9];
    hold_three(cases, &[stray, &[4, 5], &[0, 5], &[9, 9]], &NOTHING_DUE)?;
    hold_three(cases, &[stray, &[4, 5], &[0, 5], &[9, 9]], &SECOND_INTERVAL)
}

/// A record from the count on is no job, whatever it would be due.
fn past_the_count(cases: &mut Cases) -> Result<(), String> {
    for grade in [LO, HI] {
        let [a, h, b] = THREE;
        let memory = &mut with_run(&[a, h, b, (b"no-job--", grade, 0, 9, 8)], &THREE_ROWS, &[]);
        memory.table.put(3 * MOST_INTERVALS, &[9]);
        memory.run.put(0, &[1, 0, 0, 5, 4, 0]);
        rates(memory, 10, 3);
        memory.plan.put(COUNT_AT, &[3]);
        hold(cases, "a record too many", memory, &[(3, &[0, 0, 0], CLEAR, ALL_OPEN)])?;
    }
    let memory = &mut three(&THREE_ROWS, &[1, 0, 0, 2, 1, 0]);
    memory.plan.put(job_at(3), &vec![u64::MAX; PLAN_WORDS - job_at(3)]);
    memory.run.put(CARRIED + 3, &[u32::MAX; MOST_JOBS - 3]);
    hold(cases, "rubbish past the count", memory, &[(6, &[3, 3, 0], CLEAR, ALL_OPEN)])
}

/// The slot that sets the mark serves essential jobs by their deadlines up to their sizes, also one
/// that is due nothing yet.
fn two_essential(cases: &mut Cases) -> Result<(), String> {
    let slots: [One; 2] = [
        ("P9 at its start", &[0, 0, 0, 0, 0], &[], (1, &[0, 1], SLOW, &[OPEN, OPEN])),
        ("P9, one due", &[1, 0, 0, 1, 2], &[], (1, &[1, 0], CLEAR, &[MET, MET])),
    ];
    hold_each(cases, &P9, &P9_ROWS, &slots)?;
    const CARRIED_ON: &[u32] = &[MET, OPEN, MET, OPEN];
    const SLOWED: &[u32] = &[MET, OPEN, MET, DISCARDED];
    let slots: [One; 2] = [
        ("P5, LO due 1", &[4, 0, 0, 8, 0, 6, 5], &[], (1, &[0, 0, 0, 1], CLEAR, CARRIED_ON)),
        ("P5, LO due 2", &[4, 0, 0, 8, 0, 6, 4], &[], (1, &[0, 1, 0, 0], SLOW, SLOWED)),
    ];
    hold_each(cases, &P5, &P5_ROWS, &slots)
}

/// Several slots, one after the other.
pub fn nights(cases: &mut Cases) -> Result<(), String> {
    p13(cases)?;
    refused_between(cases)?;
    planned(cases)?;
    stays(cases)?;
    word_between(cases)
}

/// How the jobs of P13 may stand.
const FIRST_MET: &[u32] = &[MET, OPEN];
const SECOND_LOST: &[u32] = &[MET, DISCARDED];

/// The case P13, in whose night no slot is slow; with idle slots below the floor; with a slow slot
/// after the idle ones; and with one before them.
fn p13(cases: &mut Cases) -> Result<(), String> {
    const SENT: Slot = (2, &[2, 0], CLEAR, FIRST_MET);
    const IDLE: Slot = (1, &[0, 0], CLEAR, FIRST_MET);
    const STOPPED: Slot = (0, &[0, 0], BELOW, FIRST_MET);
    const LATE: Slot = (2, &[0, 0], SLOW, SECOND_LOST);
    const NONE: Slot = (1, &[0, 0], SLOW, &[DISCARDED, DISCARDED]);
    let nights: [(&str, &[Slot]); 5] = [
        ("P13", &[SENT, IDLE, IDLE, IDLE, (2, &[0, 2], CLEAR, &[MET, MET])]),
        ("P13, stopped", &[SENT, STOPPED, STOPPED, STOPPED, (2, &[0, 2], BELOW, &[MET, MET])]),
        ("P13, slow at 4", &[SENT, IDLE, IDLE, IDLE, (1, &[0, 0], SLOW, SECOND_LOST), LATE]),
        ("P13, stopped at 4", &[SENT, IDLE, IDLE, IDLE, (0, &[0, 0], BOTH, SECOND_LOST)]),
        ("P13, slow at 0", &[NONE, NONE, NONE, NONE, (2, &[0, 0], SLOW, &[DISCARDED, DISCARDED])]),
    ];
    for (case, slots) in nights {
        in_parts(cases, case, &mut memory_of(&P13, &P13_ROWS), slots)?;
    }
    Ok(())
}

/// A night from its start, parted in two anywhere, or whole.
fn in_parts(
    cases: &mut Cases,
    case: &str,
    memory: &mut Memory,
    slots: &[Slot],
) -> Result<(), String> {
    for cut in 0..=slots.len() {
        let got = cases.both.start(memory);
        cases.expect(case, got, 0)?;
        let (first, second) = slots.split_at(cut);
        hold(cases, case, memory, first)?;
        hold(cases, &format!("{}, from slot {} on", case, cut), memory, second)?;
    }
    Ok(())
}

/// P13 in one shift with refused speeds between its slots.
fn refused_between(cases: &mut Cases) -> Result<(), String> {
    const REFUSED: shifts::Slot = (3, 20, &[]);
    const IDLE: shifts::Slot = (1, 0, &[0, 0]);
    let slots = [REFUSED, (2, 0, &[2, 0]), REFUSED, IDLE, IDLE, REFUSED, IDLE, (2, 0, &[0, 2])];
    let memory = &mut with_run(&P13, &P13_ROWS, &[]);
    shifts::hold(cases, "P13 with refused speeds", memory, &slots, &[5, 0, 0, 2, 2])?;
    stand(cases, "P13 with refused speeds", memory, &[MET, MET])
}

/// The three jobs from their start to the last deadline, each slot at no more than it needs or a
/// little more; and the same below the floor, where others are served too.
fn planned(cases: &mut Cases) -> Result<(), String> {
    const TWO_MET: &[u32] = &[MET, MET, OPEN];
    for (idle, marks) in [(3, CLEAR), (9, CLEAR), (2, BELOW), (0, BELOW)] {
        let slots: [Slot; 8] = [
            (9, &[5, 4, 0], CLEAR, ALL_OPEN),
            (idle, &[0, 0, 0], marks, ALL_OPEN),
            (4, &[0, 0, 0], marks, ALL_OPEN),
            (idle, &[0, 0, 0], marks, ALL_OPEN),
            (10, &[3, 5, 2], marks, TWO_MET),
            (3, &[0, 0, 3], marks, ALL_MET),
            (idle, &[0, 0, 0], marks, ALL_MET),
            (5, &[0, 0, 0], marks, ALL_MET),
        ];
        in_parts(cases, "three jobs", &mut three(&THREE_ROWS, &[]), &slots)?;
    }
    Ok(())
}

/// The mark stays once it is set, at any speed and with nothing due or left.
fn stays(cases: &mut Cases) -> Result<(), String> {
    let at_once: [Slot; 8] = [
        (8, &[0, 8, 0], SLOW, LOST),
        (3, &[0, 1, 0], SLOW, HI_MET),
        (10, &[0, 0, 0], SLOW, HI_MET),
        (3, &[0, 0, 0], SLOW, HI_MET),
        (10, &[0, 0, 0], SLOW, HI_MET),
        (0, &[0, 0, 0], BOTH, HI_MET),
        (9, &[0, 0, 0], BOTH, HI_MET),
        (10, &[0, 0, 0], BOTH, HI_MET),
    ];
    in_parts(cases, "slow at once", &mut three(&THREE_ROWS, &[]), &at_once)?;
    let later: [Slot; 7] = [
        (9, &[5, 4, 0], CLEAR, ALL_OPEN),
        (3, &[0, 0, 0], CLEAR, ALL_OPEN),
        (3, &[0, 0, 0], CLEAR, ALL_OPEN),
        (3, &[0, 0, 0], CLEAR, ALL_OPEN),
        (4, &[0, 4, 0], SLOW, LOST),
        (10, &[0, 1, 0], SLOW, HI_MET),
        (3, &[0, 0, 0], SLOW, HI_MET),
    ];
    in_parts(cases, "slow after idle slots", &mut three(&THREE_ROWS, &[]), &later)
}

/// The word that a job has ended makes a slot idle that would be slow.
fn word_between(cases: &mut Cases) -> Result<(), String> {
    let memory = &mut three(&THREE_ROWS, &[1, 0, 0, 2, 4, 0]);
    let got = cases.both.end(memory, 0);
    cases.expect("first job ends", got, 0)?;
    let open = &[ENDED, OPEN, OPEN];
    let slots: [Slot; 3] =
        [(3, &[0, 0, 0], CLEAR, open), (0, &[0, 0, 0], BELOW, open), (9, &[0, 0, 0], BELOW, open)];
    hold(cases, "after the first word", memory, &slots)?;
    let got = cases.both.end(memory, 1);
    cases.expect("second job ends", got, 0)?;
    let slots: [Slot; 3] = [
        (5, &[0, 0, 5], BELOW, &[ENDED, ENDED, MET]),
        (3, &[0, 0, 0], BELOW, &[ENDED, ENDED, MET]),
        (0, &[0, 0, 0], BELOW, &[ENDED, ENDED, MET]),
    ];
    hold(cases, "after the second word", memory, &slots)
}

/// Sums of dues: of as many jobs and of as many intervals as there may be, and large ones.
pub fn sums(cases: &mut Cases) -> Result<(), String> {
    each_job(cases)?;
    each_interval(cases)?;
    bits(cases)?;
    most_allotted(cases)?;
    for grade in [LO, HI] {
        for total in [HALF - 1, HALF, HALF + 1, JOB_COUNT * 100_000_000] {
            too_much(cases, &heavy(total, grade), grade)?;
        }
        let size = 100_000_000;
        let jobs = [(b"same-job", grade, 0, size, 100_000); MOST_JOBS];
        let memory = &mut with_run(&jobs, &[&[size as u32][..]; MOST_JOBS], &[]);
        rates(memory, 1_000, 999);
        too_much(cases, memory, grade)?;
    }
    Ok(())
}

/// Units for one of so many jobs, and nothing for the others.
fn for_one(jobs: usize, position: usize, units: u32) -> Vec<u32> {
    let mut grants = vec![0; jobs];
    grants[position] = units;
    grants
}

/// The jobs of one grade are due far more than n, the first of them too.
fn too_much(cases: &mut Cases, plan: &Memory, grade: u64) -> Result<(), String> {
    let jobs = plan.jobs();
    let open = vec![OPEN; jobs];
    let (granted, lost) =
        if grade == HI { (999, open.clone()) } else { (0, vec![DISCARDED; jobs]) };
    let (below_n, at_n) = (for_one(jobs, 0, granted), for_one(jobs, 0, 1_000));
    let slots: [Slot; 2] = [(999, &below_n, SLOW, &lost), (1_000, &at_n, CLEAR, &open)];
    for slot in slots {
        let memory = &mut with_run(&[], &[], &[]);
        memory.plan.put(0, plan.plan.contents());
        memory.table.put(0, plan.own_places());
        hold(cases, "far more due than n", memory, &[slot])?;
    }
    Ok(())
}

/// 32 jobs that are allotted 2^32 - 1 units each, far above their sizes. Of each size nothing is
/// left, or one unit.
fn most_allotted(cases: &mut Cases) -> Result<(), String> {
    const ALL_MET: &[u32] = &[MET; MOST_JOBS];
    const ALL_LOST: &[u32] = &[DISCARDED; MOST_JOBS];
    let jobs = [(b"same-job", LO, 0, 100_000_000, 100_000); MOST_JOBS];
    let slots: [(u32, Slot); 4] = [
        (100_000_000, (3, &[0; MOST_JOBS], CLEAR, ALL_MET)),
        (100_000_000, (0, &[0; MOST_JOBS], BELOW, ALL_MET)),
        (99_999_999, (32, &[1; MOST_JOBS], CLEAR, ALL_MET)),
        (99_999_999, (31, &[0; MOST_JOBS], SLOW, ALL_LOST)),
    ];
    for (carried, slot) in slots {
        let memory = &mut with_run(&jobs, &[&[u32::MAX][..]; MOST_JOBS], &[]);
        rates(memory, 100, 3);
        memory.run.put(CARRIED, &[carried; MOST_JOBS]);
        hold(cases, "2^32 - 1 units for each of 32 jobs", memory, &[slot])?;
    }
    Ok(())
}

/// One of 32 jobs is due four units, and all others have theirs; then each is due one.
fn each_job(cases: &mut Cases) -> Result<(), String> {
    let grade = |i: usize| if i % 2 == 0 { HI } else { LO };
    let jobs: Vec<Job> = (0..MOST_JOBS).map(|i| (b"same-job", grade(i), 0, 9, 8)).collect();
    let memory = &mut with_run(&jobs, &[&[9][..]; MOST_JOBS], &[]);
    rates(memory, 100, 3);
    for position in 0..MOST_JOBS {
        let mut others = vec![MET; MOST_JOBS];
        let (served, lost) = if grade(position) == HI { (3, OPEN) } else { (0, DISCARDED) };
        others[position] = lost;
        let (enough, short) =
            (for_one(MOST_JOBS, position, 4), for_one(MOST_JOBS, position, served));
        let slots: [Slot; 2] = [(4, &enough, CLEAR, &[MET; MOST_JOBS]), (3, &short, SLOW, &others)];
        for slot in slots {
            memory.run.put(0, &[0, 0, 0]);
            memory.run.put(CARRIED, &[9; MOST_JOBS]);
            memory.run.put(CARRIED + position, &[5]);
            hold(cases, &format!("job {} of 32 is due 4", position), memory, &[slot])?;
        }
    }
    let stand = |i: usize| if grade(i) == HI { MET } else { DISCARDED };
    let (essential, lost): (Vec<u32>, Vec<u32>) =
        (0..MOST_JOBS).map(|i| (u32::from(grade(i) == HI), stand(i))).unzip();
    let slots: [Slot; 2] =
        [(32, &[1; MOST_JOBS], CLEAR, &[MET; MOST_JOBS]), (31, &essential, SLOW, &lost)];
    for slot in slots {
        memory.run.put(0, &[0, 0, 0]);
        memory.run.put(CARRIED, &[8; MOST_JOBS]);
        hold(cases, "each of 32 jobs is due 1", memory, &[slot])?;
    }
    Ok(())
}

/// A job that is allotted one unit in each of 63 intervals, and lacks four.
fn each_interval(cases: &mut Cases) -> Result<(), String> {
    let window = |i: u64| (b"same-job", LO, i, 63, MOST_INTERVALS as u64 - i);
    let jobs: Vec<Job> = (0..MOST_JOBS as u64).map(window).collect();
    let memory = &mut with_run(&jobs, &[&[1; MOST_INTERVALS]], &[]);
    rates(memory, 10, 3);
    let (enough, none) = (for_one(MOST_JOBS, 0, 4), for_one(MOST_JOBS, 0, 0));
    for clock in 3..MOST_INTERVALS as u32 {
        let first = if clock == 62 { MET } else { OPEN };
        let slots: [Slot; 2] = [(4, &enough, CLEAR, &[first]), (3, &none, SLOW, &[DISCARDED])];
        for slot in slots {
            memory.run.put(0, &[clock, 0, 0, clock - 3]);
            hold(cases, &format!("interval {} of 63", clock), memory, &[slot])?;
        }
    }
    Ok(())
}

/// Dues that are small or none in fewer bits, of one job and in two halves.
fn bits(cases: &mut Cases) -> Result<(), String> {
    for due in [256, 257, 65_536, 65_537, 65_536 + 256, 1 << 24, 99_999_999_u32] {
        for first in [due, due / 2] {
            let second = due - first;
            let jobs = [
                (b"other--A", LO, 0, u64::from(first) + 1, 100_000),
                (b"other--B", LO, 0, u64::from(second) + 1, 100_000),
            ];
            let most = due.min(1_000);
            let granted = [first.min(most), most - first.min(most)];
            let slots: [Slot; 2] = [
                (most as u16, &granted, CLEAR, &[OPEN, OPEN]),
                (most as u16 - 1, &[0, 0], SLOW, &[DISCARDED, DISCARDED]),
            ];
            for slot in slots {
                let memory = &mut with_run(&jobs, &[&[first], &[second]], &[]);
                rates(memory, 1_000, 1);
                hold(cases, &format!("{} and {} due", first, second), memory, &[slot])?;
            }
        }
    }
    Ok(())
}
