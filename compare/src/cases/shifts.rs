//! Shifts of plan E and of other plans: rows and numbers, refused speeds between others, marks that
//! are set on the way, intervals that begin on the way, and the words that stay.

use reference::edition::{MOST_JOBS, MOST_SHIFT_SPEEDS};

use super::ended::{e_with_ended, IN_THE_MIDDLE};
use super::judged::{P5, P5_ROWS, P9, P9_ROWS};
use super::plan_e::{memory_of, Job, HI, JOBS, LO};
use super::slots::{e_with, Run, AT_THE_END, STARTED};
use super::sums::{heavy, HALF, JOB_COUNT};
use super::Cases;
use crate::memory::{Memory, Shift};
use crate::words::{job_at, CARRIED, CLOCK, ENDED, PLAN_WORDS, RUN_WORDS};

/// A speed, the number that it comes to, and the grants of a slot that is done.
pub type Slot<'a> = (u16, u8, &'a [u32]);

/// Places beyond the last row and the last number.
const SPARE_PLACES: [usize; 3] = [0, 1, 40];

/// The outputs that a shift has to leave: each number, the row of each slot that is done, and known
/// words in all other places.
fn outputs(shift: &Shift, jobs: usize, slots: &[Slot]) -> (Vec<u32>, Vec<u8>) {
    let (mut rows, mut numbers) = (shift.rows.known_words(), shift.numbers.known_words());
    for (k, &(_, number, grants)) in slots.iter().enumerate() {
        numbers[k] = number;
        rows[k * jobs..k * jobs + grants.len()].copy_from_slice(grants);
    }
    (rows, numbers)
}

/// Holds a shift to its slots and to the first words of the run after it; all others stay. It is
/// made with outputs that are just long enough, and with longer ones.
pub fn hold(
    cases: &mut Cases,
    case: &str,
    memory: &mut Memory,
    slots: &[Slot],
    after: &[u32],
) -> Result<(), String> {
    let before = memory.run.contents().to_vec();
    let mut run = before.clone();
    run[..after.len()].copy_from_slice(after);
    let speeds: Vec<u16> = slots.iter().map(|slot| slot.0).collect();
    for spare in SPARE_PLACES {
        memory.run.put(0, &before);
        let shift = &mut Shift::at(&speeds, memory.jobs(), spare);
        let got = cases.both.shift(memory, shift);
        cases.expect(case, got, 0)?;
        let (rows, numbers) = outputs(shift, memory.jobs(), slots);
        cases.expect_list(case, shift.rows.contents(), &rows)?;
        cases.expect_list(case, shift.numbers.contents(), &numbers)?;
        cases.expect_list(case, memory.run.contents(), &run)?;
    }
    Ok(())
}

/// A case, a run of plan E, the slots of a shift, and the run after it.
type OfE = (&'static str, Run, &'static [Slot<'static>], Run);

/// Plan E at its normal rate, from its beginning to its last deadline.
const WHOLE_NIGHT: [Slot; 10] = [
    (2, 0, &[2, 0]),
    (2, 0, &[0, 2]),
    (2, 0, &[0, 2]),
    (2, 0, &[2, 0]),
    (2, 0, &[2, 0]),
    (2, 0, &[0, 2]),
    (2, 0, &[0, 2]),
    (2, 0, &[0, 0]),
    (2, 0, &[0, 0]),
    (2, 0, &[0, 0]),
];

/// Shifts in which every speed is done.
const DONE: [OfE; 9] = [
    ("whole night", STARTED, &WHOLE_NIGHT, AT_THE_END),
    (
        "slow from the fourth slot on",
        STARTED,
        &[
            (2, 0, &[2, 0]),
            (2, 0, &[0, 2]),
            (2, 0, &[0, 2]),
            (1, 0, &[0, 1]),
            (1, 0, &[0, 1]),
            (2, 0, &[0, 2]),
            (1, 0, &[0, 0]),
        ],
        [7, 1, 0, 2, 8],
    ),
    (
        "both marks, one after the other",
        STARTED,
        &[(2, 0, &[2, 0]), (1, 0, &[0, 1]), (0, 0, &[0, 0]), (2, 0, &[0, 2])],
        [4, 1, 1, 2, 3],
    ),
    (
        "the other job after a slow slot",
        [3, 0, 0, 2, 8],
        &[(1, 0, &[0, 0]), (2, 0, &[0, 0])],
        [5, 1, 0, 2, 8],
    ),
    (
        "an interval begins",
        [4, 0, 0, 4, 4],
        &[(2, 0, &[2, 0]), (2, 0, &[0, 2]), (2, 0, &[0, 2]), (2, 0, &[0, 0])],
        [8, 0, 0, 6, 8],
    ),
    (
        "slow when an interval begins",
        [4, 0, 0, 4, 4],
        &[(2, 0, &[2, 0]), (1, 0, &[0, 1]), (2, 0, &[0, 2]), (2, 0, &[0, 1])],
        [8, 1, 0, 6, 8],
    ),
    (
        "under the slow mark an interval begins",
        [4, 1, 0, 2, 4],
        &[(1, 0, &[0, 1]), (2, 0, &[0, 2]), (2, 0, &[0, 1]), (2, 0, &[0, 0])],
        [8, 1, 0, 2, 8],
    ),
    (
        "under the below-floor mark alone",
        [0, 0, 1, 0, 0],
        &[(2, 0, &[2, 0]), (2, 0, &[0, 2]), (1, 0, &[0, 1])],
        [3, 1, 1, 2, 3],
    ),
    ("one speed", [9, 1, 0, 0, 7], &[(1, 0, &[0, 1])], [10, 1, 0, 0, 8]),
];

/// Shifts in which speeds are refused.
const SOME_REFUSED: [OfE; 9] = [
    ("in the middle", STARTED, &[(2, 0, &[2, 0]), (3, 20, &[]), (2, 0, &[0, 2])], [2, 0, 0, 2, 2]),
    (
        "at both ends",
        STARTED,
        &[(u16::MAX, 20, &[]), (3, 20, &[]), (2, 0, &[2, 0]), (1, 0, &[0, 1]), (3, 20, &[])],
        [2, 1, 0, 2, 1],
    ),
    (
        "where an interval begins",
        [4, 0, 0, 4, 4],
        &[(3, 20, &[]), (2, 0, &[2, 0]), (3, 20, &[]), (3, 20, &[]), (2, 0, &[0, 2])],
        [6, 0, 0, 6, 6],
    ),
    (
        "between slow slots",
        [1, 0, 0, 2, 0],
        &[(1, 0, &[0, 1]), (3, 20, &[]), (2, 0, &[0, 2]), (0, 0, &[0, 0]), (3, 20, &[])],
        [4, 1, 1, 2, 3],
    ),
    (
        "after the last slot, at any speed",
        [8, 0, 0, 6, 5],
        &[(2, 0, &[0, 2]), (2, 0, &[0, 1]), (2, 19, &[]), (3, 19, &[]), (0, 19, &[])],
        AT_THE_END,
    ),
    (
        "before and after the last slot",
        [9, 0, 0, 6, 8],
        &[(3, 20, &[]), (2, 0, &[0, 0]), (3, 19, &[])],
        AT_THE_END,
    ),
    (
        "all, at the last deadline",
        AT_THE_END,
        &[(2, 19, &[]), (3, 19, &[]), (u16::MAX, 19, &[]), (0, 19, &[])],
        AT_THE_END,
    ),
    (
        "all, above the rate",
        IN_THE_MIDDLE,
        &[(3, 20, &[]), (4, 20, &[]), (258, 20, &[]), (u16::MAX, 20, &[])],
        IN_THE_MIDDLE,
    ),
    ("the only one", STARTED, &[(3, 20, &[])], STARTED),
];

/// Shifts in which jobs have ended, and the places of these jobs. An ended job gets nothing, and the
/// other one gets what it leaves, as far as it is due.
const SOME_ENDED: [(OfE, &[usize]); 5] = [
    (
        (
            "the essential job has ended",
            [1, 0, 0, 2, 0],
            &[(2, 0, &[2, 0]), (2, 0, &[2, 0]), (3, 20, &[]), (2, 0, &[0, 0])],
            [4, 0, 0, 6, 0],
        ),
        &[1],
    ),
    (
        (
            "the other job has ended",
            [2, 0, 0, 2, 2],
            &[(2, 0, &[0, 2]), (2, 0, &[0, 0]), (2, 0, &[0, 0]), (2, 0, &[0, 2])],
            [6, 0, 0, 2, 6],
        ),
        &[0],
    ),
    (
        (
            "the essential job has ended, slow",
            [1, 0, 0, 2, 0],
            &[(2, 0, &[2, 0]), (1, 0, &[0, 0]), (2, 0, &[0, 0])],
            [4, 1, 0, 4, 0],
        ),
        &[1],
    ),
    (
        (
            "both jobs have ended",
            IN_THE_MIDDLE,
            &[(2, 0, &[0, 0]), (1, 0, &[0, 0])],
            [5, 0, 0, 2, 4],
        ),
        &[0, 1],
    ),
    (
        (
            "both jobs have ended, under the slow mark",
            [3, 1, 0, 2, 4],
            &[(2, 0, &[0, 0]), (1, 0, &[0, 0])],
            [5, 1, 0, 2, 4],
        ),
        &[0, 1],
    ),
];

/// Shifts of plan E.
pub fn of_plan_e(cases: &mut Cases) -> Result<(), String> {
    let none_ended = DONE.into_iter().chain(SOME_REFUSED).map(|of_e| (of_e, &[][..]));
    for ((case, run, slots, after), ended) in none_ended.chain(SOME_ENDED) {
        let case = format!("shift, {}", case);
        hold(cases, &case, &mut e_with_ended(run, ended), slots, &after)?;
    }
    for run in [STARTED, IN_THE_MIDDLE, AT_THE_END] {
        hold(cases, "shift without speeds", &mut e_with(run), &[], &run)?;
    }
    in_two(cases)?;
    word_between(cases)?;
    past_the_count(cases)?;
    not_judged(cases)
}

/// The whole night in two shifts, with a refused speed between them.
fn in_two(cases: &mut Cases) -> Result<(), String> {
    let mut run = STARTED;
    for cut in 0..=WHOLE_NIGHT.len() {
        let memory = &mut e_with(STARTED);
        let (first, second) = WHOLE_NIGHT.split_at(cut);
        hold(cases, "first part of the night", memory, first, &run)?;
        let number = if cut == WHOLE_NIGHT.len() { 19 } else { 20 };
        let second = [&[(3, number, &[][..])], second].concat();
        hold(cases, "second part of the night", memory, &second, &AT_THE_END)?;
        if let Some((_, _, grants)) = WHOLE_NIGHT.get(cut) {
            run = [run[0] + 1, 0, 0, run[3] + grants[0], run[4] + grants[1]];
        }
    }
    Ok(())
}

/// A shift, the word that the essential job has ended, and a shift.
fn word_between(cases: &mut Cases) -> Result<(), String> {
    let memory = &mut e_with(STARTED);
    let slots = &WHOLE_NIGHT[..2];
    hold(cases, "shift before the word", memory, slots, &[2, 0, 0, 2, 2])?;
    let got = cases.both.end(memory, 1);
    cases.expect("word between shifts", got, 0)?;
    let slots: [Slot; 3] = [(2, 0, &[2, 0]), (2, 0, &[2, 0]), (2, 0, &[0, 0])];
    hold(cases, "shift after the word", memory, &slots, &[5, 0, 0, 6, 2])?;
    let got = memory.run.contents()[ENDED..ENDED + JOBS.len()].to_vec();
    cases.expect("marks after the shift", Ok(got), vec![0, 1])
}

/// Records, units and marks from the count on are not looked at, and stay.
fn past_the_count(cases: &mut Cases) -> Result<(), String> {
    let slots: [Slot; 2] = [(2, 0, &[2, 0]), (2, 0, &[2, 0])];
    for place in JOBS.len()..MOST_JOBS {
        let case = format!("shift, mark and units of place {}", place);
        let memory = &mut e_with_ended(IN_THE_MIDDLE, &[place]);
        memory.run.put(CARRIED + place, &[u32::MAX]);
        hold(cases, &case, memory, &slots, &[5, 0, 0, 6, 4])?;
    }
    let memory = &mut e_with(IN_THE_MIDDLE);
    let records = vec![u64::MAX; PLAN_WORDS - job_at(JOBS.len())];
    memory.plan.put(job_at(JOBS.len()), &records);
    hold(cases, "shift, records from the count on", memory, &slots, &[5, 0, 0, 6, 4])
}

/// A shift takes tables that the judge refuses.
fn not_judged(cases: &mut Cases) -> Result<(), String> {
    let memory = &mut memory_of(&JOBS, &[&[1, 0, 1], &[0, 0, 0, 7]]);
    memory.run.put(0, &[0; RUN_WORDS]);
    memory.table.put(memory.own_places().len() - 1, &[1]);
    let slots: [Slot; 6] = [
        (2, 0, &[1, 0]),
        (2, 0, &[0, 0]),
        (2, 0, &[0, 0]),
        (2, 0, &[0, 0]),
        (2, 0, &[0, 0]),
        (2, 0, &[0, 0]),
    ];
    hold(cases, "shift, stray places", memory, &slots, &[6, 0, 0, 1, 0])?;
    let half = HALF as u32;
    // Six units in all, of which the first interval allots one.
    for second in [5, half, half + 5, u32::MAX - 1, u32::MAX] {
        let memory = &mut memory_of(&JOBS, &[&[1, second], &[0, 0]]);
        memory.run.put(0, &[0; RUN_WORDS]);
        let slots: [Slot; 4] = [(2, 0, &[1, 0]), (2, 0, &[2, 0]), (2, 0, &[2, 0]), (2, 0, &[1, 0])];
        let case = format!("shift, {} units in the second interval", second);
        hold(cases, &case, memory, &slots, &[4, 0, 0, 6, 0])?;
    }
    Ok(())
}

/// A plan with its run at the beginning.
fn started(jobs: &[Job], rows: &[&[u32]]) -> Memory {
    let mut memory = memory_of(jobs, rows);
    memory.run.put(0, &[0; RUN_WORDS]);
    memory
}

/// Shifts of other plans than E.
pub fn of_others(cases: &mut Cases) -> Result<(), String> {
    few_jobs(cases)?;
    p5(cases)?;
    job_by_job(cases)?;
    most_speeds(cases)?;
    most_places(cases)?;
    large_units(cases)
}

/// Rows of one, of two and of three places.
fn few_jobs(cases: &mut Cases) -> Result<(), String> {
    let memory = &mut started(&[(b"only-job", LO, 0, 5, 4)], &[&[5]]);
    let slots: [Slot; 6] =
        [(2, 0, &[2]), (3, 20, &[]), (2, 0, &[2]), (2, 0, &[1]), (2, 0, &[0]), (2, 19, &[])];
    hold(cases, "shift of one job", memory, &slots, &[4, 0, 0, 5])?;
    let memory = &mut started(&P9, &P9_ROWS);
    let slots: [Slot; 3] = [(2, 0, &[0, 2]), (1, 0, &[1, 0]), (2, 0, &[1, 0])];
    hold(cases, "shift of P9", memory, &slots, &[3, 1, 0, 2, 2])?;
    // Boundaries 0, 1, 2, 3, 4.
    let jobs: [Job; 3] =
        [(b"job----A", LO, 0, 2, 2), (b"job----B", HI, 0, 1, 4), (b"job----C", HI, 1, 1, 3)];
    let memory = &mut started(&jobs, &[&[1, 1], &[1, 0], &[0, 1, 0]]);
    let slots: [Slot; 4] =
        [(2, 0, &[1, 1, 0]), (3, 20, &[]), (2, 0, &[1, 0, 1]), (2, 0, &[0, 0, 0])];
    hold(cases, "shift of three jobs", memory, &slots, &[3, 0, 0, 2, 1, 1])
}

/// The whole night of P5, and one with a slow slot. Intervals begin at 0, 4, 10 and 12.
fn p5(cases: &mut Cases) -> Result<(), String> {
    const IDLE: Slot = (2, 0, &[0, 0, 0, 0]);
    const A: Slot = (2, 0, &[2, 0, 0, 0]);
    const B: Slot = (2, 0, &[0, 2, 0, 0]);
    const C: Slot = (2, 0, &[0, 0, 2, 0]);
    const D: Slot = (2, 0, &[0, 0, 0, 2]);
    let night = [A, C, C, C, A, A, A, D, D, D, D, D, B, B, IDLE, IDLE, (2, 19, &[])];
    let memory = &mut started(&P5, &P5_ROWS);
    hold(cases, "night of P5", memory, &night, &[16, 0, 0, 8, 4, 6, 10])?;
    let slow: [Slot; 6] =
        [(1, 0, &[1, 0, 0, 0]), A, (2, 0, &[1, 1, 0, 0]), B, (2, 0, &[0, 1, 0, 0]), IDLE];
    let night = [&night[..5], &slow].concat();
    let memory = &mut started(&P5, &P5_ROWS);
    hold(cases, "night of P5, slow", memory, &night, &[11, 1, 0, 8, 4, 6, 0])
}

/// Units for one of as many jobs as there may be, and nothing for the others.
fn granted_alone(position: usize, units: u32) -> Vec<u32> {
    let mut row = vec![0; MOST_JOBS];
    row[position] = units;
    row
}

/// As many jobs as there may be, each with a slot of its own.
fn job_by_job(cases: &mut Cases) -> Result<(), String> {
    let job = |i: u64| (b"same-job", HI, i, 1, i + 1);
    let jobs: Vec<Job> = (0..MOST_JOBS as u64).map(job).collect();
    let rows: Vec<Vec<u32>> = (0..MOST_JOBS).map(|i| granted_alone(i, 1)).collect();
    let row_slices: Vec<&[u32]> = rows.iter().map(Vec::as_slice).collect();
    let memory = &mut started(&jobs, &row_slices);
    let mut slots: Vec<Slot> = rows.iter().map(|row| (2, 0, &row[..])).collect();
    slots.push((2, 19, &[]));
    let mut after = vec![1; CARRIED + MOST_JOBS];
    after[..CARRIED].copy_from_slice(&[MOST_JOBS as u32, 0, 0]);
    hold(cases, "shift of 32 jobs, one by one", memory, &slots, &after)
}

/// As many speeds as a shift may have, and one less; the last slot is there or not.
fn most_speeds(cases: &mut Cases) -> Result<(), String> {
    let most = MOST_SHIFT_SPEEDS as u32;
    for (count, deadline) in [(most, most), (most, most + 1), (most, most - 1), (most - 1, most)] {
        let memory = &mut started(&[(b"only-job", HI, 0, 600, deadline.into())], &[&[600]]);
        let mut slots: Vec<Slot> = vec![(2, 0, &[2]); count as usize];
        slots.iter_mut().skip(deadline as usize).for_each(|slot| *slot = (2, 19, &[]));
        let clock = count.min(deadline);
        let case = format!("shift of {} speeds, {} slots", count, deadline);
        hold(cases, &case, memory, &slots, &[clock, 0, 0, 2 * clock])?;
    }
    let memory = &mut started(&[(b"only-job", LO, 0, 600, 300)], &[&[600]]);
    let mut slots: Vec<Slot> = vec![(2, 0, &[2]); MOST_SHIFT_SPEEDS - 2];
    slots.extend([(3, 20, &[][..]), (1, 0, &[0])]);
    hold(cases, "last two of 256 speeds", memory, &slots, &[255, 1, 0, 508])
}

/// As many speeds and as many jobs as there may be: the jobs have their slots one after the other.
fn most_places(cases: &mut Cases) -> Result<(), String> {
    let memory = &mut started(&[(b"same-job", HI, 0, 16, 300); MOST_JOBS], &[&[16][..]; MOST_JOBS]);
    let slots_of_job = MOST_SHIFT_SPEEDS / MOST_JOBS;
    let row = |slot: usize| granted_alone(slot / slots_of_job, 2);
    let rows: Vec<Vec<u32>> = (0..MOST_SHIFT_SPEEDS).map(row).collect();
    let slots: Vec<Slot> = rows.iter().map(|row| (2, 0, &row[..])).collect();
    let mut after = vec![16; CARRIED + MOST_JOBS];
    after[..CARRIED].copy_from_slice(&[256, 0, 0]);
    hold(cases, "256 speeds of 32 jobs", memory, &slots, &after)
}

/// Jobs that are due 2^31 units together, at speeds above one byte.
fn large_units(cases: &mut Cases) -> Result<(), String> {
    let memory = &mut heavy(HALF + 1, HI);
    let size = memory.table.contents()[0];
    memory.run.put(CARRIED, &[size - 10]);
    let granted = |first: u32, second: u32| -> Vec<u32> {
        let mut row = vec![0; JOB_COUNT as usize];
        row[..2].copy_from_slice(&[first, second]);
        row
    };
    let rows = [granted(10, 990), granted(0, 1_000), granted(0, 257), granted(0, 999)];
    let slots: [Slot; 5] = [
        (1_000, 0, &rows[0]),
        (1_000, 0, &rows[1]),
        (1_001, 20, &[]),
        (257, 0, &rows[2]),
        (999, 0, &rows[3]),
    ];
    memory.run.put(CLOCK, &[65_534]);
    let after = [65_538, 1, 1, size, 3_246];
    hold(cases, "shift of 22 jobs that are due 2^31 units", memory, &slots, &after)
}
