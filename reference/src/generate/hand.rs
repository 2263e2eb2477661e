//! Makes plans and runs in hand, and twists them: rules broken, stray places, short buffers,
//! rubbish where nothing may be looked at, clocks and carried units of every kind.

use super::accepted::{accepted, accepted_of};
use super::draft::{row_at, Draft, Limits, Where, AMPLE, EVERYWHERE};
use super::input::HandInput;
use super::prng::Prng;
use super::refused_draft;
use super::speeds::{or_around_dues, speeds};
use crate::edition::{
    LARGEST_FILE, MOST_DEADLINE, MOST_INTERVALS, MOST_JOBS, MOST_SIZE, NAME_BYTES, TABLE_PLACES,
};
use crate::plan::{intervals, place_of, Job, Plan};
use crate::run::Run;

/// The kinds of twists.
#[derive(Clone, Copy, Debug, PartialEq, Eq)]
pub enum Twist {
    Rates,
    Count,
    NameByte,
    NameTwice,
    Grade,
    TimesOrSize,
    StrayJob,
    StrayInterval,
    ShortTable,
    Output,
    Grants,
    Clock,
    Carried,
    Marks,
    WildTable,
    FewerJobs,
}

pub const TWISTS: [Twist; 16] = [
    Twist::Rates,
    Twist::Count,
    Twist::NameByte,
    Twist::NameTwice,
    Twist::Grade,
    Twist::TimesOrSize,
    Twist::StrayJob,
    Twist::StrayInterval,
    Twist::ShortTable,
    Twist::Output,
    Twist::Grants,
    Twist::Clock,
    Twist::Carried,
    Twist::Marks,
    Twist::WildTable,
    Twist::FewerJobs,
];

/// A draft taken in hand with a run at its beginning and ample buffers.
pub fn in_hand(draft: &Draft, speeds: &[u16]) -> HandInput {
    HandInput {
        lent: AMPLE,
        plan: draft.plan.clone(),
        table: draft.table.clone(),
        run: draft.run(),
        speeds: speeds.to_vec(),
    }
}

/// A plan in hand, now and then one that the judge refuses; up to three twists.
pub fn hand(prng: &mut Prng, limits: &Limits) -> HandInput {
    let draft = base(prng, limits);
    let speeds = speeds(prng, &draft.plan);
    let mut input = in_hand(&draft, &speeds);
    input.lent = limits.lent;
    set_clock(prng, &mut input, &draft.boundaries());
    for _ in 0..prng.below(4) {
        let place = prng.pick(&EVERYWHERE);
        let twist = prng.pick(&TWISTS);
        twist_input(prng, &mut input, twist, place);
    }
    if prng.once_in(3) {
        rubbish(prng, &mut input);
    }
    input
}

fn base(prng: &mut Prng, limits: &Limits) -> Draft {
    match prng.below(8) {
        0..=2 => refused_draft(prng, limits),
        3 => accepted_of(prng, limits, 1, 2),
        _ => accepted(prng, limits),
    }
}

/// A clock somewhere from the first release to the last deadline.
fn set_clock(prng: &mut Prng, input: &mut HandInput, boundaries: &[u32]) {
    let (first, last) = (boundaries[0], boundaries[boundaries.len() - 1]);
    if prng.once_in(2) {
        input.run.clock = prng.between(u64::from(first), u64::from(last)) as u32;
        for (carried, job) in input.run.carried.iter_mut().zip(input.plan.counted()) {
            *carried = prng.between(0, job.size) as u32;
        }
    }
}

/// Does one twist; places and records are those of the plan as it was counted at first.
pub fn twist_input(prng: &mut Prng, input: &mut HandInput, twist: Twist, place: Where) {
    let jobs = records_in_use(&input.plan);
    let i = place.index(jobs);
    match twist {
        Twist::Rates => twist_rates(prng, &mut input.plan),
        Twist::Count => input.plan.count = wrong_count(prng, input.plan.count),
        Twist::NameByte => {
            let byte = prng.pick(&[0, 0x20, 0x7F, u8::MAX]);
            input.plan.jobs[i].name[prng.index(NAME_BYTES)] = byte;
        }
        Twist::NameTwice => input.plan.jobs[i].name = input.plan.jobs[prng.index(jobs)].name,
        Twist::Grade => input.plan.jobs[i].grade = prng.pick(&[2, 3, 0x80, u8::MAX]),
        Twist::TimesOrSize => twist_times_or_size(prng, &mut input.plan.jobs[i]),
        Twist::StrayJob => twist_stray_job(prng, input, jobs, place),
        Twist::StrayInterval => twist_stray_interval(prng, input, jobs, place),
        Twist::ShortTable => twist_table_length(prng, input),
        Twist::Output => twist_output_length(prng, input),
        Twist::Grants => input.lent.grants = prng.pick(&[0, 1, jobs - 1, jobs, jobs, jobs + 1]),
        Twist::Clock => twist_clock(prng, input),
        Twist::Carried => twist_carried(prng, input, i),
        Twist::Marks => {
            input.run.slow = prng.once_in(2);
            input.run.below_floor = prng.once_in(2);
        }
        Twist::WildTable => wild_table(prng, input, jobs),
        Twist::FewerJobs => input.plan.count = prng.between(1, jobs as u64),
    }
}

/// How many records hold a job; the count itself may have been twisted already.
fn records_in_use(plan: &Plan) -> usize {
    let used = plan.jobs.iter().filter(|job| job.deadline > 0);
    used.count().max(1)
}

pub fn twist_rates(prng: &mut Prng, plan: &mut Plan) {
    let n = plan.n;
    let pairs = [
        (n, n),
        (n, 0),
        (0, 0),
        (1, 1),
        (1_001, 1),
        (u16::MAX, 1),
        (n, 1_000),
        (1_001, 1_001),
    ];
    let (n, d) = prng.pick(&pairs);
    plan.n = n;
    plan.d = d;
}

/// No job, one too many, or the right count with a bit beyond some narrower type.
pub fn wrong_count(prng: &mut Prng, count: u64) -> u64 {
    let widened = [count | 1 << 8, count | 1 << 16, count | 1 << 32];
    match prng.below(2) {
        0 => prng.pick(&[0, 33, 64, u64::MAX]),
        _ => prng.pick(&widened),
    }
}

pub fn twist_times_or_size(prng: &mut Prng, job: &mut Job) {
    match prng.below(10) {
        0 => job.release = job.deadline,
        1 => job.release = u32::MAX,
        2 => job.deadline = 0,
        3 => job.deadline = MOST_DEADLINE + 1,
        4 => job.deadline = u32::MAX,
        5 => job.size = 0,
        6 => job.size = MOST_SIZE + 1,
        7 => job.size |= 1 << 32,
        8 => job.size = u64::MAX,
        _ => job.size = MOST_SIZE,
    }
}

/// Units for a job that the plan does not have.
fn twist_stray_job(prng: &mut Prng, input: &mut HandInput, jobs: usize, place: Where) {
    if jobs < MOST_JOBS {
        let i = jobs + place.index(MOST_JOBS - jobs);
        let j = prng.pick(&[0, MOST_INTERVALS / 2, MOST_INTERVALS - 1]);
        set_place(input, place_of(i, j), 1);
    }
}

/// Units in an interval that the plan does not have.
fn twist_stray_interval(prng: &mut Prng, input: &mut HandInput, jobs: usize, place: Where) {
    let intervals = intervals(&input.plan.jobs[..jobs]).len();
    if intervals < MOST_INTERVALS {
        let j = intervals + place.index(MOST_INTERVALS - intervals);
        let units = prng.pick(&[1, u32::MAX]);
        set_place(input, place_of(prng.index(jobs), j), units);
    }
}

/// Sets a place if the lent table reaches so far.
fn set_place(input: &mut HandInput, place: usize, units: u32) {
    if let Some(value) = input.table.get_mut(place) {
        *value = units;
    }
}

fn twist_table_length(prng: &mut Prng, input: &mut HandInput) {
    let lengths = [
        0,
        1,
        TABLE_PLACES - 1,
        TABLE_PLACES,
        TABLE_PLACES + 1,
        AMPLE.table,
    ];
    let length = prng.pick(&lengths);
    input.lent.table = length;
    input.table.truncate(length);
    input.table.resize(length.min(TABLE_PLACES), 0);
}

/// An output around the exact length of the plan's file.
fn twist_output_length(prng: &mut Prng, input: &mut HandInput) {
    let rows = input.table.iter().filter(|&&units| units != 0).count();
    let jobs = input.plan.count.min(MOST_JOBS as u64) as usize;
    let exact = row_at(jobs, rows).min(LARGEST_FILE);
    input.lent.output = prng.pick(&[0, exact - 1, exact - 1, exact, exact + 1, 5]);
}

fn twist_clock(prng: &mut Prng, input: &mut HandInput) {
    let jobs = &input.plan.jobs;
    let used = jobs.iter().filter(|job| job.deadline > 0);
    let first = used.clone().map(|job| job.release).min().unwrap_or(0);
    let last = used.map(|job| job.deadline).max().unwrap_or(0);
    let before_first = first.saturating_sub(1);
    let clocks = [
        before_first,
        first,
        last.saturating_sub(1),
        last,
        last,
        last.saturating_add(1),
        u32::MAX,
    ];
    input.run.clock = prng.pick(&clocks);
}

fn twist_carried(prng: &mut Prng, input: &mut HandInput, position: usize) {
    let size = input.plan.jobs[position].size.min(u64::from(u32::MAX) - 1) as u32;
    let amounts = [size, size, size.saturating_sub(1), size + 1, u32::MAX, 0];
    input.run.carried[position] = prng.pick(&amounts);
}

/// Allotments that no judge would take, with prefixes that pass 2^32.
fn wild_table(prng: &mut Prng, input: &mut HandInput, jobs: usize) {
    let intervals = intervals(&input.plan.jobs[..jobs])
        .len()
        .clamp(1, MOST_INTERVALS);
    for _ in 0..prng.between(1, 8) {
        let place = place_of(prng.index(jobs), prng.index(intervals));
        let units = match prng.below(3) {
            0 => u32::MAX - prng.below(3) as u32,
            1 => prng.between(1, 20) as u32,
            _ => 1 << 31,
        };
        set_place(input, place, units);
    }
}

/// Rubbish in the records from the count on and in what a run carries for them.
pub fn rubbish(prng: &mut Prng, input: &mut HandInput) {
    let jobs = input.plan.count.min(MOST_JOBS as u64) as usize;
    let records = if prng.once_in(4) {
        MOST_JOBS
    } else {
        (jobs + 3).min(MOST_JOBS)
    };
    for i in jobs..records {
        input.plan.jobs[i] = rubbish_job(prng);
        input.run.carried[i] = prng.below(1 << 32) as u32;
    }
    // The first record beyond the count looks like a job that would change everything.
    if 0 < jobs && jobs < MOST_JOBS {
        input.plan.jobs[jobs] = input.plan.jobs[0];
    }
}

/// Ended marks in a third of the runs, set for jobs and from the job count on alike.
pub fn set_ended(prng: &mut Prng, run: &mut Run) {
    if prng.once_in(3) {
        for mark in &mut run.ended {
            *mark = prng.once_in(3);
        }
    }
}

/// Speeds around what is due in the run as it stands, in half of all inputs.
pub fn set_speeds(prng: &mut Prng, input: &mut HandInput) {
    let speeds = std::mem::take(&mut input.speeds);
    input.speeds = or_around_dues(prng, speeds, &input.plan, &input.table, &input.run);
}

/// A record that no rule holds for, but by chance.
pub fn rubbish_job(prng: &mut Prng) -> Job {
    Job {
        name: prng.word().to_be_bytes(),
        grade: prng.below(256) as u8,
        release: prng.below(200) as u32,
        size: prng.word(),
        deadline: prng.below(200) as u32,
    }
}
