//! Makes plans in hand for the desk, most of them with one release: jobs that leave room, that just fit,
//! that are one unit too much, or of any size; then rules broken, releases parted, rubbish where nothing
//! may be looked at, and tables of all lengths with something in them.

use super::accepted::{grades, names, rates, times};
use super::draft::{Draft, AMPLE, ANY, EVERYWHERE};
use super::hand::{rubbish_job, twist_rates, twist_times_or_size, wrong_count};
use super::input::DeskInput;
use super::prng::Prng;
use crate::desk::{pairs, Pair};
use crate::edition::{
    HI, LO, MOST_DEADLINE, MOST_INTERVALS, MOST_JOBS, MOST_SIZE, NAME_BYTES, TABLE_PLACES,
};
use crate::plan::{Job, Plan};

/// Attempts after which the rates are drawn so high that one unit of every job fits.
const ATTEMPTS_AT_ANY_RATE: usize = 6;

/// A plan in hand with up to two twists, and a table.
pub fn desk(prng: &mut Prng) -> DeskInput {
    let mut plan = sized_plan(prng);
    let jobs = plan.counted().len();
    for _ in 0..prng.pick(&[0, 0, 0, 0, 0, 0, 0, 1, 1, 2]) {
        twist(prng, &mut plan, jobs);
    }
    if prng.once_in(3) {
        rubbish(prng, &mut plan);
    }
    DeskInput {
        plan,
        table: table(prng),
    }
}

/// A sound plan with one release and sizes of some kind.
fn sized_plan(prng: &mut Prng) -> Plan {
    let jobs = how_many(prng);
    let mut plan = plan_with_room(prng, jobs);
    let too_much = prng.pick(&[0, 0, 1, 1, u64::from(plan.n)]);
    match prng.below(10) {
        0..=2 => grow_some(prng, &mut plan),
        3..=5 => {
            grow_some(prng, &mut plan);
            let i = prng.index(jobs);
            fill_up(&mut plan, i, too_much);
        }
        6..=8 => {
            grow_some(prng, &mut plan);
            crowd(prng, &mut plan, too_much);
        }
        _ => any_sizes(prng, &mut plan),
    }
    plan
}

fn how_many(prng: &mut Prng) -> usize {
    match prng.below(16) {
        0 => 1,
        1 => MOST_JOBS,
        2..=5 => prng.between(1, MOST_JOBS as u64) as usize,
        _ => prng.between(2, 8) as usize,
    }
}

/// Jobs of one unit each that have a timetable.
fn plan_with_room(prng: &mut Prng, jobs: usize) -> Plan {
    let mut attempts = 0;
    loop {
        let plan = plan_of_units(prng, jobs, attempts >= ATTEMPTS_AT_ANY_RATE);
        if pairs(&plan).iter().all(|pair| pair.asked <= pair.carries) {
            return plan;
        }
        attempts += 1;
    }
}

/// Jobs of one unit each: the first of some rising times is their release, each other a deadline.
fn plan_of_units(prng: &mut Prng, jobs: usize, high: bool) -> Plan {
    let (n, d) = rates(prng, high);
    let distinct = match prng.below(3) {
        0 => jobs,
        _ => prng.between(1, jobs as u64) as usize,
    };
    let mut times = times(prng, &ANY, distinct + 1);
    if prng.once_in(12) {
        times[0] = 0;
        times[distinct] = MOST_DEADLINE;
    }
    let mut deadlines = times[1..].to_vec();
    while deadlines.len() < jobs {
        deadlines.push(prng.pick(&times[1..]));
    }
    prng.shuffle(&mut deadlines);
    let (grades, names) = (grades(prng, jobs), names(prng, jobs));
    let job = |i: usize| Job {
        name: names[i],
        grade: grades[i],
        release: times[0],
        size: 1,
        deadline: deadlines[i],
    };
    let records: Vec<Job> = (0..jobs).map(job).collect();
    Draft::new(n, d, &records).plan
}

/// Makes some jobs larger, by no more than a timetable has room for, now and then by all of that.
fn grow_some(prng: &mut Prng, plan: &mut Plan) {
    let jobs = plan.counted().len();
    for _ in 0..prng.below(jobs as u64 + 3) {
        let i = prng.index(jobs);
        let spare = spare(plan, i);
        let more = if prng.once_in(6) {
            spare
        } else {
            prng.between(0, spare / 2)
        };
        plan.jobs[i].size += more;
    }
}

/// Makes a job so large that nothing is left for it, and by so much larger still.
fn fill_up(plan: &mut Plan, position: usize, too_much: u64) {
    let size = plan.jobs[position].size + spare(plan, position) + too_much;
    plan.jobs[position].size = size.min(MOST_SIZE);
}

/// Makes a LO job large, and then a HI job that is due later: the normal rate may be enough for all
/// jobs and the floor for the HI jobs, but not the one up to some time and the other from there.
fn crowd(prng: &mut Prng, plan: &mut Plan, too_much: u64) {
    let couples = couples(plan.counted());
    if couples.is_empty() {
        let i = prng.index(plan.counted().len());
        return fill_up(plan, i, too_much);
    }
    let (early, later) = prng.pick(&couples);
    let spare = spare(plan, early);
    plan.jobs[early].size += prng.between(spare - spare / 4, spare);
    fill_up(plan, later, too_much);
}

/// The positions of each LO job with each HI job that is due later.
fn couples(jobs: &[Job]) -> Vec<(usize, usize)> {
    let mut couples = Vec::new();
    for (i, early) in jobs.iter().enumerate() {
        for (k, later) in jobs.iter().enumerate() {
            let graded = early.grade == LO && later.grade == HI;
            if graded && early.deadline < later.deadline {
                couples.push((i, k));
            }
        }
    }
    couples
}

/// What the pairs that count a job leave, of a plan that has a timetable.
fn spare(plan: &Plan, position: usize) -> u64 {
    let job = &plan.jobs[position];
    let counts = |pair: &Pair| match job.grade {
        HI => job.deadline <= pair.essential,
        _ => job.deadline <= pair.other,
    };
    let all = pairs(plan).into_iter();
    let spare = all
        .filter(counts)
        .map(|pair| pair.carries - pair.asked)
        .min();
    spare.expect("a job counts by its own deadline")
}

/// Sizes around an equal share of what the link carries, now and then the greatest ones.
fn any_sizes(prng: &mut Prng, plan: &mut Plan) {
    let jobs = plan.counted();
    let last = jobs.iter().map(|job| job.deadline).max();
    let slots = last.expect("a job") - jobs[0].release;
    let share = u64::from(plan.n) * u64::from(slots) / plan.count;
    let style = prng.below(8);
    for job in &mut plan.jobs[..plan.count as usize] {
        let greatest = style == 0 || style == 1 && prng.once_in(4);
        job.size = if greatest {
            MOST_SIZE
        } else {
            prng.between(1, MOST_SIZE.min(share + 1))
        };
    }
}

/// Does one twist to a plan that was drawn with so many jobs.
fn twist(prng: &mut Prng, plan: &mut Plan, jobs: usize) {
    let i = prng.pick(&EVERYWHERE).index(jobs);
    match prng.below(12) {
        0 => twist_rates(prng, plan),
        1 => plan.count = wrong_count(prng, plan.count),
        2 => {
            let byte = prng.pick(&[0, 0x20, 0x7F, 0x80, u8::MAX]);
            plan.jobs[i].name[prng.index(NAME_BYTES)] = byte;
        }
        3 => plan.jobs[i].name = plan.jobs[prng.index(jobs)].name,
        4 => plan.jobs[i].grade = prng.pick(&[2, 3, 0x80, u8::MAX]),
        5 => twist_times_or_size(prng, &mut plan.jobs[i]),
        6 => plan.count = prng.between(1, jobs as u64),
        7 => {
            for job in &mut plan.jobs[..jobs] {
                part_release(prng, job);
            }
        }
        _ => part_release(prng, &mut plan.jobs[i]),
    }
}

/// Another release for a job, a slot earlier or later or anywhere before its deadline.
fn part_release(prng: &mut Prng, job: &mut Job) {
    let latest = job.deadline.saturating_sub(1);
    let anywhere = prng.between(0, u64::from(latest)) as u32;
    let release = match prng.below(4) {
        0 => job.release.saturating_sub(1),
        1 | 2 => job.release.saturating_add(1),
        _ => anywhere,
    };
    job.release = release.min(latest);
}

/// Rubbish in the records from the count on.
fn rubbish(prng: &mut Prng, plan: &mut Plan) {
    let jobs = plan.count.min(MOST_JOBS as u64) as usize;
    for record in &mut plan.jobs[jobs..] {
        *record = rubbish_job(prng);
    }
    // The first of them looks like a job that would change everything.
    if 0 < jobs && jobs < MOST_JOBS {
        plan.jobs[jobs] = plan.jobs[0];
    }
}

/// A table, often longer than needed, now and then too short; it is seldom empty.
fn table(prng: &mut Prng) -> Vec<u32> {
    let length = match prng.below(14) {
        0 => prng.pick(&[0, 1, MOST_INTERVALS, TABLE_PLACES - 1, TABLE_PLACES - 1]),
        1..=6 => TABLE_PLACES,
        7 => TABLE_PLACES + 1,
        _ => AMPLE.table,
    };
    match prng.below(4) {
        0 => vec![0; length],
        1 => vec![prng.pick(&[1, u32::MAX]); length],
        _ => (0..length).map(|_| prng.word() as u32).collect(),
    }
}
