//! A plan in hand: rates, job records, intervals, and the rules that a sound plan keeps.

use crate::edition::{
    HI, LEAST_NAME_BYTE, LEAST_RATE, LEAST_SIZE, LO, MOST_DEADLINE, MOST_INTERVALS, MOST_JOBS,
    MOST_NAME_BYTE, MOST_RATE, MOST_SIZE, NAME_BYTES, TABLE_PLACES,
};

/// One job record. In hand every field may hold any value of its type.
#[derive(Clone, Copy, Debug, PartialEq, Eq)]
pub struct Job {
    pub name: [u8; NAME_BYTES],
    pub grade: u8,
    pub release: u32,
    pub size: u64,
    pub deadline: u32,
}

impl Job {
    pub fn zeros() -> Job {
        Job {
            name: [0; NAME_BYTES],
            grade: LO,
            release: 0,
            size: 0,
            deadline: 0,
        }
    }

    /// Whether the interval lies inside the job's window.
    pub fn covers(&self, interval: &Interval) -> bool {
        self.release <= interval.start && interval.end <= self.deadline
    }
}

/// A plan without its table, which is lent beside it.
#[derive(Clone, Debug, PartialEq, Eq)]
pub struct Plan {
    pub n: u16,
    pub d: u16,
    pub count: u64,
    pub jobs: [Job; MOST_JOBS],
}

impl Plan {
    pub fn zeros() -> Plan {
        Plan {
            n: 0,
            d: 0,
            count: 0,
            jobs: [Job::zeros(); MOST_JOBS],
        }
    }

    /// The records below the count. Asked only where the count is within its bounds.
    pub fn counted(&self) -> &[Job] {
        &self.jobs[..self.count as usize]
    }
}

/// The slots between two neighbouring boundaries.
#[derive(Clone, Copy, Debug, PartialEq, Eq)]
pub struct Interval {
    pub start: u32,
    pub end: u32,
}

impl Interval {
    pub fn length(&self) -> u64 {
        u64::from(self.end - self.start)
    }
}

/// The distinct releases and deadlines, rising.
pub fn boundaries(jobs: &[Job]) -> Vec<u32> {
    let mut times = Vec::new();
    for job in jobs {
        times.push(job.release);
        times.push(job.deadline);
    }
    times.sort_unstable();
    times.dedup();
    times
}

/// The intervals between neighbouring boundaries, from the earliest on.
pub fn intervals(jobs: &[Job]) -> Vec<Interval> {
    let bounds = boundaries(jobs);
    bounds
        .windows(2)
        .map(|pair| Interval {
            start: pair[0],
            end: pair[1],
        })
        .collect()
}

/// The place of the table that belongs to a job and an interval.
pub fn place_of(job: usize, interval: usize) -> usize {
    MOST_INTERVALS * job + interval
}

/// The units that the table gives a job in an interval.
pub fn allotment(table: &[u32], job: usize, interval: usize) -> u64 {
    u64::from(table[place_of(job, interval)])
}

pub fn rates_hold(n: u16, d: u16) -> bool {
    LEAST_RATE <= d && d < n && n <= MOST_RATE
}

pub fn count_holds(count: u64) -> bool {
    (1..=MOST_JOBS as u64).contains(&count)
}

pub fn name_bytes_hold(name: &[u8; NAME_BYTES]) -> bool {
    let allowed = LEAST_NAME_BYTE..=MOST_NAME_BYTE;
    name.iter().all(|byte| allowed.contains(byte))
}

pub fn name_is_new(name: &[u8; NAME_BYTES], earlier: &[Job]) -> bool {
    earlier.iter().all(|job| job.name != *name)
}

pub fn grade_holds(grade: u8) -> bool {
    grade == LO || grade == HI
}

pub fn times_and_size_hold(job: &Job) -> bool {
    let times = job.release < job.deadline && job.deadline <= MOST_DEADLINE;
    let size = LEAST_SIZE <= job.size && job.size <= MOST_SIZE;
    times && size
}

/// Rates, count, grades, times and sizes: what a slot needs of a plan.
pub fn numbers_hold(plan: &Plan) -> bool {
    // The count comes before any record is looked at: it may be any number.
    rates_hold(plan.n, plan.d) && count_holds(plan.count) && grades_and_numbers_hold(plan.counted())
}

/// The grades, times and sizes of all jobs.
pub fn grades_and_numbers_hold(jobs: &[Job]) -> bool {
    jobs.iter()
        .all(|job| grade_holds(job.grade) && times_and_size_hold(job))
}

/// The bytes of all names, and that no name stands twice.
pub fn names_hold(jobs: &[Job]) -> bool {
    (0..jobs.len())
        .all(|i| name_bytes_hold(&jobs[i].name) && name_is_new(&jobs[i].name, &jobs[..i]))
}

/// Whether some place of the plan's table outside its jobs and intervals is not 0.
fn has_stray_place(plan: &Plan, table: &[u32]) -> bool {
    let jobs = plan.counted().len();
    let intervals = intervals(plan.counted()).len();
    (0..TABLE_PLACES).any(|place| {
        let inside = place / MOST_INTERVALS < jobs && place % MOST_INTERVALS < intervals;
        !inside && table[place] != 0
    })
}

/// What writer and judge ask of a plan. The table is long enough when this is asked.
pub fn sound(plan: &Plan, table: &[u32]) -> bool {
    numbers_hold(plan) && names_hold(plan.counted()) && !has_stray_place(plan, table)
}
