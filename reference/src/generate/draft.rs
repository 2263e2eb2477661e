//! A plan in the making: its records and table, its file, and where each field of the file stands.

use super::input::Lent;
use crate::edition::{HI, LARGEST_FILE, LO, MOST_DEADLINE, MOST_JOBS, NAME_BYTES, TABLE_PLACES};
use crate::plan::{boundaries, intervals, place_of, Interval, Job, Plan};
use crate::run::Run;
use crate::writer::writer;

/// Where the fields of a file stand, and how long its parts are.
pub const LENGTH_AT: usize = 1;
pub const RATES_AT: usize = 5;
pub const JOB_COUNT_AT: usize = 9;
const JOBS_AT: usize = 10;
const JOB_BYTES: usize = 22;
pub const ROW_BYTES: usize = 15;

/// Where the fields of a job stand, counted from its length byte.
pub const NAME_IN: usize = 1;
pub const GRADE_IN: usize = 9;
pub const RELEASE_IN: usize = 10;
pub const SIZE_IN: usize = 14;
pub const DEADLINE_IN: usize = 18;
/// Where the fields of a row stand, counted from its length byte.
pub const INTERVAL_IN: usize = 9;
pub const UNITS_IN: usize = 11;

/// Lent lengths that are long enough for every plan, with places to spare.
pub const AMPLE: Lent = Lent {
    table: TABLE_PLACES + 24,
    output: LARGEST_FILE + 44,
    grants: MOST_JOBS + 8,
};

/// How large a drawn plan may be, and the buffers lent with it.
#[derive(Clone, Copy, Debug)]
pub struct Limits {
    pub jobs: usize,
    /// Slots from the first release to the last deadline.
    pub slots: u32,
    pub lent: Lent,
}

/// All that the rules allow.
pub const ANY: Limits = Limits {
    jobs: MOST_JOBS,
    slots: MOST_DEADLINE,
    lent: AMPLE,
};

/// Plans on which much happens in little time. Three slots are left for speeds after the last deadline.
pub const SMALL: Limits = Limits {
    jobs: 6,
    slots: 27,
    lent: Lent {
        table: AMPLE.table,
        output: 1_200,
        grants: 8,
    },
};

/// First, middle or last among the jobs, rows or intervals.
#[derive(Clone, Copy, Debug, PartialEq, Eq)]
pub enum Where {
    First,
    Middle,
    Last,
}

pub const EVERYWHERE: [Where; 3] = [Where::First, Where::Middle, Where::Last];

impl Where {
    /// The index meant in a list of this length, which is not 0.
    pub fn index(self, length: usize) -> usize {
        match self {
            Where::First => 0,
            Where::Middle => length / 2,
            Where::Last => length - 1,
        }
    }
}

/// A plan with its table, not yet a file.
#[derive(Clone, Debug)]
pub struct Draft {
    pub plan: Plan,
    pub table: Vec<u32>,
}

impl Draft {
    pub fn new(n: u16, d: u16, jobs: &[Job]) -> Draft {
        let mut plan = Plan {
            n,
            d,
            count: jobs.len() as u64,
            ..Plan::zeros()
        };
        plan.jobs[..jobs.len()].copy_from_slice(jobs);
        Draft {
            plan,
            table: vec![0; TABLE_PLACES],
        }
    }

    /// Gives each job the allotments of its row, from interval 0 on.
    pub fn with_rows(mut self, rows: &[&[u32]]) -> Draft {
        for (i, row) in rows.iter().enumerate() {
            for (j, &units) in row.iter().enumerate() {
                self.table[place_of(i, j)] = units;
            }
        }
        self
    }

    pub fn jobs(&self) -> usize {
        self.plan.counted().len()
    }

    pub fn intervals(&self) -> Vec<Interval> {
        intervals(self.plan.counted())
    }

    pub fn boundaries(&self) -> Vec<u32> {
        boundaries(self.plan.counted())
    }

    /// A run at its beginning.
    pub fn run(&self) -> Run {
        Run {
            clock: self.boundaries()[0],
            slow: false,
            below_floor: false,
            carried: [0; MOST_JOBS],
            ended: [false; MOST_JOBS],
        }
    }

    /// The file of a draft that keeps the rules of names and numbers.
    pub fn file(&self) -> Vec<u8> {
        let mut output = vec![0; LARGEST_FILE];
        let length = writer(&self.plan, &self.table, &mut output).expect("a sound draft");
        output.truncate(length);
        output
    }

    /// How many rows the file has.
    pub fn rows(&self) -> usize {
        self.table.iter().filter(|&&units| units != 0).count()
    }
}

pub fn job(name: &[u8; NAME_BYTES], grade: u8, release: u32, size: u64, deadline: u32) -> Job {
    Job {
        name: *name,
        grade,
        release,
        size,
        deadline,
    }
}

/// Where the length byte of a job stands.
pub fn job_at(position: usize) -> usize {
    JOBS_AT + JOB_BYTES * position
}

pub fn row_count_at(jobs: usize) -> usize {
    job_at(jobs)
}

/// Where the length byte of a row stands.
pub fn row_at(jobs: usize, row: usize) -> usize {
    row_count_at(jobs) + 2 + ROW_BYTES * row
}

/// Makes the length field agree with the bytes, if there is one.
pub fn seal(file: &mut [u8]) {
    if file.len() >= RATES_AT {
        let length = (file.len() - RATES_AT) as u32;
        patch(file, LENGTH_AT, &length.to_be_bytes());
    }
}

/// Replaces bytes, as far as the file reaches.
pub fn patch(file: &mut [u8], at: usize, bytes: &[u8]) {
    for (offset, &byte) in bytes.iter().enumerate() {
        if let Some(place) = file.get_mut(at + offset) {
            *place = byte;
        }
    }
}

/// The first plan to try: two names that differ in case alone.
pub fn plan_e() -> Draft {
    plan_e_with(&[2, 4, 0], &[0, 4, 4])
}

/// The same jobs with other allotments.
pub fn plan_e_with(first: &[u32], second: &[u32]) -> Draft {
    let lo = job(b"Mirror-A", LO, 0, 6, 5);
    let hi = job(b"mirror-A", HI, 1, 8, 10);
    Draft::new(2, 1, &[lo, hi]).with_rows(&[first, second])
}

/// The most jobs and intervals there can be: no two ends of windows coincide.
pub fn widest_windows() -> Vec<(u32, u32)> {
    (0..MOST_JOBS as u32).map(|i| (i, 63 - i)).collect()
}
