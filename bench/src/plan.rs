//! Plans and runs in hand, and the tests of rules 4 to 9 that several calls share.

pub const MOST_JOBS: usize = 32;
/// Also the width of one job's part of the table.
pub const MOST_INTERVALS: usize = 63;
/// Places of the table that belong to the plan.
pub const PLACES: usize = MOST_JOBS * MOST_INTERVALS;
/// Speeds of one shift.
pub const MOST_SPEEDS: usize = 256;

pub const LO: u8 = 0;
pub const HI: u8 = 1;

const MOST_RATE: u16 = 1_000;
const MOST_SIZE: u64 = 100_000_000;
const MOST_DEADLINE: u32 = 100_000;

/// One job; the name is its eight bytes, highest first.
#[derive(Clone, Copy, Debug, Default, PartialEq, Eq)]
pub struct Job {
    pub name: u64,
    pub grade: u8,
    pub release: u32,
    pub size: u64,
    pub deadline: u32,
}

#[derive(Clone, Copy, Debug, Default, PartialEq, Eq)]
pub struct Plan {
    pub n: u16,
    pub d: u16,
    pub count: usize,
    pub jobs: [Job; MOST_JOBS],
}

#[derive(Clone, Copy, Debug, Default, PartialEq, Eq)]
pub struct Run {
    pub clock: u32,
    pub slow: bool,
    pub below_floor: bool,
    pub carried: [u32; MOST_JOBS],
    pub ended: [bool; MOST_JOBS],
}

impl Job {
    /// Rule 9.
    #[inline]
    pub(crate) fn times_and_size_hold(&self) -> bool {
        self.release < self.deadline
            && self.deadline <= MOST_DEADLINE
            && (1..=MOST_SIZE).contains(&self.size)
    }

    /// Rules 8 and 9.
    #[inline]
    pub(crate) fn numbers_hold(&self) -> bool {
        self.grade <= HI && self.times_and_size_hold()
    }
}

impl Plan {
    /// The records below the count, if rules 4 and 5 hold.
    #[inline]
    pub(crate) fn counted(&self) -> Option<&[Job]> {
        if !rates_hold(self.n, self.d) || self.count == 0 {
            return None;
        }
        self.jobs.get(..self.count)
    }

    /// The records below the count, if rules 4 to 9 hold.
    pub(crate) fn sound_jobs(&self) -> Option<&[Job]> {
        let jobs = self.counted()?;
        let mut names = Names::default();
        let sound = |(i, job): (usize, &Job)| {
            job.numbers_hold() && name_bytes_hold(job.name) && names.add(job.name, &jobs[..i])
        };
        jobs.iter().enumerate().all(sound).then_some(jobs)
    }
}

/// Rule 4.
#[inline]
pub(crate) fn rates_hold(n: u16, d: u16) -> bool {
    1 <= d && d < n && n <= MOST_RATE
}

/// Rule 6: all eight bytes at once, by the highest bit of each.
#[inline]
pub(crate) fn name_bytes_hold(name: u64) -> bool {
    const ONES: u64 = 0x0101_0101_0101_0101;
    const TOPS: u64 = 0x80 * ONES;
    let above = name | name.wrapping_add(ONES);
    let not_below = (name | TOPS) - 0x21 * ONES;
    (above | !not_below) & TOPS == 0
}

/// Names met so far. A clear mark shows that a name is new; a set one that it has to be looked for.
#[derive(Default)]
pub(crate) struct Names {
    marks: [u64; 8],
}

impl Names {
    /// Marks a name; whether it is none of the earlier ones (rule 7).
    #[inline]
    pub(crate) fn add(&mut self, name: u64, earlier: &[Job]) -> bool {
        let hash = name.wrapping_mul(0x9E37_79B9_7F4A_7C15) >> 55;
        let word = &mut self.marks[hash as usize / 64];
        let mark = 1 << (hash % 64);
        let is_clear = *word & mark == 0;
        *word |= mark;
        is_clear || earlier.iter().all(|job| job.name != name)
    }
}
