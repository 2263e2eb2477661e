//! The judge: each rule in one pass; its place is looked for only once a rule is broken.

use crate::bits::{or_of, Bits};
use crate::plan::{Job, Plan, MOST_INTERVALS, PLACES};
use crate::refusal;
use crate::times::Layout;

/// Columns that are added in one go: as many sums as registers hold.
const BLOCK: usize = 16;

/// What the judge says of a plan.
#[derive(Clone, Copy, Debug, PartialEq, Eq)]
pub enum Verdict {
    Accepted,
    Refused(Fault),
}

/// A refusal with its place.
#[derive(Clone, Copy, Debug, PartialEq, Eq)]
pub enum Fault {
    TooShort,
    Unsound,
    OutsideWindow { job: usize, interval: usize },
    NotTheSize { job: usize },
    AboveRate { interval: usize },
    FloorRule { interval: usize, deadline: u32 },
}

impl Fault {
    pub fn number(&self) -> u8 {
        match self {
            Fault::TooShort => refusal::TOO_SHORT,
            Fault::Unsound => refusal::UNSOUND,
            Fault::OutsideWindow { .. } => refusal::OUTSIDE_WINDOW,
            Fault::NotTheSize { .. } => refusal::NOT_THE_SIZE,
            Fault::AboveRate { .. } => refusal::ABOVE_RATE,
            Fault::FloorRule { .. } => refusal::FLOOR_RULE,
        }
    }
}

/// Accepts a plan or names its first fault.
pub fn judge(plan: &Plan, table: &[u32]) -> Verdict {
    match Judged::new(plan, table).and_then(|judged| judged.floor_rule()) {
        Ok(()) => Verdict::Accepted,
        Err(fault) => Verdict::Refused(fault),
    }
}

/// A plan that keeps every rule but perhaps the floor rule.
pub(crate) struct Judged<'a> {
    table: &'a [u32],
    layout: Layout,
    d: i32,
}

impl<'a> Judged<'a> {
    pub(crate) fn new(plan: &Plan, table: &'a [u32]) -> Result<Judged<'a>, Fault> {
        let table = table.get(..PLACES).ok_or(Fault::TooShort)?;
        let jobs = plan.sound_jobs().ok_or(Fault::Unsound)?;
        let layout = Layout::new(jobs);
        if any_outside(table, jobs.len(), &layout) {
            return Err(outside_fault(table, jobs.len(), &layout));
        }
        let mut columns = [0; MOST_INTERVALS];
        let bits = add_columns(&mut columns, layout.times().len() - 1, table, jobs.len());
        size_rule(table, jobs, bits)?;
        rate_rule(&columns, plan.n.into(), layout.times())?;
        Ok(Judged {
            table,
            layout,
            d: plan.d.into(),
        })
    }

    /// No slack is below 0, of all pairs of an interval and an HI deadline.
    fn floor_rule(&self) -> Result<(), Fault> {
        let mut spare = self.floor_units();
        let mut lowest = MOST_INTERVALS;
        for job in self.layout.essential() {
            let (first, end) = self.take_row(&mut spare, job);
            // Before the first HI release slack only grows towards earlier intervals.
            lowest = lowest.min(first);
            let mut signs = 0;
            each_sum(&spare[lowest..end], |slack| signs |= slack);
            if signs < 0 {
                return Err(self.floor_fault());
            }
        }
        Ok(())
    }

    /// What the floor rate moves in each interval.
    pub(crate) fn floor_units(&self) -> [i32; MOST_INTERVALS] {
        let mut units = [0; MOST_INTERVALS];
        for (units, pair) in units.iter_mut().zip(self.layout.times().windows(2)) {
            *units = self.d * (pair[1] - pair[0]) as i32;
        }
        units
    }

    /// Takes a job's allotments away from what is spare; the answer is its window.
    ///
    /// By the rate rule all sums of allotments and of rate times slots stay within 100,000,000.
    #[inline]
    pub(crate) fn take_row(&self, spare: &mut [i32; MOST_INTERVALS], job: usize) -> (usize, usize) {
        let (first, end) = self.layout.window(job);
        let row = &self.table[MOST_INTERVALS * job..][first..end];
        for (spare, &units) in spare[first..end].iter_mut().zip(row) {
            *spare -= units as i32;
        }
        (first, end)
    }

    pub(crate) fn essential(&self) -> impl Iterator<Item = usize> + '_ {
        self.layout.essential()
    }

    pub(crate) fn time(&self, boundary: usize) -> u32 {
        self.layout.times()[boundary]
    }

    /// The first place of a broken floor rule: the lower interval, then the lower deadline.
    #[cold]
    fn floor_fault(&self) -> Fault {
        let mut spare = self.floor_units();
        let mut found = (MOST_INTERVALS, 0);
        for job in self.layout.essential() {
            let (_, end) = self.take_row(&mut spare, job);
            let mut slack = 0;
            for interval in (0..end).rev() {
                slack += spare[interval];
                if slack < 0 && interval < found.0 {
                    found = (interval, self.time(end));
                }
            }
        }
        Fault::FloorRule {
            interval: found.0,
            deadline: found.1,
        }
    }
}

/// Hands over the sum from each place to the end, the last place first.
#[inline(always)]
pub(crate) fn each_sum(spare: &[i32], mut take: impl FnMut(i32)) {
    let mut sum = 0;
    let mut add = |units: &i32| {
        sum += units;
        take(sum);
    };
    // Chunks of a fixed length need no test between their places.
    let chunks = spare.rchunks_exact(8);
    let first = chunks.remainder();
    chunks.for_each(|chunk| chunk.iter().rev().for_each(&mut add));
    first.iter().rev().for_each(add);
}

/// Whether a place outside all windows is not 0, be it stray or not.
///
/// What lies between a window and the next job's window is one part of the table.
fn any_outside(table: &[u32], jobs: usize, layout: &Layout) -> bool {
    let mut bits = Bits::default();
    let mut from = 0;
    for job in 0..jobs {
        let (first, end) = layout.window(job);
        bits.add(&table[from..MOST_INTERVALS * job + first]);
        from = MOST_INTERVALS * job + end;
    }
    bits.add(&table[from..]);
    bits.any()
}

/// A stray place if there is one, else the first allotment outside its job's window.
#[cold]
fn outside_fault(table: &[u32], jobs: usize, layout: &Layout) -> Fault {
    let intervals = layout.times().len() - 1;
    let mut found = None;
    for (place, _) in table.iter().enumerate().filter(|(_, &units)| units != 0) {
        let (job, interval) = (place / MOST_INTERVALS, place % MOST_INTERVALS);
        if job >= jobs || interval >= intervals {
            return Fault::Unsound;
        }
        let (first, end) = layout.window(job);
        if !(first..end).contains(&interval) {
            found.get_or_insert(Fault::OutsideWindow { job, interval });
        }
    }
    found.unwrap_or(Fault::Unsound)
}

/// Adds each column; the answer is all allotments joined by `or`.
///
/// The sums fit 32 bits once every row sums to its size, 32 times 100,000,000 at most.
/// Not inlined: the sums of a block then stay in registers.
#[inline(never)]
fn add_columns(
    columns: &mut [u32; MOST_INTERVALS],
    intervals: usize,
    table: &[u32],
    jobs: usize,
) -> u32 {
    let mut bits = 0;
    for first in (0..intervals).step_by(BLOCK) {
        // The last block begins early, so that all are of one length.
        let first = first.min(MOST_INTERVALS - BLOCK);
        let (mut sums, mut ors) = ([0_u32; BLOCK], [0; BLOCK]);
        for row in table.chunks_exact(MOST_INTERVALS).take(jobs) {
            for (i, &units) in row[first..first + BLOCK].iter().enumerate() {
                sums[i] = sums[i].wrapping_add(units);
                ors[i] |= units;
            }
        }
        columns[first..first + BLOCK].copy_from_slice(&sums);
        bits |= or_of(&ors);
    }
    bits
}

/// Each row sums to its job's size. Whole rows are added, since nothing stands outside the windows.
fn size_rule(table: &[u32], jobs: &[Job], bits: u32) -> Result<(), Fault> {
    let mut rows = jobs.iter().zip(table.chunks_exact(MOST_INTERVALS));
    // 63 numbers below 2^26 do not overflow the quick sum.
    let wrong = if bits < 1 << 26 {
        rows.position(|(job, row)| u64::from(row.iter().sum::<u32>()) != job.size)
    } else {
        rows.position(|(job, row)| {
            row.iter().map(|&units| u64::from(units)).sum::<u64>() != job.size
        })
    };
    match wrong {
        Some(job) => Err(Fault::NotTheSize { job }),
        None => Ok(()),
    }
}

fn rate_rule(columns: &[u32], n: u32, times: &[u32]) -> Result<(), Fault> {
    let mut pairs = columns.iter().zip(times.windows(2));
    match pairs.position(|(&column, pair)| column > n * (pair[1] - pair[0])) {
        Some(interval) => Err(Fault::AboveRate { interval }),
        None => Ok(()),
    }
}
