//! The reader: jobs and rows as chunks of their fixed lengths, so that a whole one needs no tests of length.

use crate::plan::{name_bytes_hold, rates_hold, Job, Names, Plan, HI, MOST_INTERVALS, PLACES};
use crate::refusal;
use crate::times::{distinct, times_of};

const JOB_BYTES: usize = 22;
const ROW_BYTES: usize = 15;
const MOST_ROWS: usize = 2_016;

/// The bytes that are still to be read.
struct Bytes<'a>(&'a [u8]);

impl<'a> Bytes<'a> {
    /// The next field, or the refusal of one that is cut short.
    #[inline(always)]
    fn field<const N: usize>(&mut self) -> Result<[u8; N], u8> {
        if self.0.len() < N {
            return Err(refusal::CUT_OR_LENGTH);
        }
        let (field, rest) = self.0.split_at(N);
        self.0 = rest;
        field.try_into().map_err(|_| refusal::CUT_OR_LENGTH)
    }

    #[inline(always)]
    fn u8(&mut self) -> Result<u8, u8> {
        self.field().map(u8::from_be_bytes)
    }

    #[inline(always)]
    fn u16(&mut self) -> Result<u16, u8> {
        self.field().map(u16::from_be_bytes)
    }

    #[inline(always)]
    fn u32(&mut self) -> Result<u32, u8> {
        self.field().map(u32::from_be_bytes)
    }

    #[inline(always)]
    fn u64(&mut self) -> Result<u64, u8> {
        self.field().map(u64::from_be_bytes)
    }

    /// The next so many bytes, or as many as there are.
    fn part(&mut self, length: usize) -> &'a [u8] {
        let (part, rest) = self.0.split_at(length.min(self.0.len()));
        self.0 = rest;
        part
    }
}

/// Reads a file into a plan and the lent table.
pub fn read(file: &[u8], table: &mut [u32]) -> Result<Plan, u8> {
    let table = table.get_mut(..PLACES).ok_or(refusal::TOO_SHORT)?;
    table.fill(0);
    let plan = read_plan(file, table);
    if plan.is_err() {
        table.fill(0);
    }
    plan
}

fn read_plan(file: &[u8], table: &mut [u32]) -> Result<Plan, u8> {
    let mut plan = Plan::default();
    let mut bytes = Bytes(file);
    read_head(&mut bytes, &mut plan)?;
    read_jobs(&mut bytes, &mut plan)?;
    read_rows(&mut bytes, &plan.jobs[..plan.count], table)?;
    Ok(plan)
}

/// All that stands before the jobs.
fn read_head(bytes: &mut Bytes, plan: &mut Plan) -> Result<(), u8> {
    if bytes.u8() != Ok(1) {
        return Err(refusal::VERSION);
    }
    if bytes.u32()? as usize != bytes.0.len() {
        return Err(refusal::CUT_OR_LENGTH);
    }
    plan.n = bytes.u16()?;
    plan.d = bytes.u16()?;
    if !rates_hold(plan.n, plan.d) {
        return Err(refusal::RATES);
    }
    plan.count = bytes.u8()?.into();
    if !(1..=plan.jobs.len()).contains(&plan.count) {
        return Err(refusal::JOB_COUNT);
    }
    Ok(())
}

fn read_jobs(bytes: &mut Bytes, plan: &mut Plan) -> Result<(), u8> {
    let mut names = Names::default();
    let part = bytes.part(JOB_BYTES * plan.count);
    let whole = part.chunks_exact(JOB_BYTES);
    let cut = whole.remainder();
    for (i, chunk) in whole.enumerate() {
        plan.jobs[i] = read_job(chunk, &plan.jobs[..i], &mut names)?;
    }
    if part.len() < JOB_BYTES * plan.count {
        read_job(cut, &plan.jobs[..part.len() / JOB_BYTES], &mut names)?;
    }
    Ok(())
}

#[inline(always)]
fn read_job(bytes: &[u8], earlier: &[Job], names: &mut Names) -> Result<Job, u8> {
    let mut bytes = Bytes(bytes);
    if usize::from(bytes.u8()?) != JOB_BYTES - 1 {
        return Err(refusal::LENGTH_BYTE);
    }
    let name = bytes.u64()?;
    if !name_bytes_hold(name) {
        return Err(refusal::NAME_BYTE);
    }
    if !names.add(name, earlier) {
        return Err(refusal::NAME_TWICE);
    }
    let grade = bytes.u8()?;
    if grade > HI {
        return Err(refusal::GRADE);
    }
    let job = Job {
        name,
        grade,
        release: bytes.u32()?,
        size: bytes.u32()?.into(),
        deadline: bytes.u32()?,
    };
    if !job.times_and_size_hold() {
        return Err(refusal::TIMES_OR_SIZE);
    }
    Ok(job)
}

fn read_rows(bytes: &mut Bytes, jobs: &[Job], table: &mut [u32]) -> Result<(), u8> {
    let count = usize::from(bytes.u16()?);
    if count > MOST_ROWS {
        return Err(refusal::ROW_COUNT);
    }
    let mut rows = Rows {
        jobs,
        intervals: distinct(times_of(jobs)) - 1,
        table,
        job: 0,
        name: jobs[0].name.to_be_bytes(),
        first_place: 0,
        lowest: 0,
    };
    let part = bytes.part(ROW_BYTES * count);
    let whole = part.chunks_exact(ROW_BYTES);
    let cut = whole.remainder();
    for chunk in whole {
        rows.read(chunk)?;
    }
    if part.len() < ROW_BYTES * count {
        rows.read(cut)?;
    }
    if !bytes.0.is_empty() {
        return Err(refusal::CUT_OR_LENGTH);
    }
    Ok(())
}

/// What a row is read against.
struct Rows<'a> {
    jobs: &'a [Job],
    intervals: usize,
    table: &'a mut [u32],
    /// The job of the row before, its name and its part of the table.
    job: usize,
    name: [u8; 8],
    first_place: usize,
    /// The lowest place that keeps the order of rows.
    lowest: usize,
}

impl Rows<'_> {
    #[inline(always)]
    fn read(&mut self, bytes: &[u8]) -> Result<(), u8> {
        let mut bytes = Bytes(bytes);
        if usize::from(bytes.u8()?) != ROW_BYTES - 1 {
            return Err(refusal::LENGTH_BYTE);
        }
        let name = bytes.field()?;
        if name != self.name {
            self.job = find(self.jobs, self.job, u64::from_be_bytes(name))?;
            self.name = name;
            self.first_place = MOST_INTERVALS * self.job;
        }
        let interval = usize::from(bytes.u16()?);
        if interval >= self.intervals {
            return Err(refusal::NO_SUCH_INTERVAL);
        }
        let units = bytes.u32()?;
        if units == 0 {
            return Err(refusal::NO_UNITS);
        }
        let place = self.first_place + interval;
        if place < self.lowest {
            return Err(refusal::ROW_ORDER);
        }
        self.lowest = place + 1;
        self.table[place] = units;
        Ok(())
    }
}

/// The job of that name, looked for from the job of the row before on, and round to it again.
///
/// Not inlined: most rows name the job of the row before and go past it.
#[inline(never)]
fn find(jobs: &[Job], from: usize, name: u64) -> Result<usize, u8> {
    let is_named = |job: &Job| job.name == name;
    let (before, after) = jobs.split_at(from);
    if let Some(steps) = after.iter().position(is_named) {
        return Ok(from + steps);
    }
    before.iter().position(is_named).ok_or(refusal::NO_SUCH_JOB)
}
