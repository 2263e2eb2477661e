//! The reader of plan files: it takes the fields as they come and answers with the first that is wrong
//! and where it stands.

use crate::edition::{
    HEAD_BYTES, JOB_LENGTH, MOST_ROWS, NAME_BYTES, ROW_LENGTH, TABLE_PLACES, VERSION,
};
use crate::plan::{
    count_holds, grade_holds, intervals, name_bytes_hold, name_is_new, place_of, rates_hold,
    times_and_size_hold, Job, Plan,
};
use crate::refusal;

/// What the reader hands back.
#[derive(Clone, Debug, PartialEq, Eq)]
pub struct Answer {
    /// 0 or the refusal number.
    pub number: u8,
    /// Where the field begins that a refusal 1 to 14 is told of. No other answer has one.
    pub offset: Option<usize>,
    /// All zeros with a refusal.
    pub plan: Plan,
}

/// The first fault of a file, a log or a job list's text: its number, and where the field or the line
/// begins that it is told of. For bytes after the last row this is the first of them.
#[derive(Clone, Copy, Debug, PartialEq, Eq)]
pub struct Fault {
    pub number: u8,
    pub offset: usize,
}

pub fn fault<T>(number: u8, offset: usize) -> Result<T, Fault> {
    Err(Fault { number, offset })
}

/// A file with the place of its next unread byte.
pub(crate) struct Bytes<'a> {
    pub(crate) file: &'a [u8],
    pub(crate) next: usize,
}

impl<'a> Bytes<'a> {
    pub(crate) fn left(&self) -> usize {
        self.file.len() - self.next
    }

    /// The next field of so many bytes, or the fault of a field cut short, which would begin here.
    fn field(&mut self, length: usize) -> Result<&'a [u8], Fault> {
        if self.left() < length {
            return fault(refusal::CUT_OR_LENGTH, self.next);
        }
        let field = &self.file[self.next..self.next + length];
        self.next += length;
        Ok(field)
    }

    /// The next field of so many bytes as a number, highest byte first.
    pub(crate) fn number(&mut self, length: usize) -> Result<u64, Fault> {
        let field = self.field(length)?;
        Ok(field
            .iter()
            .fold(0, |number, &byte| number * 256 + u64::from(byte)))
    }

    fn byte(&mut self) -> Result<u8, Fault> {
        Ok(self.number(1)? as u8)
    }

    fn rate(&mut self) -> Result<u16, Fault> {
        Ok(self.number(2)? as u16)
    }

    fn time(&mut self) -> Result<u32, Fault> {
        Ok(self.number(4)? as u32)
    }

    fn name(&mut self) -> Result<[u8; NAME_BYTES], Fault> {
        let mut name = [0; NAME_BYTES];
        name.copy_from_slice(self.field(NAME_BYTES)?);
        Ok(name)
    }
}

/// One row of a file, its name replaced by the position of the job that has it.
struct Row {
    job: usize,
    interval: usize,
    units: u32,
}

/// All that a file without fault holds.
pub struct Contents {
    pub plan: Plan,
    /// Where in the file each job's name begins.
    pub names_at: Vec<usize>,
    rows: Vec<Row>,
}

/// Reads a file into a plan and the lent table.
pub fn reader(file: &[u8], table: &mut [u32]) -> Answer {
    if table.len() < TABLE_PLACES {
        return Answer {
            number: refusal::TOO_SHORT,
            offset: None,
            plan: Plan::zeros(),
        };
    }
    for place in table[..TABLE_PLACES].iter_mut() {
        *place = 0;
    }
    match contents(file) {
        Ok(contents) => {
            for row in &contents.rows {
                table[place_of(row.job, row.interval)] = row.units;
            }
            Answer {
                number: refusal::DONE,
                offset: None,
                plan: contents.plan,
            }
        }
        Err(fault) => Answer {
            number: fault.number,
            offset: Some(fault.offset),
            plan: Plan::zeros(),
        },
    }
}

/// The contents of a file, or its first fault. Touches no table.
pub fn contents(file: &[u8]) -> Result<Contents, Fault> {
    let mut bytes = Bytes { file, next: 0 };
    let mut plan = Plan::zeros();
    read_head(&mut bytes)?;
    read_rates(&mut bytes, &mut plan)?;
    read_job_count(&mut bytes, &mut plan)?;
    let names_at = read_jobs(&mut bytes, &mut plan)?;
    let rows = read_rows(&mut bytes, plan.counted())?;
    if bytes.left() > 0 {
        return fault(refusal::CUT_OR_LENGTH, bytes.next);
    }
    Ok(Contents {
        plan,
        names_at,
        rows,
    })
}

/// Reads the version and the length field, with which every kind of file begins.
pub(crate) fn read_head(bytes: &mut Bytes) -> Result<(), Fault> {
    // A missing version byte has a number of its own, unlike every other missing field.
    if bytes.file.first() != Some(&VERSION) {
        return fault(refusal::VERSION, 0);
    }
    bytes.next = 1;
    let length_at = bytes.next;
    let length = bytes.number(HEAD_BYTES - 1)?;
    if length != bytes.left() as u64 {
        return fault(refusal::CUT_OR_LENGTH, length_at);
    }
    Ok(())
}

fn read_rates(bytes: &mut Bytes, plan: &mut Plan) -> Result<(), Fault> {
    let n_at = bytes.next;
    plan.n = bytes.rate()?;
    plan.d = bytes.rate()?;
    if !rates_hold(plan.n, plan.d) {
        return fault(refusal::RATES, n_at);
    }
    Ok(())
}

fn read_job_count(bytes: &mut Bytes, plan: &mut Plan) -> Result<(), Fault> {
    let count_at = bytes.next;
    plan.count = bytes.number(1)?;
    if !count_holds(plan.count) {
        return fault(refusal::JOB_COUNT, count_at);
    }
    Ok(())
}

/// Reads all jobs; hands back where their names begin.
fn read_jobs(bytes: &mut Bytes, plan: &mut Plan) -> Result<Vec<usize>, Fault> {
    let mut names_at = Vec::new();
    for position in 0..plan.counted().len() {
        // The name follows the job's length byte.
        names_at.push(bytes.next + 1);
        plan.jobs[position] = read_job(bytes, &plan.jobs[..position])?;
    }
    Ok(names_at)
}

fn read_job(bytes: &mut Bytes, earlier: &[Job]) -> Result<Job, Fault> {
    let mut job = Job::zeros();
    read_length_byte(bytes, JOB_LENGTH)?;
    let name_at = bytes.next;
    job.name = bytes.name()?;
    if !name_bytes_hold(&job.name) {
        return fault(refusal::NAME_BYTE, name_at);
    }
    if !name_is_new(&job.name, earlier) {
        return fault(refusal::NAME_TWICE, name_at);
    }
    let grade_at = bytes.next;
    job.grade = bytes.byte()?;
    if !grade_holds(job.grade) {
        return fault(refusal::GRADE, grade_at);
    }
    let release_at = bytes.next;
    job.release = bytes.time()?;
    job.size = bytes.number(4)?;
    job.deadline = bytes.time()?;
    if !times_and_size_hold(&job) {
        return fault(refusal::TIMES_OR_SIZE, release_at);
    }
    Ok(job)
}

/// Reads the length byte of a job, a row or a reading, which has only one right value.
pub(crate) fn read_length_byte(bytes: &mut Bytes, right: u8) -> Result<(), Fault> {
    let at = bytes.next;
    if bytes.byte()? != right {
        return fault(refusal::LENGTH_BYTE, at);
    }
    Ok(())
}

fn read_rows(bytes: &mut Bytes, jobs: &[Job]) -> Result<Vec<Row>, Fault> {
    let count_at = bytes.next;
    let count = bytes.number(2)?;
    if count > MOST_ROWS {
        return fault(refusal::ROW_COUNT, count_at);
    }
    let intervals = intervals(jobs).len();
    let mut rows: Vec<Row> = Vec::new();
    for _ in 0..count {
        let row_at = bytes.next;
        let row = read_row(bytes, jobs, intervals)?;
        if let Some(before) = rows.last() {
            if (row.job, row.interval) <= (before.job, before.interval) {
                return fault(refusal::ROW_ORDER, row_at);
            }
        }
        rows.push(row);
    }
    Ok(rows)
}

/// Reads one row; its order among the others is not looked at here.
fn read_row(bytes: &mut Bytes, jobs: &[Job], intervals: usize) -> Result<Row, Fault> {
    read_length_byte(bytes, ROW_LENGTH)?;
    let name_at = bytes.next;
    let name = bytes.name()?;
    let job = match jobs.iter().position(|job| job.name == name) {
        Some(position) => position,
        None => return fault(refusal::NO_SUCH_JOB, name_at),
    };
    let interval_at = bytes.next;
    let interval = bytes.number(2)? as usize;
    if interval >= intervals {
        return fault(refusal::NO_SUCH_INTERVAL, interval_at);
    }
    let units_at = bytes.next;
    let units = bytes.number(4)? as u32;
    if units == 0 {
        return fault(refusal::NO_UNITS, units_at);
    }
    Ok(Row {
        job,
        interval,
        units,
    })
}
