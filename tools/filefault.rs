//! Says in words where a plan file is wrong, and what is wrong there.
//!
//! That it is wrong, by which number and at which offset, comes from the reader of the library. Here the offset is turned into a record and a
//! field, and the number into a sentence with the values that the file has.

use crate::encoding::{HI, JOB_LENGTH, LO, ROW_LENGTH, VERSION};
use crate::words::{bounds_words, broken, bytes, grouped, name_byte_words, shown, MOST_DEADLINE, MOST_JOBS, MOST_SIZE};
use crate::{intervals_of, Interval, NAME_BYTES};

// The bounds of the edition that job lists do not have.
const LEAST_FLOOR: u64 = 1;
const MOST_RATE: u64 = 1_000;
const MOST_ROWS: u64 = 2_016;

/// What a field is part of.
#[derive(Clone, Copy, Debug, PartialEq, Eq)]
pub enum Record {
    Head,
    /// A job and a row, counted from 0.
    Job(usize),
    Row(usize),
    /// What follows the last row.
    End,
}

/// A field, its record, where it begins and how many bytes it has.
#[derive(Clone, Copy, Debug, PartialEq, Eq)]
pub struct Field {
    pub record: Record,
    pub name: &'static str,
    pub at: usize,
    pub length: usize,
}

// The fields of each kind of record, with their lengths.
const HEAD: [(&str, usize); 5] = [("version", 1), ("length", 4), ("normal rate", 2), ("floor", 2), ("job count", 1)];
const JOB: [(&str, usize); 6] = [("length byte", 1), ("name", NAME_BYTES), ("grade", 1), ("release", 4), ("size", 4), ("deadline", 4)];
const ROW_COUNT: [(&str, usize); 1] = [("row count", 2)];
const ROW: [(&str, usize); 4] = [("length byte", 1), ("name", NAME_BYTES), ("interval", 2), ("units", 4)];

// Where fields begin: in the file, in a job and in a row.
const NORMAL_RATE_AT: usize = 5;
const FLOOR_AT: usize = 7;
const JOB_COUNT_AT: usize = 9;
const JOBS_AT: usize = 10;
const NAME_IN: usize = 1;
const RELEASE_IN: usize = 10;
const DEADLINE_IN: usize = 18;
const INTERVAL_IN: usize = 9;
const JOB_BYTES: usize = 1 + JOB_LENGTH as usize;
const ROW_BYTES: usize = 1 + ROW_LENGTH as usize;

/// A plan file whose fields may be wrong. Of a field that is cut, the bytes that are there count.
struct File<'a>(&'a [u8]);

impl File<'_> {
    fn number(&self, at: usize, length: usize) -> u64 {
        self.bytes(at, length).fold(0, |number, byte| number << 8 | u64::from(byte))
    }

    fn jobs(&self) -> usize {
        self.number(JOB_COUNT_AT, 1) as usize
    }

    fn row_count_at(&self) -> usize {
        job_at(self.jobs())
    }

    fn rows(&self) -> usize {
        self.number(self.row_count_at(), 2) as usize
    }

    fn bytes(&self, at: usize, length: usize) -> impl Iterator<Item = u8> + '_ {
        self.0.iter().skip(at).take(length).copied()
    }

    fn name(&self, at: usize) -> Vec<u8> {
        self.bytes(at, NAME_BYTES).collect()
    }

    // The first job that has the name that stands here.
    fn job_words(&self, at: usize) -> String {
        let is_named = |job: &usize| self.bytes(job_at(*job) + NAME_IN, NAME_BYTES).eq(self.bytes(at, NAME_BYTES));
        (0..self.jobs()).find(is_named).map_or("no job".to_string(), |job| format!("job {job}"))
    }

    fn intervals(&self) -> Vec<Interval> {
        let ends = [RELEASE_IN, DEADLINE_IN];
        let times = (0..self.jobs()).flat_map(|job| ends.map(|end| self.number(job_at(job) + end, 4) as u32));
        intervals_of(times.collect())
    }

    // All fields that the counts of the file speak of, in their order.
    fn fields(&self) -> Vec<Field> {
        let mut fields = Vec::new();
        add_fields(&mut fields, Record::Head, &HEAD);
        (0..self.jobs()).for_each(|job| add_fields(&mut fields, Record::Job(job), &JOB));
        add_fields(&mut fields, Record::Head, &ROW_COUNT);
        (0..self.rows()).for_each(|row| add_fields(&mut fields, Record::Row(row), &ROW));
        fields
    }
}

fn job_at(job: usize) -> usize {
    JOBS_AT + JOB_BYTES * job
}

fn add_fields(fields: &mut Vec<Field>, record: Record, kinds: &[(&'static str, usize)]) {
    for &(name, length) in kinds {
        let at = fields.last().map_or(0, |field| field.at + field.length);
        fields.push(Field { record, name, at, length });
    }
}

/// The field of a file that a byte belongs to.
pub fn field(file: &[u8], offset: usize) -> Field {
    let fields = File(file).fields();
    let end = Field { record: Record::End, name: "after the last row", at: offset, length: file.len().saturating_sub(offset) };
    fields.into_iter().find(|field| field.at + field.length > offset).unwrap_or(end)
}

/// Where a file is wrong that the reader refuses at this offset, and what is wrong there.
pub fn sentence(file: &[u8], number: u8, offset: usize) -> String {
    let Field { record, name, .. } = field(file, offset);
    let of_record = match record {
        Record::Head | Record::End => String::new(),
        Record::Job(job) => format!("job {job}, "),
        Record::Row(row) => format!("row {row}, "),
    };
    format!("{of_record}{name}, byte {offset}: {}", what(file, number, offset))
}

/// What is wrong at an offset of a file that the reader refuses there by a number from 1 to 14.
pub fn what(file: &[u8], number: u8, offset: usize) -> String {
    let field = field(file, offset);
    let file = File(file);
    let value = grouped(file.number(field.at, field.length));
    match number {
        1 if file.0.is_empty() => format!("the file is empty, and a plan file begins with its version, {VERSION}"),
        1 => format!("the version is {value}, and must be {VERSION}"),
        2 => extent_words(&file, field),
        3 => length_words(field, &value),
        4 => rates_words(&file),
        5 => format!("the job count is {value}, and a plan has 1 to {MOST_JOBS} jobs"),
        6 => name_byte_words(&file.name(field.at)),
        7 => format!("the name is {}, and {} has it already", shown(&file.name(field.at)), file.job_words(field.at)),
        8 => format!("the grade is {value}, and must be {LO} (LO) or {HI} (HI)"),
        9 => numbers_words(&file, field.at),
        10 => format!("the row count is {value}, and a file has at most {} rows", grouped(MOST_ROWS)),
        11 => format!("the name is {}, and no job has it", shown(&file.name(field.at))),
        12 => format!("the interval is {value}, and the plan's last one is {}", file.intervals().len().saturating_sub(1)),
        13 => "the units are 0, and a row allots at least 1".to_string(),
        _ => order_words(&file, field.at),
    }
}

fn extent_words(file: &File, field: Field) -> String {
    let there = file.0.len() - field.at;
    if field.record == Record::End {
        return format!("{} too many: the row count is {}", bytes(there), grouped(file.rows() as u64));
    }
    if there >= field.length {
        let (said, follow) = (file.number(field.at, field.length), there - field.length);
        return format!("the length is {}, and after it the file has {}", grouped(said), bytes(follow));
    }
    let counted = match field.record {
        Record::Job(_) => format!(", and the job count is {}", file.jobs()),
        Record::Row(_) => format!(", and the row count is {}", grouped(file.rows() as u64)),
        Record::Head | Record::End => String::new(),
    };
    match there {
        0 => format!("the file ends before it{counted}"),
        _ => format!("the file ends after {there} of its {} bytes{counted}", field.length),
    }
}

fn length_words(field: Field, value: &str) -> String {
    match field.record {
        Record::Row(_) => format!("the length byte is {value}, and a row has {ROW_LENGTH}"),
        _ => format!("the length byte is {value}, and a job has {JOB_LENGTH}"),
    }
}

fn rates_words(file: &File) -> String {
    let (normal, floor) = (file.number(NORMAL_RATE_AT, 2), file.number(FLOOR_AT, 2));
    let (shown_normal, shown_floor) = (grouped(normal), grouped(floor));
    broken([
        (normal <= MOST_RATE, format!("the normal rate is {shown_normal}, and must be at most {}", grouped(MOST_RATE))),
        (floor >= LEAST_FLOOR, format!("the floor is {shown_floor}, and must be at least {LEAST_FLOOR}")),
        (floor < normal, format!("the floor is {shown_floor} and the normal rate {shown_normal}: the floor must be below the normal rate")),
    ])
}

// Size and deadline follow the release.
fn numbers_words(file: &File, release_at: usize) -> String {
    let [release, size, deadline] = [0, 4, 8].map(|after| file.number(release_at + after, 4));
    let hold = [release < deadline, (1..=MOST_SIZE).contains(&size), deadline <= MOST_DEADLINE];
    bounds_words([release, size, deadline].map(grouped), hold)
}

fn order_words(file: &File, row_at: usize) -> String {
    let told = |at: usize| format!("{}, interval {}", file.job_words(at + NAME_IN), file.number(at + INTERVAL_IN, 2));
    let before = told(row_at.saturating_sub(ROW_BYTES));
    format!("the row is for {}, and the row before it for {before}: rows must rise by job, then by interval", told(row_at))
}
