//! Job lists as comma-separated text (RFC 4180): import and export.

use crate::edition::{HI, LO, MOST_JOBS, NAME_BYTES};
use crate::plan::{
    count_holds, grades_and_numbers_hold, name_bytes_hold, name_is_new, names_hold,
    times_and_size_hold, Job,
};
use crate::reader::{fault, Fault};
use crate::refusal;

/// The first line of every text, together with its end.
pub const HEADER: &[u8] = b"name,grade,release,size,deadline\r\n";
/// What stands after every line.
pub const LINE_END: &[u8] = b"\r\n";
/// Fields of a line: name, grade, release, size, deadline.
pub const FIELDS: usize = 5;
/// The grade of an essential job, as text.
pub const HI_TEXT: &[u8] = b"H";
/// The grade of another job, as text.
pub const LO_TEXT: &[u8] = b"L";

const QUOTE: u8 = b'"';
const COMMA: u8 = b',';
const CR: u8 = b'\r';
const LF: u8 = b'\n';

/// A job list in hand. The count may be any number, and the records from it on are not looked at.
#[derive(Clone, Debug, PartialEq, Eq)]
pub struct JobList {
    pub count: u64,
    pub jobs: [Job; MOST_JOBS],
}

impl JobList {
    /// A list of these jobs, which are at most as many as there are records.
    pub fn of(jobs: &[Job]) -> JobList {
        let mut list = JobList {
            count: jobs.len() as u64,
            jobs: [Job::zeros(); MOST_JOBS],
        };
        list.jobs[..jobs.len()].copy_from_slice(jobs);
        list
    }

    /// The records below the count. Asked only where the count is within its bounds.
    pub fn counted(&self) -> &[Job] {
        &self.jobs[..self.count as usize]
    }
}

/// A field of a line: its value without quotes, and where its first byte stands in the text,
/// which is the opening quote of a quoted one.
struct Field {
    at: usize,
    value: Vec<u8>,
}

/// What a well-formed line says, and where those of its fields begin that a refusal is told of.
struct Line {
    name_at: usize,
    name: [u8; NAME_BYTES],
    grade_at: usize,
    grade: Vec<u8>,
    release_at: usize,
    release: u64,
    size: u64,
    deadline: u64,
}

/// The jobs of a text, or its first fault.
pub fn import(text: &[u8]) -> Result<Vec<Job>, Fault> {
    if !text.starts_with(HEADER) {
        return fault(refusal::HEADER, 0);
    }
    let mut jobs: Vec<Job> = Vec::new();
    let mut start = HEADER.len();
    while start < text.len() {
        // A line too many is not looked at, whatever it holds.
        if jobs.len() == MOST_JOBS {
            return fault(refusal::JOB_COUNT, start);
        }
        let (line, end) = match line_at(text, start) {
            Some(found) => found,
            None => return fault(refusal::LINE, start),
        };
        let job = job_of(&line, &jobs)?;
        jobs.push(job);
        start = end;
    }
    if jobs.is_empty() {
        return fault(refusal::JOB_COUNT, text.len());
    }
    Ok(jobs)
}

/// The job of a well-formed line, by the rules 6 to 9 in their order.
fn job_of(line: &Line, earlier: &[Job]) -> Result<Job, Fault> {
    let mut job = Job::zeros();
    job.name = line.name;
    if !name_bytes_hold(&job.name) {
        return fault(refusal::NAME_BYTE, line.name_at);
    }
    if !name_is_new(&job.name, earlier) {
        return fault(refusal::NAME_TWICE, line.name_at);
    }
    if line.grade == HI_TEXT {
        job.grade = HI;
    } else if line.grade == LO_TEXT {
        job.grade = LO;
    } else {
        return fault(refusal::GRADE, line.grade_at);
    }
    job.release = time(line.release);
    job.size = line.size;
    job.deadline = time(line.deadline);
    if !times_and_size_hold(&job) {
        return fault(refusal::TIMES_OR_SIZE, line.release_at);
    }
    Ok(job)
}

/// A time that is too large for a record becomes the largest one, which no rule allows either.
fn time(number: u64) -> u32 {
    number.min(u64::from(u32::MAX)) as u32
}

/// The well-formed line that begins at a place, and the place after its end.
fn line_at(text: &[u8], start: usize) -> Option<(Line, usize)> {
    let (fields, end) = fields_at(text, start)?;
    if fields.len() != FIELDS {
        return None;
    }
    if fields[0].value.len() != NAME_BYTES {
        return None;
    }
    let mut name = [0; NAME_BYTES];
    name.copy_from_slice(&fields[0].value);
    let line = Line {
        name_at: fields[0].at,
        name,
        grade_at: fields[1].at,
        grade: fields[1].value.clone(),
        release_at: fields[2].at,
        release: decimal(&fields[2].value)?,
        size: decimal(&fields[3].value)?,
        deadline: decimal(&fields[4].value)?,
    };
    Some((line, end))
}

/// The fields of the line that begins at a place, however many, and the place after its end.
fn fields_at(text: &[u8], start: usize) -> Option<(Vec<Field>, usize)> {
    let mut fields = Vec::new();
    let mut at = start;
    loop {
        let (value, after) = field_at(text, at)?;
        fields.push(Field { at, value });
        if text[after..].starts_with(LINE_END) {
            return Some((fields, after + LINE_END.len()));
        }
        if text.get(after) != Some(&COMMA) {
            return None;
        }
        at = after + 1;
    }
}

/// The value of the field that begins at a place, and the place after the field.
fn field_at(text: &[u8], at: usize) -> Option<(Vec<u8>, usize)> {
    if text.get(at) == Some(&QUOTE) {
        quoted_field(text, at + 1)
    } else {
        Some(plain_field(text, at))
    }
}

/// A plain field goes on as long as its bytes are plain. What follows is not looked at here.
fn plain_field(text: &[u8], at: usize) -> (Vec<u8>, usize) {
    let mut value = Vec::new();
    let mut next = at;
    while next < text.len() && is_plain(text[next]) {
        value.push(text[next]);
        next += 1;
    }
    (value, next)
}

/// A quoted field, from the place after its opening quote on. None if the closing quote is missing
/// or a byte may not stand even in quotes.
fn quoted_field(text: &[u8], at: usize) -> Option<(Vec<u8>, usize)> {
    let mut value = Vec::new();
    let mut next = at;
    while next < text.len() {
        let byte = text[next];
        if byte == QUOTE {
            if text.get(next + 1) != Some(&QUOTE) {
                return Some((value, next + 1));
            }
            value.push(QUOTE);
            next += 2;
        } else if is_plain(byte) || byte == COMMA || byte == CR || byte == LF {
            value.push(byte);
            next += 1;
        } else {
            return None;
        }
    }
    None
}

/// Whether a byte may stand in a field without quotes: TEXTDATA of RFC 4180.
fn is_plain(byte: u8) -> bool {
    (0x20..=0x7E).contains(&byte) && byte != QUOTE && byte != COMMA
}

/// The number that a decimal without sign or leading zero says. One too large for 64 bits is the
/// largest of them, which is beyond every bound.
fn decimal(field: &[u8]) -> Option<u64> {
    if field.is_empty() || !field.iter().all(u8::is_ascii_digit) {
        return None;
    }
    if field.len() > 1 && field[0] == b'0' {
        return None;
    }
    let mut number: u64 = 0;
    for digit in field {
        let digit = u64::from(digit - b'0');
        number = number.saturating_mul(10).saturating_add(digit);
    }
    Some(number)
}

/// Writes the text of a list into the lent output; the result is its length or a refusal number.
/// A refusal leaves the output as it was, and the bytes past the text stay.
pub fn export(list: &JobList, output: &mut [u8]) -> Result<usize, u8> {
    let text = text_of(list)?;
    if output.len() < text.len() {
        return Err(refusal::TOO_SHORT);
    }
    output[..text.len()].copy_from_slice(&text);
    Ok(text.len())
}

/// The exact text of a list, or the number of an unsound one.
pub fn text_of(list: &JobList) -> Result<Vec<u8>, u8> {
    if !sound(list) {
        return Err(refusal::UNSOUND);
    }
    let mut text = HEADER.to_vec();
    for job in list.counted() {
        let fields: Vec<Vec<u8>> = values_of(job)
            .iter()
            .map(|value| written_field(value))
            .collect();
        text.extend(fields.join(&COMMA));
        text.extend(LINE_END);
    }
    Ok(text)
}

/// The rules 5 to 9 over a list in hand.
fn sound(list: &JobList) -> bool {
    // The count comes before any record is looked at: it may be any number.
    count_holds(list.count) && names_hold(list.counted()) && grades_and_numbers_hold(list.counted())
}

/// The values of a sound job's fields.
pub fn values_of(job: &Job) -> Vec<Vec<u8>> {
    let grade = if job.grade == HI { HI_TEXT } else { LO_TEXT };
    vec![
        job.name.to_vec(),
        grade.to_vec(),
        job.release.to_string().into_bytes(),
        job.size.to_string().into_bytes(),
        job.deadline.to_string().into_bytes(),
    ]
}

/// A value as a field, quoted only when it must be.
pub fn written_field(value: &[u8]) -> Vec<u8> {
    if value.iter().all(|&byte| is_plain(byte)) {
        value.to_vec()
    } else {
        quoted(value)
    }
}

/// A value between quotes, each quote in it doubled.
pub fn quoted(value: &[u8]) -> Vec<u8> {
    let mut field = vec![QUOTE];
    for &byte in value {
        if byte == QUOTE {
            field.push(QUOTE);
        }
        field.push(byte);
    }
    field.push(QUOTE);
    field
}
