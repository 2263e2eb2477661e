//! The bytes that a description stands for, and the description of such bytes.

use crate::{Description, Job, Row, NAME_BYTES};

pub(crate) const VERSION: u8 = 1;
pub(crate) const JOB_LENGTH: u8 = 21;
pub(crate) const ROW_LENGTH: u8 = 14;
pub(crate) const LO: u8 = 0;
pub(crate) const HI: u8 = 1;
// The bytes that a word of a description can hold.
pub(crate) const LEAST_NAME_BYTE: u8 = 0x21;
pub(crate) const MOST_NAME_BYTE: u8 = 0x7e;

const PLAN_ENDING: &str = ".plan";

/// Whether a file is read as a plan file and not as a text: by its name or its first byte. A text begins with a sign, a space or the end of a
/// line; all other control bytes begin none.
pub fn is_plan_file(path: &str, bytes: &[u8]) -> bool {
    let begins_text = |byte: &u8| !byte.is_ascii_control() || byte.is_ascii_whitespace();
    path.ends_with(PLAN_ENDING) || !bytes.first().map_or(true, begins_text)
}

/// The plan file.
pub fn plan_bytes(d: &Description) -> Vec<u8> {
    let mut body = Vec::new();
    body.extend(d.normal.to_be_bytes());
    body.extend(d.floor.to_be_bytes());
    body.push(d.jobs.len() as u8);
    for job in &d.jobs {
        body.push(JOB_LENGTH);
        body.extend(job.name.bytes());
        body.push(if job.hi { HI } else { LO });
        for number in [job.release, job.size, job.deadline] {
            body.extend(number.to_be_bytes());
        }
    }
    body.extend((d.rows.len() as u16).to_be_bytes());
    for row in &d.rows {
        body.push(ROW_LENGTH);
        body.extend(row.name.bytes());
        body.extend(row.interval.to_be_bytes());
        body.extend(row.units.to_be_bytes());
    }
    let mut file = vec![VERSION];
    file.extend((body.len() as u32).to_be_bytes());
    file.extend(body);
    file
}

/// The speeds, two bytes each.
pub fn speed_bytes(d: &Description) -> Vec<u8> {
    d.speeds.iter().flat_map(|speed| speed.to_be_bytes()).collect()
}

// The bytes of a file, taken from the front.
struct Bytes<'a> {
    all: &'a [u8],
    at: usize,
}

impl Bytes<'_> {
    fn take<const N: usize>(&mut self) -> Result<[u8; N], String> {
        let part = self.all.get(self.at..self.at + N);
        let part = part.ok_or_else(|| format!("the file ends inside a field, at byte {}", self.all.len()))?;
        self.at += N;
        Ok(part.try_into().expect("a part of N bytes"))
    }

    fn expect(&mut self, byte: u8, what: &str) -> Result<(), String> {
        let at = self.at;
        match self.take::<1>()?[0] {
            found if found == byte => Ok(()),
            found => Err(format!("byte {at}: {what} is {found}, not {byte}")),
        }
    }

    fn name(&mut self) -> Result<String, String> {
        let at = self.at;
        let name = self.take::<NAME_BYTES>()?;
        if name.iter().all(|b| (LEAST_NAME_BYTE..=MOST_NAME_BYTE).contains(b)) {
            Ok(name.iter().map(|&b| b as char).collect())
        } else {
            Err(format!("byte {at}: a name that cannot be written down"))
        }
    }

    fn job(&mut self) -> Result<Job, String> {
        self.expect(JOB_LENGTH, "a job's length")?;
        let name = self.name()?;
        let at = self.at;
        let hi = match self.take::<1>()?[0] {
            LO => false,
            HI => true,
            other => return Err(format!("byte {at}: the grade is {other}")),
        };
        let mut number = || self.take().map(u32::from_be_bytes);
        Ok(Job { name, hi, release: number()?, size: number()?, deadline: number()? })
    }

    fn row(&mut self) -> Result<Row, String> {
        self.expect(ROW_LENGTH, "a row's length")?;
        let name = self.name()?;
        let interval = u16::from_be_bytes(self.take()?);
        Ok(Row { name, interval, units: u32::from_be_bytes(self.take()?) })
    }
}

/// What a plan file and speeds say.
pub fn read(file: &[u8], speeds: &[u8]) -> Result<Description, String> {
    let mut bytes = Bytes { all: file, at: 0 };
    bytes.expect(VERSION, "the version")?;
    let length = u32::from_be_bytes(bytes.take()?) as usize;
    if length != file.len() - bytes.at {
        return Err(format!("byte 1: the length says {length}, and {} bytes follow", file.len() - bytes.at));
    }
    let mut d = Description {
        normal: u16::from_be_bytes(bytes.take()?),
        floor: u16::from_be_bytes(bytes.take()?),
        ..Description::default()
    };
    for _ in 0..bytes.take::<1>()?[0] {
        d.jobs.push(bytes.job()?);
    }
    for _ in 0..u16::from_be_bytes(bytes.take()?) {
        d.rows.push(bytes.row()?);
    }
    if bytes.at != file.len() {
        return Err(format!("byte {}: bytes follow the last row", bytes.at));
    }
    if speeds.len() % 2 != 0 {
        return Err("the speeds end with a stray byte".to_string());
    }
    d.speeds = speeds.chunks(2).map(|pair| u16::from_be_bytes([pair[0], pair[1]])).collect();
    Ok(d)
}

/// The line of a job.
pub fn job_line(job: &Job) -> String {
    let grade = if job.hi { "HI" } else { "LO" };
    format!("job {} {grade} {} {} {}", job.name, job.release, job.size, job.deadline)
}

/// The line of a row.
pub fn row_line(row: &Row) -> String {
    format!("row {} {} {}", row.name, row.interval, row.units)
}

/// The text of a description, without comments.
pub fn described(d: &Description) -> String {
    let mut lines = vec![format!("rates {} {}", d.normal, d.floor)];
    lines.extend(d.jobs.iter().map(job_line));
    lines.extend(d.rows.iter().map(row_line));
    if !d.speeds.is_empty() {
        let speeds: Vec<String> = d.speeds.iter().map(u16::to_string).collect();
        lines.push(format!("speeds {}", speeds.join(" ")));
    }
    lines.join("\n") + "\n"
}
