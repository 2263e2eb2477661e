//! A plan and its speeds as readable text: what people write, and what the tools turn into bytes and back. FORM says how it is written.
//!
//! Nothing is judged here, so that refused plans can be written too. Only what has no bytes is an error.

pub mod encoding;
pub mod filefault;
pub mod logfault;
pub mod readings;
pub mod textfault;
mod words;

use std::num::{IntErrorKind, ParseIntError};
use std::str::FromStr;

/// How a description is written, and how a night is printed.
pub const FORM: &str = include_str!("description.txt");

const NAME_BYTES: usize = 8;
// What the file's counts can say.
const MOST_JOBS_IN_A_FILE: usize = u8::MAX as usize;
const MOST_ROWS_IN_A_FILE: usize = u16::MAX as usize;

pub struct Job {
    pub name: String,
    pub hi: bool,
    pub release: u32,
    pub size: u32,
    pub deadline: u32,
}

pub struct Row {
    pub name: String,
    pub interval: u16,
    pub units: u32,
}

#[derive(Default)]
pub struct Description {
    pub normal: u16,
    pub floor: u16,
    pub jobs: Vec<Job>,
    pub rows: Vec<Row>,
    pub speeds: Vec<u16>,
    /// The line of each job and of each row; empty for a description that was made from bytes.
    pub job_lines: Vec<usize>,
    pub row_lines: Vec<usize>,
    rates_line: Option<usize>,
}

/// The time between two neighbouring boundaries.
#[derive(Clone, Copy, Debug, PartialEq, Eq)]
pub struct Interval {
    pub from: u32,
    pub to: u32,
}

impl Description {
    /// The intervals, in the order of time.
    pub fn intervals(&self) -> Vec<Interval> {
        intervals_of(self.jobs.iter().flat_map(|job| [job.release, job.deadline]).collect())
    }
}

// The intervals between releases and deadlines.
fn intervals_of(mut boundaries: Vec<u32>) -> Vec<Interval> {
    boundaries.sort_unstable();
    boundaries.dedup();
    boundaries.windows(2).map(|pair| Interval { from: pair[0], to: pair[1] }).collect()
}

fn number<T: FromStr<Err = ParseIntError>>(field: &str, word: &str) -> Result<T, String> {
    word.parse().map_err(|fault: ParseIntError| match fault.kind() {
        IntErrorKind::PosOverflow => format!("{field}: `{word}` does not fit into the {} bits of its field", 8 * std::mem::size_of::<T>()),
        _ => format!("{field}: `{word}` is not a whole number"),
    })
}

fn name(word: &str) -> Result<String, String> {
    let (bytes, characters) = (word.len(), word.chars().count());
    if bytes == NAME_BYTES {
        Ok(word.to_string())
    } else if characters == NAME_BYTES {
        Err(format!("NAME: `{word}` has eight characters but {bytes} bytes: one outside ASCII takes more than one byte, and a name has eight bytes"))
    } else {
        let s = if bytes == 1 { "" } else { "s" };
        Err(format!("NAME: `{word}` has {bytes} byte{s}, and a name has eight"))
    }
}

fn grade(word: &str) -> Result<bool, String> {
    match word {
        "HI" => Ok(true),
        "LO" => Ok(false),
        _ => Err(format!("GRADE: `{word}` is neither LO nor HI")),
    }
}

// A name may begin with the sign of a comment.
fn begins_comment(at: usize, word: &str, fields: &[&str]) -> bool {
    word.starts_with('#') && !(fields.get(at) == Some(&"NAME") && word.len() == NAME_BYTES)
}

fn no_comment(values: &[&str], fields: &[&str]) -> Result<(), String> {
    match values.iter().enumerate().find(|(at, word)| begins_comment(*at, word, fields)) {
        None => Ok(()),
        Some(_) => Err("a comment follows on the same line: it needs a line of its own".to_string()),
    }
}

// The values of a line that has a fixed number of them.
fn values<'a, const N: usize>(kind: &str, values: &[&'a str], fields: [&str; N]) -> Result<[&'a str; N], String> {
    no_comment(values, &fields)?;
    let form = || format!("expected {kind}{}{}", if kind.is_empty() { "" } else { " " }, fields.join(" "));
    if values.len() < N {
        return Err(format!("{} is missing: {}", fields[values.len()..].join(" "), form()));
    }
    values.try_into().map_err(|_| format!("`{}` is too much: {}", values[N..].join(" "), form()))
}

fn rates(d: &mut Description, at: usize, words: &[&str]) -> Result<(), String> {
    if let Some(first) = d.rates_line {
        return Err(format!("a second rates line: the first is line {first}"));
    }
    let [normal, floor] = values("rates", words, ["NORMAL", "FLOOR"])?;
    d.normal = number("NORMAL", normal)?;
    d.floor = number("FLOOR", floor)?;
    d.rates_line = Some(at);
    Ok(())
}

fn job(d: &mut Description, at: usize, words: &[&str]) -> Result<(), String> {
    let [n, g, release, size, deadline] = values("job", words, ["NAME", "GRADE", "RELEASE", "SIZE", "DEADLINE"])?;
    d.jobs.push(Job {
        name: name(n)?,
        hi: grade(g)?,
        release: number("RELEASE", release)?,
        size: number("SIZE", size)?,
        deadline: number("DEADLINE", deadline)?,
    });
    d.job_lines.push(at);
    Ok(())
}

fn row(d: &mut Description, at: usize, words: &[&str]) -> Result<(), String> {
    let [n, interval, units] = values("row", words, ["NAME", "INTERVAL", "UNITS"])?;
    d.rows.push(Row { name: name(n)?, interval: number("INTERVAL", interval)?, units: number("UNITS", units)? });
    d.row_lines.push(at);
    Ok(())
}

fn speeds(d: &mut Description, words: &[&str]) -> Result<(), String> {
    no_comment(words, &[])?;
    if words.is_empty() {
        return Err("SPEED is missing: expected speeds SPEED SPEED ..".to_string());
    }
    for speed in words {
        d.speeds.push(number("SPEED", speed)?);
    }
    Ok(())
}

fn line(d: &mut Description, at: usize, content: &str) -> Result<(), String> {
    let words: Vec<&str> = content.split_whitespace().collect();
    match words.split_first() {
        None => Ok(()),
        Some((kind, _)) if kind.starts_with('#') => Ok(()),
        Some((&"rates", rest)) => rates(d, at, rest),
        Some((&"job", rest)) => job(d, at, rest),
        Some((&"row", rest)) => row(d, at, rest),
        Some((&"speeds", rest)) => speeds(d, rest),
        Some((kind, _)) => Err(format!("`{kind}` is none of rates, job, row and speeds")),
    }
}

fn no_mark(text: &str) -> Result<(), String> {
    if text.starts_with('\u{feff}') {
        return Err("line 1: the text begins with a byte order mark: save it as UTF-8 without one".to_string());
    }
    Ok(())
}

pub fn parse(text: &str) -> Result<Description, String> {
    no_mark(text)?;
    let mut d = Description::default();
    for (at, content) in text.lines().enumerate() {
        line(&mut d, at + 1, content).map_err(|fault| format!("line {}: {fault}", at + 1))?;
    }
    if d.rates_line.is_none() {
        return Err("there is no rates line: expected rates NORMAL FLOOR".to_string());
    }
    if d.jobs.len() > MOST_JOBS_IN_A_FILE || d.rows.len() > MOST_ROWS_IN_A_FILE {
        return Err(format!("more jobs or rows than a file can count: {MOST_JOBS_IN_A_FILE} and {MOST_ROWS_IN_A_FILE}"));
    }
    Ok(d)
}

/// Reads a description from a file.
pub fn load(path: &str) -> Result<Description, String> {
    let bytes = std::fs::read(path).map_err(|fault| format!("{path}: {fault}"))?;
    parse_bytes(&bytes).map_err(|fault| format!("{path}: {fault}"))
}

// The text that bytes are.
fn text_of(bytes: &[u8]) -> Result<&str, String> {
    if bytes.starts_with(&[0xff, 0xfe]) || bytes.starts_with(&[0xfe, 0xff]) {
        return Err("line 1: the text begins with a byte order mark of UTF-16: save it as UTF-8 without one".to_string());
    }
    std::str::from_utf8(bytes).map_err(|_| "not a text in UTF-8".to_string())
}

/// Reads a description from the bytes of a text.
pub fn parse_bytes(bytes: &[u8]) -> Result<Description, String> {
    parse(text_of(bytes)?)
}

#[cfg(test)]
mod tests {
    use super::*;

    fn fault(text: &str) -> String {
        parse(text).err().unwrap_or_default()
    }

    fn fault_after_rates(line: &str) -> String {
        fault(&format!("rates 2 1\n{line}\n"))
    }

    #[test]
    fn every_line_is_read() {
        let d = parse("# words\n\nrates 2 1\r\n  job Mirror-A LO 0 6 5\njob #irror-A HI 1 8 10\nrow Mirror-A 0 2\nspeeds 2 2\nspeeds 1").unwrap_or_default();
        assert_eq!((d.normal, d.floor, d.jobs.len(), d.rows.len()), (2, 1, 2, 1));
        assert_eq!((d.job_lines, d.row_lines), (vec![4, 5], vec![6]));
        assert_eq!(d.speeds, [2, 2, 1]);
    }

    #[test]
    fn intervals_lie_between_neighbours() {
        let d = parse("rates 2 1\njob Mirror-A LO 0 6 5\njob mirror-A HI 1 8 10\njob mirror-B HI 1 8 10").unwrap_or_default();
        let ends: Vec<(u32, u32)> = d.intervals().iter().map(|interval| (interval.from, interval.to)).collect();
        assert_eq!(ends, [(0, 1), (1, 5), (5, 10)]);
    }

    #[test]
    fn a_name_has_eight_bytes() {
        assert_eq!(fault_after_rates("row mirror 0 2"), "line 2: NAME: `mirror` has 6 bytes, and a name has eight");
        assert!(fault_after_rates("row spiegl-\u{e4} 0 2").starts_with("line 2: NAME: `spiegl-\u{e4}` has eight characters but 9 bytes"));
        // It has bytes, so it is for the reader to refuse.
        assert_eq!(fault_after_rates("row spieg-\u{e4} 0 2"), "");
    }

    #[test]
    fn a_missing_value_is_named() {
        assert_eq!(fault("rates 2"), "line 1: FLOOR is missing: expected rates NORMAL FLOOR");
        assert_eq!(fault_after_rates("job mirror-A HI 1"), "line 2: SIZE DEADLINE is missing: expected job NAME GRADE RELEASE SIZE DEADLINE");
        assert_eq!(fault_after_rates("speeds"), "line 2: SPEED is missing: expected speeds SPEED SPEED ..");
        assert_eq!(fault("# nothing\n"), "there is no rates line: expected rates NORMAL FLOOR");
    }

    #[test]
    fn a_value_too_many_is_named() {
        assert_eq!(fault_after_rates("row mirror-A 1 4 7"), "line 2: `7` is too much: expected row NAME INTERVAL UNITS");
    }

    #[test]
    fn a_comment_needs_its_own_line() {
        let words = "line 2: a comment follows on the same line: it needs a line of its own";
        for line in ["row mirror-A 1 4 # four", "row mirror-A 1 # four", "speeds 2 2 #2", "job # later", "job mirror-A HI 1 8 10 #late"] {
            assert_eq!(fault_after_rates(line), words);
        }
    }

    #[test]
    fn rates_come_once() {
        assert_eq!(fault("# words\nrates 2 1\nrates 2 1"), "line 3: a second rates line: the first is line 2");
    }

    #[test]
    fn a_byte_order_mark_is_told() {
        assert!(fault("\u{feff}rates 2 1").starts_with("line 1: the text begins with a byte order mark"));
    }

    #[test]
    fn a_word_that_is_no_value_is_told() {
        assert_eq!(fault("Rates 2 1"), "line 1: `Rates` is none of rates, job, row and speeds");
        assert_eq!(fault("rates two 1"), "line 1: NORMAL: `two` is not a whole number");
        assert_eq!(fault("rates 70000 1"), "line 1: NORMAL: `70000` does not fit into the 16 bits of its field");
        assert_eq!(fault_after_rates("job mirror-A hi 1 8 10"), "line 2: GRADE: `hi` is neither LO nor HI");
    }
}
