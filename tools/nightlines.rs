//! A night as `runplan` and `try-plan` print it, read back and held to the plan that it is of.

use description::encoding::row_line;
use description::Description;

const HEADING: &str = "slot speed mode grants";
const ENDINGS_HEADING: &str = "job outcome carried";
const NAME_BYTES: usize = 8;

/// A slot that was carried.
pub struct Slot {
    pub clock: u32,
    pub speed: u32,
    /// Whether the slow mark was set after it.
    pub slow: bool,
    /// Positions of jobs, and their units.
    pub grants: Vec<(usize, u32)>,
}

pub struct Ending {
    pub outcome: String,
    pub carried: u32,
}

#[derive(Default)]
pub struct Night {
    pub slots: Vec<Slot>,
    /// The number of each refused speed.
    pub refusals: Vec<u32>,
    /// One for each job, in the plan's order.
    pub endings: Vec<Ending>,
}

fn position(d: &Description, name: &str) -> Result<usize, String> {
    d.jobs.iter().position(|job| job.name == name).ok_or_else(|| format!("no job of the plan has the name `{name}`"))
}

fn strange(line: &str) -> String {
    format!("a line that no night has: {line}")
}

fn number(word: Option<&&str>, line: &str) -> Result<u32, String> {
    word.and_then(|word| word.parse().ok()).ok_or_else(|| strange(line))
}

fn grant(d: &Description, word: &str, line: &str) -> Result<(usize, u32), String> {
    // A name may hold an equals sign itself.
    match (word.get(..NAME_BYTES), word.get(NAME_BYTES..).and_then(|rest| rest.strip_prefix('='))) {
        (Some(name), Some(units)) => Ok((position(d, name)?, number(Some(&units), line)?)),
        _ => Err(strange(line)),
    }
}

fn slot(d: &Description, line: &str, night: &mut Night) -> Result<(), String> {
    let words: Vec<&str> = line.split(' ').collect();
    let (clock, speed) = (number(words.first(), line)?, number(words.get(1), line)?);
    let slow = match words.get(2) {
        Some(&"R") => {
            night.refusals.push(number(words.get(3), line)?);
            return Ok(());
        }
        Some(&"N") => false,
        Some(&"D") => true,
        _ => return Err(strange(line)),
    };
    let grants: Result<Vec<_>, String> = words[3..].iter().filter(|word| **word != "-").map(|word| grant(d, word, line)).collect();
    night.slots.push(Slot { clock, speed, slow, grants: grants? });
    Ok(())
}

fn ending(d: &Description, line: &str, night: &mut Night) -> Result<(), String> {
    let words: Vec<&str> = line.split(' ').collect();
    match words[..] {
        [name, outcome, carried] => {
            if position(d, name)? != night.endings.len() {
                return Err(format!("the jobs do not end in the plan's order: {line}"));
            }
            night.endings.push(Ending { outcome: outcome.to_string(), carried: number(Some(&carried), line)? });
            Ok(())
        }
        _ => Err(strange(line)),
    }
}

// Whether the night can be one of the plan: every name and time is there.
fn fits(d: &Description, night: &Night) -> Result<(), String> {
    let intervals = d.intervals();
    for (at, row) in d.rows.iter().enumerate() {
        position(d, &row.name).map_err(|fault| format!("line {}: {}: {fault}", d.row_lines[at], row_line(row)))?;
        if usize::from(row.interval) >= intervals.len() {
            return Err(format!("line {}: {}: there is no such interval", d.row_lines[at], row_line(row)));
        }
    }
    let (first, last) = match (intervals.first(), intervals.last()) {
        (Some(first), Some(last)) => (first.from, last.to),
        _ => return Err("a plan without intervals has no night".to_string()),
    };
    let in_order = (first..last).zip(&night.slots).all(|(time, slot)| slot.clock == time);
    if !in_order || night.slots.len() > (last - first) as usize || night.endings.len() != d.jobs.len() {
        return Err("the description is not that of this night".to_string());
    }
    Ok(())
}

/// What was printed of a night of this plan.
pub fn night(d: &Description, printed: &str) -> Result<Night, String> {
    if let Some(line) = printed.lines().next().filter(|line| line.starts_with("refused ")) {
        return Err(format!("the plan is {line}; there is no night to draw"));
    }
    let mut lines = printed.lines().skip_while(|line| *line != HEADING);
    lines.next().ok_or("standard input is not what runplan or try-plan prints")?;
    let (mut night, mut ending_lines) = (Night::default(), false);
    for line in lines {
        match line {
            ENDINGS_HEADING => ending_lines = true,
            "stray byte" => {}
            _ if ending_lines => ending(d, line, &mut night)?,
            _ => slot(d, line, &mut night)?,
        }
    }
    fits(d, &night)?;
    Ok(night)
}
