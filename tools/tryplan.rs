//! Runs a described plan or a plan file over the archive: the verdict in words with its place, the slack figure, the intervals, and the night
//! as `runplan` prints it.

use description::encoding::{is_plan_file, job_line, plan_bytes, read, row_line};
use description::filefault::{field, sentence, what, Record};
use description::{Description, Interval};
use gateway::{Location, Outcome, Plan, Refusal, Run};
use std::collections::BTreeMap;
use std::fmt::Write as _;
use std::io::Write as _;
use std::process::exit;

const USAGE: &str = "usage: try-plan DESCRIPTION
       try-plan PLANFILE [SPEEDS]";

// What the exit status says.
const RAN: i32 = 0;
const REFUSED: i32 = 1;
const WRONG_USE: i32 = 2;

fn units(many: u64) -> String {
    format!("{many} unit{}", if many == 1 { "" } else { "s" })
}

/// A plan that the reader took, and the description that it came from.
struct Taken<'a> {
    d: &'a Description,
    intervals: Vec<Interval>,
    plan: Plan,
}

impl Taken<'_> {
    fn allotted(&self, job: usize, interval: usize) -> u64 {
        self.plan.allotment(job, interval).unwrap_or_default().into()
    }

    fn job_total(&self, job: usize) -> u64 {
        (0..self.intervals.len()).map(|interval| self.allotted(job, interval)).sum()
    }

    fn used(&self, interval: usize) -> u64 {
        (0..self.d.jobs.len()).map(|job| self.allotted(job, interval)).sum()
    }

    fn room(&self, interval: usize) -> u64 {
        let Interval { from, to } = self.intervals[interval];
        u64::from(self.d.normal) * u64::from(to - from)
    }

    fn floor_room(&self, interval: usize, deadline: u32) -> u64 {
        u64::from(self.d.floor) * u64::from(deadline - self.intervals[interval].from)
    }

    // What the floor rule asks from an interval up to a deadline.
    fn demand(&self, interval: usize, deadline: u32) -> u64 {
        let asks = |job: usize| self.d.jobs[job].hi && self.d.jobs[job].deadline <= deadline;
        let within: Vec<usize> = (interval..self.intervals.len()).filter(|&i| self.intervals[i].to <= deadline).collect();
        (0..self.d.jobs.len()).filter(|&job| asks(job)).map(|job| within.iter().map(|&i| self.allotted(job, i)).sum::<u64>()).sum()
    }

    fn interval_words(&self, interval: usize) -> String {
        let Interval { from, to } = self.intervals[interval];
        format!("interval {interval} (from {from} to {to})")
    }

    fn floor_words(&self, interval: usize, deadline: u32) -> String {
        let (from, carries, asked) = (self.intervals[interval].from, self.floor_room(interval, deadline), self.demand(interval, deadline));
        format!("from {from} to {deadline} the floor carries {}, and HI jobs with deadlines up to {deadline} are allotted {asked}", units(carries))
    }

    // Where a refusal of the judge lies, by name and time.
    fn place_words(&self, location: Location) -> Option<String> {
        match location {
            Location::Nowhere => None,
            Location::JobAndInterval(job, interval) => {
                let (j, has) = (&self.d.jobs[job], units(self.allotted(job, interval)));
                Some(format!("job {} may run from {} to {}, and has {has} in {}", j.name, j.release, j.deadline, self.interval_words(interval)))
            }
            Location::Job(job) => {
                let j = &self.d.jobs[job];
                Some(format!("job {} has a size of {}, and is allotted {}", j.name, units(j.size.into()), self.job_total(job)))
            }
            Location::Interval(interval) => {
                let (room, used) = (self.room(interval), self.used(interval));
                Some(format!("{} has room for {}, and {used} are allotted", self.interval_words(interval), units(room)))
            }
            Location::IntervalAndDeadline(interval, deadline) => {
                Some(format!("{}, deadline {deadline}: {}", self.interval_words(interval), self.floor_words(interval, deadline)))
            }
        }
    }

    fn slack_words(&self) -> Option<String> {
        match self.plan.slack() {
            Ok(Some(slack)) => {
                let pair = format!("{}, deadline {}", self.interval_words(slack.interval), slack.deadline);
                Some(format!("slack {} at {pair}: {}", slack.units, self.floor_words(slack.interval, slack.deadline)))
            }
            Ok(None) => Some("slack: no job is HI, so nothing is asked of the floor".to_string()),
            // Refused before the floor rule, and the verdict says why.
            Err(_) => None,
        }
    }

    fn interval_table(&self) -> String {
        let mut rows = vec![["interval", "from", "to", "room", "used"].map(String::from)];
        for (at, interval) in self.intervals.iter().enumerate() {
            rows.push([at.to_string(), interval.from.to_string(), interval.to.to_string(), self.room(at).to_string(), self.used(at).to_string()]);
        }
        let wide = |column: usize| rows.iter().map(|row| row[column].len()).max().unwrap_or_default();
        let mut table = String::new();
        for row in &rows {
            let cells: Vec<String> = row.iter().enumerate().map(|(column, cell)| format!("{cell:>width$}", width = wide(column))).collect();
            let _ = writeln!(table, "{}", cells.join("  "));
        }
        table
    }
}

/// What was tried, as far as the reader: a plan that it took, or what is said of one that it refused.
enum Reading {
    Taken(Description, Plan),
    Refused(String),
}

fn verdict(refusal: &Refusal, place: Option<String>) -> String {
    let words = format!("refused {}: {}\n", refusal.number(), refusal.words());
    words + &place.map_or(String::new(), |place| format!("  {place}\n"))
}

// The line of a text that the reader refuses, and what is wrong in it. The offset is one in the bytes that the text stands for.
fn line_words(d: &Description, file: &[u8], number: u8, offset: usize) -> String {
    let wrong = what(file, number, offset);
    match field(file, offset).record {
        Record::Job(job) => format!("line {}: {}\n  {wrong}", d.job_lines[job], job_line(&d.jobs[job])),
        Record::Row(row) => format!("line {}: {}\n  {wrong}", d.row_lines[row], row_line(&d.rows[row])),
        Record::Head | Record::End => wrong,
    }
}

fn read_text(text: &[u8]) -> Result<Reading, String> {
    let d = description::parse_bytes(text)?;
    let file = plan_bytes(&d);
    Ok(match Plan::read(&file) {
        Ok(plan) => Reading::Taken(d, plan),
        Err(refusal) => Reading::Refused(verdict(&refusal, refusal.offset().map(|offset| line_words(&d, &file, refusal.number(), offset)))),
    })
}

fn read_file(file: &[u8], speeds: &[u8]) -> Result<Reading, String> {
    Ok(match Plan::read(file) {
        Ok(plan) => Reading::Taken(read(file, speeds)?, plan),
        Err(refusal) => Reading::Refused(verdict(&refusal, refusal.offset().map(|offset| sentence(file, refusal.number(), offset)))),
    })
}

fn slot_line(d: &Description, plan: &Plan, run: &mut Run, speed: u16) -> Result<String, Refusal> {
    let clock = run.clock();
    let grants = run.step(plan, speed)?;
    let granted: Vec<String> = d.jobs.iter().zip(&grants).filter(|(_, &grant)| grant > 0).map(|(job, grant)| format!("{}={grant}", job.name)).collect();
    let mode = if run.is_slow() { 'D' } else { 'N' };
    Ok(format!("{clock} {speed} {mode} {}", if granted.is_empty() { "-".to_string() } else { granted.join(" ") }))
}

fn outcome_word(outcome: Outcome) -> &'static str {
    match outcome {
        Outcome::Met => "met",
        Outcome::Ended => "ended",
        Outcome::Discarded => "discarded",
        Outcome::Missed => "missed",
        Outcome::Open => "open",
    }
}

/// Speeds that were refused by one number.
struct RefusedSpeeds {
    many: usize,
    first: String,
    words: &'static str,
}

// The night, and what was refused in it, by number.
fn night(d: &Description, plan: &Plan, mut run: Run) -> Result<(String, BTreeMap<u8, RefusedSpeeds>), Refusal> {
    let mut printed = String::from("slot speed mode grants\n");
    let mut refused = BTreeMap::new();
    for &speed in &d.speeds {
        let clock = run.clock();
        let line = slot_line(d, plan, &mut run, speed).unwrap_or_else(|refusal| {
            let entry = refused.entry(refusal.number());
            entry.or_insert_with(|| RefusedSpeeds { many: 0, first: format!("{speed} at time {clock}"), words: refusal.words() }).many += 1;
            format!("{clock} {speed} R {}", refusal.number())
        });
        let _ = writeln!(printed, "{line}");
    }
    printed += "job outcome carried\n";
    for (at, job) in d.jobs.iter().enumerate() {
        let outcome = outcome_word(run.outcome(plan, at)?);
        let _ = writeln!(printed, "{} {outcome} {}", job.name, run.carried(at).unwrap_or_default());
    }
    Ok((printed, refused))
}

// What is printed of a plan that the reader took, what is said of refused speeds, and the exit status.
fn tried(d: &Description, plan: Plan) -> (String, String, i32) {
    let taken = Taken { d, intervals: d.intervals(), plan };
    let slack = taken.slack_words().map_or(String::new(), |words| format!("{words}\n"));
    let figures = format!("{slack}\n{}", taken.interval_table());
    let ended = taken.plan.start().and_then(|run| night(d, &taken.plan, run));
    match ended {
        Err(refusal) => (verdict(&refusal, taken.place_words(refusal.location())) + &figures, String::new(), REFUSED),
        Ok((printed, refused)) => {
            let mut said = String::new();
            for (number, RefusedSpeeds { many, first, words }) in &refused {
                let _ = writeln!(said, "try-plan: speeds refused by {number} ({words}): {many}, the first is {first}");
            }
            (format!("accepted\n{figures}\n{printed}"), said, if refused.is_empty() { RAN } else { REFUSED })
        }
    }
}

fn load(path: &str) -> Result<Vec<u8>, String> {
    std::fs::read(path).map_err(|fault| format!("{path}: {fault}"))
}

fn reading(path: &str, speeds: Option<&str>) -> Result<Reading, String> {
    let bytes = load(path)?;
    let read = match (is_plan_file(path, &bytes), speeds) {
        (true, Some(speeds)) => read_file(&bytes, &load(speeds)?),
        (true, None) => read_file(&bytes, &[]),
        (false, Some(_)) => Err("a text has its speeds in it, and no second file is read".to_string()),
        (false, None) => read_text(&bytes),
    };
    read.map_err(|fault| format!("{path}: {fault}"))
}

fn wrong_use(fault: &str) -> ! {
    eprintln!("{fault}");
    exit(WRONG_USE)
}

fn main() {
    let arguments: Vec<String> = std::env::args().skip(1).collect();
    let read = match &arguments[..] {
        [path] => reading(path, None),
        [path, speeds] => reading(path, Some(speeds)),
        _ => wrong_use(USAGE),
    };
    let (printed, said, status) = match read {
        Ok(Reading::Taken(d, plan)) => tried(&d, plan),
        Ok(Reading::Refused(words)) => (words, String::new(), REFUSED),
        Err(fault) => wrong_use(&format!("try-plan: {fault}")),
    };
    if let Err(fault) = std::io::stdout().write_all(printed.as_bytes()) {
        wrong_use(&format!("try-plan: {fault}"));
    }
    eprint!("{said}");
    exit(status);
}
