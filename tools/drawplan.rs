//! Draws up the timetable of a job list through the archive, and prints it as a description; or it says in words why there is none. The plan file is
//! written too, if a name for it is given.

use description::encoding::{job_line, plan_bytes, row_line};
use description::{filefault, textfault, Description, Row};
use gateway::{import_jobs, refusal, Grade, Job, Plan, Refusal, Shortage};
use std::collections::BTreeMap;
use std::fmt::Write as _;
use std::io::Write as _;
use std::process::exit;

const USAGE: &str = "usage: draw-plan NORMAL FLOOR JOBS [OUT]";

// What the exit status says.
const DRAWN_UP: i32 = 0;
const REFUSED: i32 = 1;
const WRONG_USE: i32 = 2;

fn units(many: u64) -> String {
    format!("{many} unit{}", if many == 1 { "" } else { "s" })
}

fn name(job: &Job) -> String {
    String::from_utf8_lossy(&job.name).into_owned()
}

fn verdict(refusal: &Refusal, words: &str) -> String {
    let indented: String = words.lines().map(|line| format!("  {line}\n")).collect();
    format!("refused {}: {}\n{indented}", refusal.number(), refusal.words())
}

// What is printed of a plan: its rates, its jobs, and the rows that its table has. The jobs were imported, so their sizes fit.
fn described(plan: &Plan) -> Description {
    let mut d = Description::default();
    d.normal = plan.normal_rate();
    d.floor = plan.floor();
    for job in plan.jobs() {
        let (hi, size) = (job.grade == Grade::Hi, job.size as u32);
        d.jobs.push(description::Job { name: name(&job), hi, release: job.release, size, deadline: job.deadline });
    }
    let intervals = d.intervals().len();
    for (at, job) in plan.jobs().enumerate() {
        let row = |interval: usize| Row { name: name(&job), interval: interval as u16, units: plan.allotment(at, interval).unwrap_or_default() };
        d.rows.extend((0..intervals).map(row).filter(|row| row.units > 0));
    }
    d
}

// A timetable as a description, each job with its rows. What the intervals carry stands in comments.
fn timetable(plan: &Plan) -> String {
    let d = described(plan);
    let jobs = format!("{} job{}", d.jobs.len(), if d.jobs.len() == 1 { "" } else { "s" });
    let mut printed = format!("# a timetable of {jobs}, drawn up for a link of {} units in a slot and at least {}\n", d.normal, d.floor);
    for (at, interval) in d.intervals().iter().enumerate() {
        let used: u64 = d.rows.iter().filter(|row| usize::from(row.interval) == at).map(|row| u64::from(row.units)).sum();
        let room = u64::from(d.normal) * u64::from(interval.to - interval.from);
        let _ = writeln!(printed, "# interval {at}, from {} to {}: {used} of {}", interval.from, interval.to, units(room));
    }
    let _ = writeln!(printed, "rates {} {}", d.normal, d.floor);
    for job in &d.jobs {
        let _ = writeln!(printed, "{}", job_line(job));
        for row in d.rows.iter().filter(|row| row.name == job.name) {
            let _ = writeln!(printed, "{}", row_line(row));
        }
    }
    printed
}

// The jobs by release, in the order of their lines.
fn release_words(jobs: &[Job]) -> String {
    let mut named: BTreeMap<u32, Vec<String>> = BTreeMap::new();
    for job in jobs {
        named.entry(job.release).or_default().push(name(job));
    }
    let lines: Vec<String> = named.iter().map(|(release, names)| format!("released at {release}: {}", names.join(", "))).collect();
    lines.join("\n")
}

// The jobs of a grade that are due by a time, each with its size.
fn due_words(jobs: &[Job], grade: Grade, time: u32) -> String {
    let due = jobs.iter().filter(|job| job.grade == grade && job.deadline <= time);
    let sizes: Vec<String> = due.map(|job| format!("{} {}", name(job), job.size)).collect();
    let word = if grade == Grade::Hi { "HI" } else { "LO" };
    format!("{word} jobs due by {time}: {}", sizes.join(", "))
}

// What the link carries up to the two times, part by part.
fn carried_words(plan: &Plan, release: u32, short: &Shortage) -> String {
    let mut parts = Vec::new();
    if short.other > release {
        parts.push(format!("{} in each slot from {release} to {}", plan.normal_rate(), short.other));
    }
    if short.essential > short.other {
        parts.push(format!("its floor, {}, in each slot from {} to {}", plan.floor(), short.other, short.essential));
    }
    parts.join(", and ")
}

// Why there is no timetable. At a time that is the release no job is due.
fn shortage_words(plan: &Plan, jobs: &[Job], short: &Shortage) -> String {
    let release = jobs[0].release;
    let mut words = format!("{} are asked and {} are carried, {} too few\n", units(short.asked), short.carries, short.asked - short.carries);
    for (grade, time) in [(Grade::Hi, short.essential), (Grade::Lo, short.other)] {
        if time > release {
            let _ = writeln!(words, "asked by {}", due_words(jobs, grade, time));
        }
    }
    let _ = writeln!(words, "carried by the link: {}", carried_words(plan, release, short));
    words
}

// What is wrong with the rates: the reader says it of a plan file that has them.
fn rate_words(plan: &Plan) -> String {
    let file = plan_bytes(&described(plan));
    match Plan::read(&file) {
        Ok(_) => String::new(),
        Err(refusal) => filefault::what(&file, refusal.number(), refusal.offset().unwrap_or_default()),
    }
}

// Why nothing was drawn up. The jobs were imported, so of the rules that come before the releases only that of the rates can be broken.
fn refused_words(plan: &Plan, jobs: &[Job], refusal: &Refusal) -> String {
    let words = match (refusal.number(), plan.shortage()) {
        (refusal::RELEASES_DIFFER, _) => release_words(jobs),
        (refusal::NO_TIMETABLE, Ok(Some(short))) => shortage_words(plan, jobs, &short),
        _ => rate_words(plan),
    };
    verdict(refusal, &words)
}

/// A timetable and its plan file, or what is said of jobs that have none.
enum Drawn {
    Up(String, Vec<u8>),
    Refused(String),
}

fn drawn(normal: u16, floor: u16, text: &[u8]) -> Drawn {
    let place = |refusal: &Refusal| refusal.offset().map_or(String::new(), |offset| textfault::sentence(text, refusal.number(), offset));
    let jobs = match import_jobs(text) {
        Ok(jobs) => jobs,
        Err(refusal) => return Drawn::Refused(verdict(&refusal, &place(&refusal))),
    };
    let up = Plan::new(normal, floor, &jobs).and_then(|mut plan| match plan.draw_up() {
        Ok(()) => plan.write().map(|file| Drawn::Up(timetable(&plan), file)),
        Err(refusal) => Ok(Drawn::Refused(refused_words(&plan, &jobs, &refusal))),
    });
    up.unwrap_or_else(|refusal| Drawn::Refused(verdict(&refusal, "")))
}

fn wrong_use(fault: &str) -> ! {
    eprintln!("{fault}");
    exit(WRONG_USE)
}

fn load(path: &str) -> Vec<u8> {
    std::fs::read(path).unwrap_or_else(|fault| wrong_use(&format!("draw-plan: {path}: {fault}")))
}

fn store(path: &str, file: &[u8]) {
    std::fs::write(path, file).unwrap_or_else(|fault| wrong_use(&format!("draw-plan: {path}: {fault}")));
}

fn main() {
    let arguments: Vec<String> = std::env::args().skip(1).collect();
    let (rates, path, out) = match &arguments[..] {
        [normal, floor, path] => ([normal, floor], path, None),
        [normal, floor, path, out] => ([normal, floor], path, Some(out)),
        _ => wrong_use(USAGE),
    };
    let [normal, floor] = rates.map(|word| word.parse().unwrap_or_else(|_| wrong_use(USAGE)));
    let (printed, status) = match drawn(normal, floor, &load(path)) {
        Drawn::Refused(words) => (words, REFUSED),
        Drawn::Up(printed, file) => {
            out.iter().for_each(|out| store(out, &file));
            (printed, DRAWN_UP)
        }
    };
    if let Err(fault) = std::io::stdout().write_all(printed.as_bytes()) {
        wrong_use(&format!("draw-plan: {fault}"));
    }
    exit(status);
}
