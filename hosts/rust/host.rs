//! A small host in Rust: reads a plan file and then speeds from standard input, runs the plan in shifts of as many speeds as a call takes, and
//! prints what runplan prints. Where a refused file is wrong it says on standard error.
//! With `--check` it reads a plan file alone, and says what the plan asks, whether it is accepted, how much slack it has, whether it is
//! written again as the same file, and how each transfer of an accepted plan ends at the floor, run slot by slot. Then the exit status is 0
//! for an accepted plan and 1 for any other.
//! With `--end` it reads a plan file alone, starts the plan, says of each position in turn that its job has ended, also of the first position
//! that no job has, and runs the plan at the floor in shifts. It prints what each word is answered and how each transfer ends; the exit status
//! is as with `--check`.
//! With `--import` it reads a job list as text, and says which jobs it has and whether they are exported as the same text. Then the exit status
//! is 0 for a text that is taken and 1 for any other.
//! With `--draw` and two rates it reads a job list as text and draws up a timetable. It prints its rows, what the judge and the slack figure say of
//! them and how long the plan's file is; or why there is no timetable. The exit status is 0 for a timetable and 1 for none.
//! With `--speed` and three numbers, a normal rate and the mean and the lowest rate of a reading, it prints the reading's speed. With `--meter` it
//! reads a plan file and then a meter log, and runs the plan at the log's speeds. The exit status of both is 0, and 1 if something is refused.
//! With `--refusals` it prints what each refusal says.

use gateway::{refusal, Grade, Job, Plan, Reading, Refusal, Run, LARGEST_FILE, MOST_INTERVALS, MOST_SPEEDS};
use std::io::{self, Read, Write};
use std::process::ExitCode;

const OPENING_BYTES: usize = 5;
const SPEED_BYTES: usize = 2;

/// The file ends where its length field says, or at the largest file's length if that is earlier.
fn file_length(input: &[u8]) -> usize {
    match input {
        [_, a, b, c, d, ..] => {
            let more = u32::from_be_bytes([*a, *b, *c, *d]) as usize;
            input.len().min(OPENING_BYTES + more.min(LARGEST_FILE - OPENING_BYTES))
        }
        _ => input.len(),
    }
}

fn open(file: &[u8]) -> Result<(Plan, Run), Refusal> {
    let plan = Plan::read(file)?;
    let run = plan.start()?;
    Ok((plan, run))
}

fn name(file: &[u8], job: usize) -> String {
    String::from_utf8_lossy(gateway::name(file, job).unwrap_or_default()).into_owned()
}

fn row_text(file: &[u8], row: &[u32]) -> String {
    let shown: Vec<String> = (0..row.len()).filter(|&i| row[i] > 0).map(|i| format!("{}={}", name(file, i), row[i])).collect();
    if shown.is_empty() { "-".to_string() } else { shown.join(" ") }
}

/// Carries the speeds and writes their lines. A line says whether the slow mark is set after its slot, and a shift leaves only how it stands after
/// the last: one in which it was set is taken back and carried in two parts, down to the slot that sets it.
fn write_shift(file: &[u8], run: &mut Run, plan: &Plan, speeds: &[u16], out: &mut impl Write) -> io::Result<()> {
    let before = run.clone();
    let mut rows = vec![0; speeds.len() * plan.job_count()];
    let mut numbers = vec![refusal::DONE; speeds.len()];
    if let Err(refusal) = run.shift(plan, speeds, &mut rows, &mut numbers) {
        // What refuses the shift refuses each of its speeds.
        numbers.fill(refusal.number());
    }
    if run.is_slow() != before.is_slow() && speeds.len() > 1 {
        *run = before;
        let (first, rest) = speeds.split_at(speeds.len() / 2);
        write_shift(file, run, plan, first, out)?;
        return write_shift(file, run, plan, rest, out);
    }
    let mode = if run.is_slow() { 'D' } else { 'N' };
    let mut clock = before.clock();
    for (k, (speed, number)) in speeds.iter().zip(numbers).enumerate() {
        if number == refusal::DONE {
            writeln!(out, "{clock} {speed} {mode} {}", row_text(file, &rows[plan.row(k)]))?;
            clock += 1;
        } else {
            writeln!(out, "{clock} {speed} R {number}")?;
        }
    }
    Ok(())
}

fn outcome_line(file: &[u8], run: &Run, plan: &Plan, job: usize) -> String {
    let outcome = match run.outcome(plan, job) {
        Ok(outcome) => outcome.to_string(),
        Err(refusal) => refusal.to_string(),
    };
    format!("{} {outcome} {}", name(file, job), run.carried(job).unwrap_or_default())
}

fn night(file: &[u8], speeds: &[u8], out: &mut impl Write) -> io::Result<()> {
    let (plan, mut run) = match open(file) {
        Ok(opened) => opened,
        Err(refusal) => {
            if let Some(offset) = refusal.offset() {
                eprintln!("the file is wrong at byte {offset}");
            }
            return writeln!(out, "refused {}", refusal.number());
        }
    };
    writeln!(out, "slot speed mode grants")?;
    let pairs = speeds.chunks_exact(SPEED_BYTES);
    let stray = !pairs.remainder().is_empty();
    let speeds: Vec<u16> = pairs.map(|pair| u16::from_be_bytes([pair[0], pair[1]])).collect();
    for shift in speeds.chunks(MOST_SPEEDS) {
        write_shift(file, &mut run, &plan, shift, out)?;
    }
    if stray {
        writeln!(out, "stray byte")?;
    }
    write_outcomes(file, &run, &plan, out)
}

fn write_outcomes(file: &[u8], run: &Run, plan: &Plan, out: &mut impl Write) -> io::Result<()> {
    writeln!(out, "job outcome carried")?;
    for job in 0..plan.job_count() {
        writeln!(out, "{}", outcome_line(file, run, plan, job))?;
    }
    Ok(())
}

fn write_jobs(jobs: impl Iterator<Item = Job>, out: &mut impl Write) -> io::Result<()> {
    for (i, job) in jobs.enumerate() {
        let grade = if job.grade == Grade::Hi { "HI" } else { "LO" };
        writeln!(out, "job {i}: {} {grade}, release {}, size {}, deadline {}", job.name_text(), job.release, job.size, job.deadline)?;
    }
    Ok(())
}

/// Where a night at the floor ends: the run, and the number that refuses the floor, which is at the last deadline.
type FloorNight = Result<(Run, u8), Refusal>;

/// Runs a started plan at its floor, slot by slot. Between two slots the run is kept as words.
fn floor_in_slots(plan: &Plan, mut run: Run) -> FloorNight {
    loop {
        if let Err(refusal) = run.step(plan, plan.floor()) {
            return Ok((run, refusal.number()));
        }
        let stored = run.words().to_vec();
        run = Run::from_words(&stored)?;
    }
}

/// The same in shifts, until the last speed of one is refused.
fn floor_in_shifts(plan: &Plan, mut run: Run) -> FloorNight {
    let speeds = [plan.floor(); MOST_SPEEDS];
    let mut rows = vec![0; MOST_SPEEDS * plan.job_count()];
    let mut numbers = [refusal::DONE; MOST_SPEEDS];
    loop {
        run.shift(plan, &speeds, &mut rows, &mut numbers)?;
        let last = numbers[MOST_SPEEDS - 1];
        if last != refusal::DONE {
            return Ok((run, last));
        }
        let stored = run.words().to_vec();
        run = Run::from_words(&stored)?;
    }
}

fn write_floor_night(file: &[u8], plan: &Plan, night: FloorNight, out: &mut impl Write) -> io::Result<bool> {
    let (run, last) = match night {
        Ok(night) => night,
        Err(_) => return Ok(false),
    };
    writeln!(out, "at the floor, until {}:", refusal::words(last))?;
    write_outcomes(file, &run, plan, out)?;
    Ok(true)
}

fn slack_line(plan: &Plan) -> String {
    match plan.slack() {
        Ok(Some(slack)) => format!("slack {} at interval {}, deadline {}", slack.units, slack.interval, slack.deadline),
        Ok(None) => "slack: no job is essential".to_string(),
        Err(_) => "slack: none, for the same reason".to_string(),
    }
}

fn check(file: &[u8], out: &mut impl Write) -> io::Result<bool> {
    let plan = match Plan::read(file) {
        Ok(plan) => plan,
        Err(refusal) => return writeln!(out, "{refusal}").map(|()| false),
    };
    writeln!(out, "rates: normal {}, floor {}", plan.normal_rate(), plan.floor())?;
    write_jobs(plan.jobs(), out)?;
    match plan.judge() {
        Ok(()) => writeln!(out, "accepted")?,
        Err(refusal) => writeln!(out, "{refusal}")?,
    }
    let again = plan.write().unwrap_or_default();
    writeln!(out, "{}", slack_line(&plan))?;
    writeln!(out, "written again: {} {} bytes", if again == file { "the same" } else { "other" }, again.len())?;
    match plan.start() {
        Ok(run) => write_floor_night(file, &plan, floor_in_slots(&plan, run), out),
        Err(_) => Ok(false),
    }
}

fn end_all(file: &[u8], out: &mut impl Write) -> io::Result<bool> {
    let (plan, mut run) = match open(file) {
        Ok(opened) => opened,
        Err(refusal) => return writeln!(out, "{refusal}").map(|()| false),
    };
    for position in 0..=plan.job_count() {
        match run.end(&plan, position) {
            Ok(()) => writeln!(out, "position {position}: done")?,
            Err(refusal) => writeln!(out, "position {position}: {refusal}")?,
        }
    }
    write_floor_night(file, &plan, floor_in_shifts(&plan, run), out)
}

fn import(text: &[u8], out: &mut impl Write) -> io::Result<bool> {
    let jobs = match gateway::import_jobs(text) {
        Ok(jobs) => jobs,
        Err(refusal) => return writeln!(out, "{refusal}").map(|()| false),
    };
    write_jobs(jobs.iter().copied(), out)?;
    let again = gateway::export_jobs(&jobs).unwrap_or_default();
    writeln!(out, "exported again: {} {} bytes", if again == text { "the same" } else { "other" }, again.len())?;
    Ok(true)
}

fn write_rows(plan: &Plan, out: &mut impl Write) -> io::Result<()> {
    for job in 0..plan.job_count() {
        for interval in 0..MOST_INTERVALS {
            match plan.allotment(job, interval) {
                None | Some(0) => (),
                Some(units) => writeln!(out, "job {job}, interval {interval}: {units}")?,
            }
        }
    }
    Ok(())
}

fn shortage_line(plan: &Plan, refused: Refusal) -> String {
    match plan.shortage() {
        Ok(Some(short)) => format!("{refused} (HI by {}, LO by {}: {} asked, {} carried)", short.essential, short.other, short.asked, short.carries),
        Ok(None) => "there is a timetable".to_string(),
        Err(refusal) => refusal.to_string(),
    }
}

/// A word that is no number is taken for 0, which no rate may be.
fn draw(text: &[u8], rates: [&str; 2], out: &mut impl Write) -> io::Result<bool> {
    let [normal_rate, floor] = rates.map(|word| word.parse().unwrap_or_default());
    let mut plan = match gateway::import_jobs(text).and_then(|jobs| Plan::new(normal_rate, floor, &jobs)) {
        Ok(plan) => plan,
        Err(refusal) => return writeln!(out, "{refusal}").map(|()| false),
    };
    if let Err(refusal) = plan.draw_up() {
        return writeln!(out, "{}", shortage_line(&plan, refusal)).map(|()| false);
    }
    write_rows(&plan, out)?;
    match plan.judge() {
        Ok(()) => writeln!(out, "accepted")?,
        Err(refusal) => writeln!(out, "{refusal}")?,
    }
    writeln!(out, "{}", slack_line(&plan))?;
    let file = plan.write();
    writeln!(out, "written: {} bytes", file.as_ref().map_or(0, Vec::len))?;
    Ok(file.is_ok())
}

/// A mean or lowest rate that is no number stays none, and is refused by 30. A normal rate that is none, or too large, is taken for 0: no rate may
/// be 0.
fn speed([rate, mean, lowest]: [&str; 3], out: &mut impl Write) -> io::Result<bool> {
    let [mean, lowest] = [mean, lowest].map(|word| word.parse().unwrap_or(f64::NAN));
    match gateway::speed_of(Reading { mean, lowest }, rate.parse().unwrap_or_default()) {
        Ok(speed) => writeln!(out, "speed {speed}").map(|()| true),
        Err(refusal) => writeln!(out, "{refusal}").map(|()| false),
    }
}

/// Runs the plan in a shift at the speeds of the log that follows it.
fn meter(file: &[u8], log: &[u8], out: &mut impl Write) -> io::Result<bool> {
    let mut speeds = [0; MOST_SPEEDS];
    let opened = open(file).and_then(|(plan, run)| gateway::read_log(log, plan.normal_rate(), &mut speeds).map(|count| (plan, run, count)));
    let (plan, mut run, count) = match opened {
        Ok(opened) => opened,
        Err(refusal) => return writeln!(out, "{refusal}").map(|()| false),
    };
    writeln!(out, "slot speed mode grants")?;
    write_shift(file, &mut run, &plan, &speeds[..count], out)?;
    write_outcomes(file, &run, &plan, out).map(|()| true)
}

fn write_refusals(out: &mut impl Write) -> io::Result<()> {
    (refusal::WRONG_VERSION..=refusal::WRONG_LOWEST).try_for_each(|number| writeln!(out, "{number} {}", refusal::words(number)))
}

fn read_input() -> io::Result<Vec<u8>> {
    let mut input = Vec::new();
    io::stdin().read_to_end(&mut input)?;
    Ok(input)
}

fn main() -> io::Result<ExitCode> {
    let words: Vec<String> = std::env::args().skip(1).collect();
    let mut out = io::stdout().lock();
    let is_fine = match words.iter().map(String::as_str).collect::<Vec<_>>()[..] {
        [] => {
            let input = read_input()?;
            let (file, speeds) = input.split_at(file_length(&input));
            night(file, speeds, &mut out).map(|()| true)?
        }
        ["--check"] => {
            let input = read_input()?;
            check(&input[..file_length(&input)], &mut out)?
        }
        ["--end"] => {
            let input = read_input()?;
            end_all(&input[..file_length(&input)], &mut out)?
        }
        ["--import"] => import(&read_input()?, &mut out)?,
        ["--draw", normal_rate, floor] => draw(&read_input()?, [normal_rate, floor], &mut out)?,
        ["--speed", rate, mean, lowest] => speed([rate, mean, lowest], &mut out)?,
        ["--meter"] => {
            let input = read_input()?;
            let (file, log) = input.split_at(file_length(&input));
            meter(file, log, &mut out)?
        }
        ["--refusals"] => write_refusals(&mut out).map(|()| true)?,
        _ => {
            eprintln!("usage: host-rust < PLAN-AND-SPEEDS\n       host-rust --check < PLAN\n       host-rust --end < PLAN\n       host-rust --import < JOBS\n       host-rust --draw NORMAL FLOOR < JOBS\n       host-rust --speed NORMAL MEAN LOWEST\n       host-rust --meter < PLAN-AND-LOG\n       host-rust --refusals");
            return Ok(ExitCode::from(2));
        }
    };
    Ok(ExitCode::from(u8::from(!is_fine)))
}
