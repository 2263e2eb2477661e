//! The safe wrapper on the same inputs: what it hands out is what the bare calls left in memory.
//!
//! It lends buffers of its own that are long enough. A call that was refused for a short one has
//! nothing to be compared with.

use gateway::{export_jobs, import_jobs, read_log, speed_of, Reading};
use gateway::{Grade, Job, Location, Outcome, Plan, Refusal, Run};
use reference::edition::{HI, LO, MOST_INTERVALS, MOST_JOBS, NAME_BYTES, TABLE_PLACES};
use reference::generate::ReadingInput;
use reference::refusal::{DONE, NO_TIMETABLE, RATES, TOO_SHORT, UNSOUND};

use crate::both::{Both, Difference};
use crate::buffer::Buffer;
use crate::memory::{Listing, Memory, Metering, Shift};
use crate::model::{DISCARDED, ENDED, MET, MISSED, NONE_ESSENTIAL, OPEN};
use crate::tally::Call;
use crate::words::{
    job_at, listed_at, run_of, DEADLINE, FLOOR, GRADE, JOB_COUNT, JOB_WORDS, LISTED_COUNT,
    LOCATION_WORDS, NAME, NORMAL_RATE, PAIR_WORDS, RELEASE, RUN_WORDS, SIZE,
};

fn is_done(number: u32) -> bool {
    number == u32::from(DONE)
}

fn is_too_short(number: u32) -> bool {
    number == u32::from(TOO_SHORT)
}

fn number_of<T>(result: &Result<T, Refusal>) -> u64 {
    match result {
        Ok(_) => DONE.into(),
        Err(refusal) => refusal.number().into(),
    }
}

/// Number and location of a refusal; the location is two zeros where none is named.
fn refusal_words(refusal: &Refusal) -> Vec<u64> {
    let (first, second) = match refusal.location() {
        Location::Nowhere => (0, 0),
        Location::JobAndInterval(job, interval) => (job as u64, interval as u64),
        Location::Job(job) => (job as u64, 0),
        Location::Interval(interval) => (interval as u64, 0),
        Location::IntervalAndDeadline(interval, deadline) => (interval as u64, deadline.into()),
    };
    vec![refusal.number().into(), first, second]
}

/// Whether there is an offset, and which.
fn offset_words(offset: Option<usize>) -> Vec<u64> {
    vec![offset.is_some().into(), offset.unwrap_or(0) as u64]
}

fn place_words(number: u32, memory: &Memory) -> Vec<u64> {
    let location = &memory.location.contents()[..LOCATION_WORDS];
    [&[number.into()], location].concat()
}

/// The clock, both marks, the units carried, and the ended marks.
fn run_words(run: &Run) -> Vec<u64> {
    let mut words = vec![
        run.clock().into(),
        run.is_slow().into(),
        run.is_below_floor().into(),
    ];
    words.extend((0..MOST_JOBS).map(|i| run.carried(i).map_or(u64::MAX, u64::from)));
    words.extend((0..MOST_JOBS).map(|i| run.has_ended(i).map_or(u64::MAX, u64::from)));
    words
}

fn bare_run_words(memory: &Memory) -> Vec<u64> {
    let words = &memory.run.contents()[..RUN_WORDS];
    words.iter().map(|&word| word.into()).collect()
}

/// The plan in memory, if the wrapper can hold it: each word fits its field, and there are as many
/// records as are counted.
pub fn in_hand(memory: &Memory) -> Option<Plan> {
    let words = memory.plan.contents();
    let n = u16::try_from(words[NORMAL_RATE]).ok()?;
    let d = u16::try_from(words[FLOOR]).ok()?;
    if words[JOB_COUNT] != memory.jobs() as u64 || memory.own_places().len() < TABLE_PLACES {
        return None;
    }
    let jobs: Option<Vec<Job>> = (0..memory.jobs())
        .map(|i| job(&words[job_at(i)..]))
        .collect();
    let mut plan = Plan::new(n, d, &jobs?).ok()?;
    for (place, &units) in memory.own_places().iter().enumerate() {
        plan.allot(place / MOST_INTERVALS, place % MOST_INTERVALS, units);
    }
    Some(plan)
}

/// The run in memory, if the wrapper takes it: it refuses those with a wrong mark, and no other.
pub fn run_in_hand(both: &mut Both, memory: &Memory) -> Result<Option<Run>, Difference> {
    let words = memory.run.contents();
    let result = Run::from_words(words);
    let expected = run_of(words).map_or(UNSOUND, |_| DONE);
    both.agree(Call::Outcome, vec![number_of(&result)], vec![expected.into()])?;
    Ok(result.ok())
}

fn job(words: &[u64]) -> Option<Job> {
    Some(Job {
        name: words[NAME].to_be_bytes(),
        grade: match u8::try_from(words[GRADE]) {
            Ok(LO) => Grade::Lo,
            Ok(HI) => Grade::Hi,
            _ => return None,
        },
        release: u32::try_from(words[RELEASE]).ok()?,
        size: words[SIZE],
        deadline: u32::try_from(words[DEADLINE]).ok()?,
    })
}

/// Reads the file once more; gives the plan if there is one.
pub fn read(
    both: &mut Both,
    file: &Buffer<u8>,
    number: u32,
    memory: &Memory,
) -> Result<Option<Plan>, Difference> {
    if is_too_short(number) {
        return Ok(None);
    }
    let result = Plan::read(file.contents());
    let told = result.as_ref().err().and_then(Refusal::offset);
    let left = (!is_done(number)).then(|| memory.offset.contents()[0]);
    let mut wrapped = [vec![number_of(&result)], offset_words(told)].concat();
    let mut bare = [vec![number.into()], offset_words(left)].concat();
    if let (Ok(plan), true) = (&result, is_done(number)) {
        wrapped.push(plan.job_count() as u64);
        bare.push(memory.plan.contents()[JOB_COUNT]);
        for (place, &units) in memory.own_places().iter().enumerate() {
            let allotment = plan.allotment(place / MOST_INTERVALS, place % MOST_INTERVALS);
            wrapped.push(allotment.map_or(u64::MAX, u64::from));
            bare.push(units.into());
        }
    }
    both.agree(Call::Read, wrapped, bare)?;
    Ok(result.ok())
}

/// Looks up a name, of which the bare call told where it begins.
pub fn name(
    both: &mut Both,
    file: &Buffer<u8>,
    position: usize,
    begins: usize,
) -> Result<(), Difference> {
    let file = file.contents();
    let words = |name: Option<&[u8]>| -> Vec<u64> {
        let bytes = name.map(|name| name.iter().map(|&byte| byte.into()).collect());
        bytes.unwrap_or_else(|| vec![0])
    };
    let shown = (begins > 0).then(|| &file[begins..begins + NAME_BYTES]);
    both.agree(
        Call::Name,
        words(gateway::name(file, position)),
        words(shown),
    )
}

pub fn write(both: &mut Both, plan: &Plan, number: u32, memory: &Memory) -> Result<(), Difference> {
    if is_too_short(number) {
        return Ok(());
    }
    let (out, written) = (memory.out.contents(), memory.written.contents()[0]);
    let bare = written_words(number.into(), &out[..written]);
    let result = plan.write();
    let number = number_of(&result);
    let wrapped = written_words(number, &result.unwrap_or_default());
    both.agree(Call::Write, wrapped, bare)
}

/// A number, and the bytes that were written.
fn written_words(number: u64, bytes: &[u8]) -> Vec<u64> {
    let mut words = vec![number];
    words.extend(bytes.iter().map(|&byte| u64::from(byte)));
    words
}

pub fn judge(both: &mut Both, plan: &Plan, number: u32, memory: &Memory) -> Result<(), Difference> {
    let wrapped = match plan.judge() {
        Ok(()) => vec![DONE.into(), 0, 0],
        Err(refusal) => refusal_words(&refusal),
    };
    both.agree(Call::Judge, wrapped, place_words(number, memory))
}

pub fn slack(both: &mut Both, plan: &Plan, number: u32, memory: &Memory) -> Result<(), Difference> {
    let mut units = 0;
    let mut wrapped = match plan.slack() {
        Ok(None) => vec![NONE_ESSENTIAL.into(), 0, 0],
        Ok(Some(slack)) => {
            units = slack.units;
            vec![DONE.into(), slack.interval as u64, slack.deadline.into()]
        }
        Err(refusal) => refusal_words(&refusal),
    };
    wrapped.push(units as u64);
    let mut bare = place_words(number, memory);
    bare.push(memory.slack.contents()[0] as u64);
    both.agree(Call::Slack, wrapped, bare)
}

/// Draws up a timetable once more, in the table that the plan had before.
pub fn draw(
    both: &mut Both,
    mut plan: Plan,
    number: u32,
    memory: &Memory,
) -> Result<(), Difference> {
    let mut wrapped = vec![number_of(&plan.draw_up())];
    let mut bare = vec![number.into()];
    wrapped.extend(plan.table().iter().map(|&units| u64::from(units)));
    bare.extend(memory.own_places().iter().map(|&units| u64::from(units)));
    both.agree(Call::Draw, wrapped, bare)
}

pub fn shortage(
    both: &mut Both,
    plan: &Plan,
    number: u32,
    memory: &Memory,
) -> Result<(), Difference> {
    let wrapped = match plan.shortage() {
        Ok(None) => [DONE.into(), 0, 0, 0, 0],
        Ok(Some(short)) => {
            let times = [short.essential.into(), short.other.into()];
            [NO_TIMETABLE.into(), times[0], times[1], short.asked, short.carries]
        }
        Err(refusal) => [refusal.number().into(), 0, 0, 0, 0],
    };
    let bare = [&[number.into()], &memory.pair.contents()[..PAIR_WORDS]].concat();
    both.agree(Call::Shortage, wrapped.to_vec(), bare)
}

/// Starts once more; gives the run if there is one.
pub fn start(
    both: &mut Both,
    plan: &Plan,
    number: u32,
    memory: &Memory,
) -> Result<Option<Run>, Difference> {
    let mut bare = place_words(number, memory);
    let result = plan.start();
    let wrapped = match &result {
        Ok(run) => {
            bare.extend(bare_run_words(memory));
            [vec![DONE.into(), 0, 0], run_words(run)].concat()
        }
        Err(refusal) => refusal_words(refusal),
    };
    both.agree(Call::Start, wrapped, bare)?;
    Ok(result.ok())
}

/// Takes the slot once more that the bare call took.
pub fn step(
    both: &mut Both,
    plan: &Plan,
    run: &mut Run,
    speed: u16,
    number: u32,
    memory: &Memory,
) -> Result<(), Difference> {
    let result = run.step(plan, speed);
    let mut wrapped = vec![number_of(&result)];
    let mut bare = vec![number.into()];
    if let (Ok(grants), true) = (&result, is_done(number)) {
        wrapped.extend(grants.iter().map(|&grant| u64::from(grant)));
        bare.extend(
            memory.grants.contents()[..memory.jobs()]
                .iter()
                .map(|&grant| u64::from(grant)),
        );
    }
    wrapped.extend(run_words(run));
    bare.extend(bare_run_words(memory));
    both.agree(Call::Step, wrapped, bare)
}

/// Takes the shift once more that the bare call took, into outputs as they were before it.
pub fn shift(
    both: &mut Both,
    plan: &Plan,
    run: &mut Run,
    number: u32,
    memory: &Memory,
    shift: &Shift,
) -> Result<(), Difference> {
    let (mut rows, mut numbers) = (shift.rows.known_words(), shift.numbers.known_words());
    let result = run.shift(plan, shift.speeds.contents(), &mut rows, &mut numbers);
    let mut wrapped = [vec![number_of(&result)], run_words(run)].concat();
    let mut bare = [vec![number.into()], bare_run_words(memory)].concat();
    wrapped.extend(output_words(&rows, &numbers));
    bare.extend(output_words(shift.rows.contents(), shift.numbers.contents()));
    both.agree(Call::Shift, wrapped, bare)
}

/// The rows and the numbers of a shift.
fn output_words<'a>(rows: &'a [u32], numbers: &'a [u8]) -> impl Iterator<Item = u64> + 'a {
    let numbers = numbers.iter().map(|&number| u64::from(number));
    rows.iter().map(|&units| u64::from(units)).chain(numbers)
}

/// Says once more that a job has ended.
pub fn end(
    both: &mut Both,
    plan: &Plan,
    run: &mut Run,
    position: usize,
    number: u32,
    memory: &Memory,
) -> Result<(), Difference> {
    let result = run.end(plan, position);
    let wrapped = [vec![number_of(&result)], run_words(run)].concat();
    let bare = [vec![number.into()], bare_run_words(memory)].concat();
    both.agree(Call::End, wrapped, bare)
}

pub fn outcome(
    both: &mut Both,
    plan: &Plan,
    run: &Run,
    position: usize,
    number: u32,
) -> Result<(), Difference> {
    let wrapped = match run.outcome(plan, position) {
        Ok(Outcome::Met) => MET,
        Ok(Outcome::Ended) => ENDED,
        Ok(Outcome::Discarded) => DISCARDED,
        Ok(Outcome::Missed) => MISSED,
        Ok(Outcome::Open) => OPEN,
        Err(refusal) => refusal.number().into(),
    };
    both.agree(Call::Outcome, vec![wrapped.into()], vec![number.into()])
}

/// Imports the text once more.
pub fn import(
    both: &mut Both,
    text: &Buffer<u8>,
    number: u32,
    listing: &Listing,
) -> Result<(), Difference> {
    let result = import_jobs(text.contents());
    let told = result.as_ref().err().and_then(Refusal::offset);
    let left = (!is_done(number)).then(|| listing.offset.contents()[0]);
    let mut wrapped = [vec![number_of(&result)], offset_words(told)].concat();
    let mut bare = [vec![number.into()], offset_words(left)].concat();
    let jobs = result.unwrap_or_default();
    wrapped.push(jobs.len() as u64);
    wrapped.extend(jobs.iter().flat_map(job_words));
    let list = listing.list.contents();
    bare.extend(&list[..listed_at(list[LISTED_COUNT] as usize)]);
    both.agree(Call::Import, wrapped, bare)
}

fn job_words(job: &Job) -> [u64; JOB_WORDS] {
    let name = u64::from_be_bytes(job.name);
    let grade = if job.grade == Grade::Hi { HI } else { LO };
    [name, grade.into(), job.release.into(), job.size, job.deadline.into()]
}

/// Exports the list once more, if the wrapper can hold its jobs.
pub fn export(both: &mut Both, number: u32, listing: &Listing) -> Result<(), Difference> {
    let list = listing.list.contents();
    if list[LISTED_COUNT] > MOST_JOBS as u64 {
        return Ok(());
    }
    let words = list[listed_at(0)..].chunks_exact(JOB_WORDS);
    let jobs: Option<Vec<Job>> = words.take(list[LISTED_COUNT] as usize).map(job).collect();
    let jobs = match jobs {
        Some(jobs) => jobs,
        None => return Ok(()),
    };
    let (out, written) = (listing.out.contents(), listing.written.contents()[0]);
    let bare = written_words(number.into(), &out[..written]);
    let result = export_jobs(&jobs);
    let number = number_of(&result);
    let wrapped = written_words(number, &result.unwrap_or_default());
    both.agree(Call::Export, wrapped, bare)
}

/// Tells the speed of a reading once more.
pub fn speed(
    both: &mut Both,
    input: &ReadingInput,
    number: u32,
    speed: &Buffer<u16>,
) -> Result<(), Difference> {
    let reading = Reading {
        mean: f64::from_bits(input.mean),
        lowest: f64::from_bits(input.lowest),
    };
    let result = speed_of(reading, input.n);
    let wrapped = vec![number_of(&result), result.unwrap_or(0).into()];
    let bare = vec![number.into(), speed.contents()[0].into()];
    both.agree(Call::Speed, wrapped, bare)
}

/// Reads a log once more, into a list as it was before. A wrong rate and a list that is too short have
/// no offset.
pub fn speeds(both: &mut Both, number: u32, lent: &Metering) -> Result<(), Difference> {
    let mut list = lent.speeds.known_words();
    list.truncate(lent.speeds.lent());
    let result = read_log(lent.log.contents(), lent.n, &mut list);
    let told = result.as_ref().err().and_then(Refusal::offset);
    let has_offset = !is_done(number) && !is_too_short(number) && number != u32::from(RATES);
    let left = has_offset.then(|| lent.offset.contents()[0]);
    let mut wrapped = [vec![number_of(&result)], offset_words(told)].concat();
    let mut bare = [vec![number.into()], offset_words(left)].concat();
    wrapped.push(result.unwrap_or(0) as u64);
    bare.push(lent.count.contents()[0] as u64);
    wrapped.extend(list.iter().map(|&speed| u64::from(speed)));
    bare.extend(lent.speeds.model().iter().map(|&speed| u64::from(speed)));
    both.agree(Call::Speeds, wrapped, bare)
}
