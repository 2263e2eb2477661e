//! A safe wrapper over `libgateway.a`, without dependencies: plan files, judging, timetables, slots, job lists and readings of the line meter.
//!
//! A [`Plan`] and a [`Run`] own the memory that the library works on. Every refusal is a [`Refusal`] with its number, its location or its offset
//! in the file, text or log, and its words. Plans and runs can be stored and sent as the words that the library keeps them in, and jobs as
//! comma-separated text.

/// The bare calls, for a host that lends memory of its own.
pub mod calls;

use std::fmt;
use std::ops::Range;

pub use calls::{MOST_JOBS, MOST_SPEEDS, PLAN_WORDS, RUN_WORDS};
use calls::*;

pub const MOST_INTERVALS: usize = 63;
pub const LARGEST_FILE: usize = 30_956;
/// The largest meter log, in bytes.
pub const LARGEST_LOG: usize = 4_357;
/// No text of a job list is longer, in bytes: neither one that is exported nor one that is taken.
pub const LONGEST_LIST: usize = 1_794;
pub const NAME_BYTES: usize = 8;

pub const TABLE_PLACES: usize = MOST_JOBS * MOST_INTERVALS;

/// Where a run's words say what; job i's units carried are at `CARRIED + i`, its ended mark at `ENDED + i`.
pub mod index {
    pub const CLOCK: usize = 0;
    pub const SLOW: usize = 1;
    pub const BELOW_FLOOR: usize = 2;
    pub const CARRIED: usize = super::calls::MARK_WORDS;
    pub const ENDED: usize = CARRIED + super::calls::MOST_JOBS;
}

// Where a plan's words say what. From the count on they are the list of its jobs.
const NORMAL_RATE: usize = 0;
const FLOOR: usize = 1;
const JOB_COUNT: usize = 2;

const DONE: u32 = 0;
const NO_TIMETABLE: u32 = refusal::NO_TIMETABLE as u32;
const NONE_ESSENTIAL: u32 = 256;
const MET: u32 = 257;
const DISCARDED: u32 = 258;
const MISSED: u32 = 259;
const OPEN: u32 = 260;
const ENDED: u32 = 261;

/// The numbers of refusals, named as in `gateway.h`.
pub mod refusal {
    /// No refusal: the number of a speed of a shift whose slot is done.
    pub const DONE: u8 = 0;
    pub const WRONG_VERSION: u8 = 1;
    pub const WRONG_EXTENT: u8 = 2;
    pub const WRONG_RECORD_LENGTH: u8 = 3;
    pub const WRONG_RATES: u8 = 4;
    pub const WRONG_JOB_COUNT: u8 = 5;
    pub const WRONG_NAME_BYTE: u8 = 6;
    pub const NAME_TAKEN: u8 = 7;
    pub const WRONG_GRADE: u8 = 8;
    pub const WRONG_JOB_BOUNDS: u8 = 9;
    pub const TOO_MANY_ROWS: u8 = 10;
    pub const ROW_WITHOUT_JOB: u8 = 11;
    pub const ROW_WITHOUT_INTERVAL: u8 = 12;
    pub const ROW_WITHOUT_UNITS: u8 = 13;
    pub const ROW_OUT_OF_ORDER: u8 = 14;
    pub const OUTSIDE_WINDOW: u8 = 15;
    pub const WRONG_TOTAL: u8 = 16;
    pub const OVER_CAPACITY: u8 = 17;
    pub const BELOW_FLOOR_RULE: u8 = 18;
    pub const CLOCK_AT_END: u8 = 19;
    pub const SPEED_ABOVE_NORMAL: u8 = 20;
    pub const UNSOUND: u8 = 21;
    pub const BUFFER_TOO_SHORT: u8 = 22;
    pub const WRONG_LINE: u8 = 23;
    pub const WRONG_HEADER: u8 = 24;
    pub const NO_SUCH_JOB: u8 = 25;
    pub const CANNOT_END: u8 = 26;
    pub const TOO_MANY_SPEEDS: u8 = 27;
    pub const RELEASES_DIFFER: u8 = 28;
    pub const NO_TIMETABLE: u8 = 29;
    pub const NOT_FINITE: u8 = 30;
    pub const WRONG_LOWEST: u8 = 31;

    /// What a refusal's number says, as `gateway_words` of `gateway.h` says it.
    pub fn words(number: u8) -> &'static str {
        match number {
            DONE => "done",
            WRONG_VERSION => "the file is empty or of another version",
            WRONG_EXTENT => "the file is shorter or longer than it says",
            WRONG_RECORD_LENGTH => "a job, a row or a reading does not have its own length",
            WRONG_RATES => "the rates do not keep to their bounds",
            WRONG_JOB_COUNT => "there is no job, or there are too many",
            WRONG_NAME_BYTE => "a name holds a byte that no name may hold",
            NAME_TAKEN => "two jobs share a name",
            WRONG_GRADE => "a grade is neither LO nor HI",
            WRONG_JOB_BOUNDS => "a release, a size or a deadline does not keep to its bounds",
            TOO_MANY_ROWS => "there are too many rows",
            ROW_WITHOUT_JOB => "a row is for no job of the plan",
            ROW_WITHOUT_INTERVAL => "a row is for no interval of the plan",
            ROW_WITHOUT_UNITS => "a row allots nothing",
            ROW_OUT_OF_ORDER => "the rows do not rise by job and interval",
            OUTSIDE_WINDOW => "a job is allotted units when it may not run",
            WRONG_TOTAL => "a job is not allotted exactly its size",
            OVER_CAPACITY => "an interval is allotted more than the normal rate carries",
            BELOW_FLOOR_RULE => "the floor cannot carry what is essential in time",
            CLOCK_AT_END => "the run is over",
            SPEED_ABOVE_NORMAL => "the speed is more than the normal rate",
            UNSOUND => "the plan, the run or the job list is not sound",
            BUFFER_TOO_SHORT => "a lent buffer has too few elements",
            WRONG_LINE => "a line of the job list is not well formed",
            WRONG_HEADER => "the job list does not begin with its header",
            NO_SUCH_JOB => "there is no such job",
            CANNOT_END => "the job is not running: it is not yet released, or it is over already",
            TOO_MANY_SPEEDS => "a shift or a meter log has too many speeds",
            RELEASES_DIFFER => "the jobs have not all the same release",
            NO_TIMETABLE => "no timetable exists for these rates and jobs",
            NOT_FINITE => "the mean or the lowest rate of a reading is not finite",
            WRONG_LOWEST => "the lowest rate of a reading is below zero or above the mean",
            _ => "the library gives no such number",
        }
    }
}

/// What a refusal of a plan in hand names beside its number.
#[derive(Clone, Copy, Debug, PartialEq, Eq)]
pub enum Location {
    Nowhere,
    JobAndInterval(usize, usize),
    Job(usize),
    Interval(usize),
    IntervalAndDeadline(usize, u32),
}

/// A refusal: its number, the location that it names, and the offset at which a plan file, the text of a job list or a meter log is wrong.
#[derive(Clone, Copy, Debug, PartialEq, Eq)]
pub struct Refusal {
    number: u8,
    location: Location,
    offset: Option<usize>,
}

impl Refusal {
    fn new(number: u32, location: [u64; LOCATION_WORDS]) -> Refusal {
        let number = number as u8;
        let location = match number {
            refusal::OUTSIDE_WINDOW => Location::JobAndInterval(location[0] as usize, location[1] as usize),
            refusal::WRONG_TOTAL => Location::Job(location[0] as usize),
            refusal::OVER_CAPACITY => Location::Interval(location[0] as usize),
            refusal::BELOW_FLOOR_RULE => Location::IntervalAndDeadline(location[0] as usize, location[1] as u32),
            _ => Location::Nowhere,
        };
        Refusal { number, location, offset: None }
    }

    fn nowhere(number: u8) -> Refusal {
        Refusal { number, location: Location::Nowhere, offset: None }
    }

    /// The reader's refusal; its numbers from 1 to 14 come with an offset.
    fn of_file(number: u32, offset: usize) -> Refusal {
        let number = number as u8;
        let has_offset = (refusal::WRONG_VERSION..=refusal::ROW_OUT_OF_ORDER).contains(&number);
        Refusal { number, location: Location::Nowhere, offset: has_offset.then_some(offset) }
    }

    /// The import's refusal of a text; it comes with an offset, since enough words are lent.
    fn of_text(number: u32, offset: usize) -> Refusal {
        Refusal { number: number as u8, location: Location::Nowhere, offset: Some(offset) }
    }

    /// The refusal of a meter log; a wrong rate and a list that is too short come without an offset.
    fn of_log(number: u32, offset: usize) -> Refusal {
        let number = number as u8;
        let has_offset = number != refusal::WRONG_RATES && number != refusal::BUFFER_TOO_SHORT;
        Refusal { number, location: Location::Nowhere, offset: has_offset.then_some(offset) }
    }

    pub fn number(&self) -> u8 {
        self.number
    }

    pub fn location(&self) -> Location {
        self.location
    }

    /// Where a plan file, a text or a log is wrong, counted from its first byte: the first byte of the field in hand, or of the line, as
    /// `gateway.h` says it for each number. Every refusal of [`Plan::read`] and of [`import_jobs`] has it, every one of [`read_log`] but 4 and 22,
    /// and no other.
    pub fn offset(&self) -> Option<usize> {
        self.offset
    }

    /// What the number says.
    pub fn words(&self) -> &'static str {
        refusal::words(self.number)
    }
}

impl fmt::Display for Refusal {
    fn fmt(&self, f: &mut fmt::Formatter<'_>) -> fmt::Result {
        write!(f, "refused {}: {}", self.number, self.words())?;
        if let Some(offset) = self.offset {
            return write!(f, " (byte {offset})");
        }
        match self.location {
            Location::Nowhere => Ok(()),
            Location::JobAndInterval(job, interval) => write!(f, " (job {job}, interval {interval})"),
            Location::Job(job) => write!(f, " (job {job})"),
            Location::Interval(interval) => write!(f, " (interval {interval})"),
            Location::IntervalAndDeadline(interval, deadline) => write!(f, " (interval {interval}, deadline {deadline})"),
        }
    }
}

impl std::error::Error for Refusal {}

#[derive(Clone, Copy, Debug, PartialEq, Eq)]
pub enum Grade {
    Lo,
    Hi,
}

/// A transfer as a plan asks for it.
#[derive(Clone, Copy, PartialEq, Eq)]
pub struct Job {
    pub name: [u8; NAME_BYTES],
    pub grade: Grade,
    pub release: u32,
    pub size: u64,
    pub deadline: u32,
}

impl Job {
    /// The name as text. Bytes that no name may have are escaped.
    pub fn name_text(&self) -> String {
        let shown = |&byte: &u8| if byte.is_ascii_graphic() { char::from(byte).to_string() } else { format!("\\x{byte:02x}") };
        self.name.iter().map(shown).collect()
    }

    fn to_words(self) -> [u64; JOB_WORDS] {
        let grade = (self.grade == Grade::Hi).into();
        [u64::from_be_bytes(self.name), grade, self.release.into(), self.size, self.deadline.into()]
    }

    /// The job that words say; none where a word is too large for what it says.
    fn from_words(words: &[u64]) -> Option<Job> {
        let grade = match words[1] {
            0 => Grade::Lo,
            1 => Grade::Hi,
            _ => return None,
        };
        let release = words[2].try_into().ok()?;
        let deadline = words[4].try_into().ok()?;
        Some(Job { name: words[0].to_be_bytes(), grade, release, size: words[3], deadline })
    }
}

impl fmt::Debug for Job {
    fn fmt(&self, f: &mut fmt::Formatter<'_>) -> fmt::Result {
        f.debug_struct("Job")
            .field("name", &self.name_text())
            .field("grade", &self.grade)
            .field("release", &self.release)
            .field("size", &self.size)
            .field("deadline", &self.deadline)
            .finish()
    }
}

/// The tightest interval and deadline of a plan, and by how much the floor carries more than they ask.
#[derive(Clone, Copy, Debug, PartialEq, Eq)]
pub struct Slack {
    pub units: i64,
    pub interval: usize,
    pub deadline: u32,
}

/// Why jobs with one release have no timetable: two times by which more is asked than the link carries. They are the release or a deadline, the
/// one of a HI job and the other of a LO job.
#[derive(Clone, Copy, Debug, PartialEq, Eq)]
pub struct Shortage {
    /// The time of the HI jobs.
    pub essential: u32,
    /// The time of the LO jobs.
    pub other: u32,
    /// The sizes of the HI jobs due by the one time and of the LO jobs due by the other.
    pub asked: u64,
    /// The normal rate in each slot from the release to the LO jobs' time, and the floor in each from there to the HI jobs' time, if that is later.
    pub carries: u64,
}

#[derive(Clone, Copy, Debug, PartialEq, Eq)]
pub enum Outcome {
    Met,
    Ended,
    Discarded,
    Missed,
    Open,
}

impl fmt::Display for Outcome {
    fn fmt(&self, f: &mut fmt::Formatter<'_>) -> fmt::Result {
        f.write_str(match self {
            Outcome::Met => "met",
            Outcome::Ended => "ended",
            Outcome::Discarded => "discarded",
            Outcome::Missed => "missed",
            Outcome::Open => "open",
        })
    }
}

/// A plan with its table.
#[derive(Clone)]
pub struct Plan {
    // Both rates fit 16 bits, the count is at most MOST_JOBS, and each counted job's words say a job.
    words: [u64; PLAN_WORDS],
    table: [u32; TABLE_PLACES],
}

impl Plan {
    /// A plan of these rates and jobs with an empty table. Nothing is judged yet; more jobs than there is room for are refused by 5.
    pub fn new(normal_rate: u16, floor: u16, jobs: &[Job]) -> Result<Plan, Refusal> {
        if jobs.len() > MOST_JOBS {
            return Err(Refusal::nowhere(refusal::WRONG_JOB_COUNT));
        }
        let mut plan = Plan { words: [0; PLAN_WORDS], table: [0; TABLE_PLACES] };
        plan.words[NORMAL_RATE] = normal_rate.into();
        plan.words[FLOOR] = floor.into();
        put_jobs(&mut plan.words[JOB_COUNT..], jobs);
        Ok(plan)
    }

    /// The plan that stored words and a stored table say. Too few of either are refused by 22. Words that no plan has (a rate, a count, a
    /// grade or a time too large for what it says) are refused by 21, as every call on them would be. Nothing else is judged yet.
    pub fn from_words(words: &[u64], table: &[u32]) -> Result<Plan, Refusal> {
        let lent = words.get(..PLAN_WORDS).and_then(|w| w.try_into().ok()).zip(table.get(..TABLE_PLACES).and_then(|t| t.try_into().ok()));
        let (words, table) = lent.ok_or(Refusal::nowhere(refusal::BUFFER_TOO_SHORT))?;
        let plan = Plan { words, table };
        let is_plan = [NORMAL_RATE, FLOOR].iter().all(|&at| u16::try_from(plan.words[at]).is_ok())
            && plan.words[JOB_COUNT] <= MOST_JOBS as u64
            && plan.job_words().all(|words| Job::from_words(words).is_some());
        if is_plan { Ok(plan) } else { Err(Refusal::nowhere(refusal::UNSOUND)) }
    }

    /// The plan's words, to store beside its [`table`](Plan::table).
    pub fn words(&self) -> &[u64; PLAN_WORDS] {
        &self.words
    }

    /// The allotments, those of a job in a row of [`MOST_INTERVALS`].
    pub fn table(&self) -> &[u32; TABLE_PLACES] {
        &self.table
    }

    /// Reads a plan file. A refusal has its [`offset`](Refusal::offset).
    pub fn read(file: &[u8]) -> Result<Plan, Refusal> {
        let mut plan = Plan { words: [0; PLAN_WORDS], table: [0; TABLE_PLACES] };
        let mut offset = 0;
        // SAFETY: each pointer is valid for the length beside it; the two parts of the plan are separate fields, and offset is fresh.
        let number =
            unsafe { gateway_read(file.as_ptr(), file.len(), plan.words.as_mut_ptr(), PLAN_WORDS, plan.table.as_mut_ptr(), TABLE_PLACES, &mut offset) };
        if number == DONE { Ok(plan) } else { Err(Refusal::of_file(number, offset)) }
    }

    /// The plan file.
    pub fn write(&self) -> Result<Vec<u8>, Refusal> {
        let mut out = vec![0; LARGEST_FILE];
        let mut written = 0;
        // SAFETY: each pointer is valid for the length beside it; out and written are fresh.
        let number = unsafe { gateway_write(self.words.as_ptr(), PLAN_WORDS, self.table.as_ptr(), TABLE_PLACES, out.as_mut_ptr(), out.len(), &mut written) };
        out.truncate(written);
        done(number).map(|()| out)
    }

    /// Whether the plan is accepted.
    pub fn judge(&self) -> Result<(), Refusal> {
        let mut location = [0; LOCATION_WORDS];
        // SAFETY: each pointer is valid for the length beside it; location is fresh.
        let number = unsafe { gateway_judge(self.words.as_ptr(), PLAN_WORDS, self.table.as_ptr(), TABLE_PLACES, location.as_mut_ptr(), LOCATION_WORDS) };
        if number == DONE { Ok(()) } else { Err(Refusal::new(number, location)) }
    }

    /// The slack figure; none for a plan without essential jobs.
    pub fn slack(&self) -> Result<Option<Slack>, Refusal> {
        let mut location = [0; LOCATION_WORDS];
        let mut units = 0;
        // SAFETY: each pointer is valid for the length beside it; location and units are fresh.
        let number = unsafe { gateway_slack(self.words.as_ptr(), PLAN_WORDS, self.table.as_ptr(), TABLE_PLACES, &mut units, location.as_mut_ptr(), LOCATION_WORDS) };
        match number {
            DONE => Ok(Some(Slack { units, interval: location[0] as usize, deadline: location[1] as u32 })),
            NONE_ESSENTIAL => Ok(None),
            _ => Err(Refusal::new(number, location)),
        }
    }

    /// Draws up a timetable for the plan's rates and jobs, which must have one release; it takes the place of the table, and the judge accepts it.
    /// 21 if a rule from 4 to 9 is broken: the table stays. 28 if not all jobs have one release, 29 if there is no timetable: the table is empty then.
    pub fn draw_up(&mut self) -> Result<(), Refusal> {
        // SAFETY: each pointer is valid for the length beside it; the two parts of the plan are separate fields, borrowed for writing.
        done(unsafe { gateway_draw(self.words.as_ptr(), PLAN_WORDS, self.table.as_mut_ptr(), TABLE_PLACES) })
    }

    /// Why [`draw_up`](Plan::draw_up) is refused by 29: the first such times, by those of the HI jobs and then by those of the LO jobs. None if there
    /// is a timetable; 21 and 28 as there. The plan's table is not looked at.
    pub fn shortage(&self) -> Result<Option<Shortage>, Refusal> {
        let mut pair = [0; PAIR_WORDS];
        // SAFETY: each pointer is valid for the length beside it; pair is fresh.
        let number = unsafe { gateway_shortage(self.words.as_ptr(), PLAN_WORDS, pair.as_mut_ptr(), PAIR_WORDS) };
        match number {
            DONE => Ok(None),
            NO_TIMETABLE => Ok(Some(Shortage { essential: pair[0] as u32, other: pair[1] as u32, asked: pair[2], carries: pair[3] })),
            _ => Err(Refusal::nowhere(number as u8)),
        }
    }

    /// Judges the plan, and starts its run.
    pub fn start(&self) -> Result<Run, Refusal> {
        let mut run = Run { words: [0; RUN_WORDS] };
        let mut location = [0; LOCATION_WORDS];
        // SAFETY: each pointer is valid for the length beside it; run and location are fresh.
        let number = unsafe { gateway_start(self.words.as_ptr(), PLAN_WORDS, self.table.as_ptr(), TABLE_PLACES, run.words.as_mut_ptr(), RUN_WORDS, location.as_mut_ptr(), LOCATION_WORDS) };
        if number == DONE { Ok(run) } else { Err(Refusal::new(number, location)) }
    }

    pub fn normal_rate(&self) -> u16 {
        self.words[NORMAL_RATE] as u16
    }

    pub fn floor(&self) -> u16 {
        self.words[FLOOR] as u16
    }

    /// The speed to step with if the link will carry `measured` units in the slot: that number, but no more than the normal rate. A link that
    /// carries more than the normal rate carries the normal rate too.
    pub fn speed(&self, measured: u64) -> u16 {
        measured.min(self.words[NORMAL_RATE]) as u16
    }

    pub fn job_count(&self) -> usize {
        self.words[JOB_COUNT] as usize
    }

    /// Where the grants at speed k stand in the rows of a shift: one place for each job.
    pub fn row(&self, k: usize) -> Range<usize> {
        k * self.job_count()..(k + 1) * self.job_count()
    }

    /// The jobs in the order of their positions.
    pub fn jobs(&self) -> impl Iterator<Item = Job> + '_ {
        self.job_words().filter_map(Job::from_words)
    }

    /// The job at a position; none where the plan has no such job.
    pub fn job(&self, position: usize) -> Option<Job> {
        self.jobs().nth(position)
    }

    fn job_words(&self) -> impl Iterator<Item = &[u64]> {
        job_words(&self.words[JOB_COUNT..])
    }

    /// The allotment of a job in an interval; none where the table has no such place.
    pub fn allotment(&self, job: usize, interval: usize) -> Option<u32> {
        place_of(job, interval).map(|at| self.table[at])
    }

    /// Sets an allotment. Whether there is such a place.
    pub fn allot(&mut self, job: usize, interval: usize, units: u32) -> bool {
        place_of(job, interval).map(|at| self.table[at] = units).is_some()
    }
}

impl fmt::Debug for Plan {
    fn fmt(&self, f: &mut fmt::Formatter<'_>) -> fmt::Result {
        let allotted = |&(_, &units): &(usize, &u32)| units > 0;
        let row = |(place, units)| (place / MOST_INTERVALS, place % MOST_INTERVALS, units);
        f.debug_struct("Plan")
            .field("normal_rate", &self.normal_rate())
            .field("floor", &self.floor())
            .field("jobs", &self.jobs().collect::<Vec<_>>())
            .field("allotments", &self.table.iter().enumerate().filter(allotted).map(row).collect::<Vec<_>>())
            .finish()
    }
}

fn place_of(job: usize, interval: usize) -> Option<usize> {
    (job < MOST_JOBS && interval < MOST_INTERVALS).then(|| MOST_INTERVALS * job + interval)
}

fn done(number: u32) -> Result<(), Refusal> {
    if number == DONE { Ok(()) } else { Err(Refusal::nowhere(number as u8)) }
}

/// The bytes of a job's name, where they stand in a plan file; none if the file is refused or has no such job.
pub fn name(file: &[u8], position: usize) -> Option<&[u8]> {
    // SAFETY: the pointer is valid for the length beside it.
    let at = unsafe { gateway_name(file.as_ptr(), file.len(), position) };
    if at == 0 { None } else { file.get(at..at + NAME_BYTES) }
}

/// The words of each counted job in a list's words.
fn job_words(list: &[u64]) -> impl Iterator<Item = &[u64]> {
    list[1..].chunks_exact(JOB_WORDS).take(list[0] as usize)
}

/// Puts the count and the jobs, as many as there is room for, into a list's words.
fn put_jobs(list: &mut [u64], jobs: &[Job]) {
    list[0] = jobs.len() as u64;
    for (job, words) in jobs.iter().zip(list[1..].chunks_exact_mut(JOB_WORDS)) {
        words.copy_from_slice(&job.to_words());
    }
}

/// The jobs of a job list's comma-separated text, in the order of its lines. A refusal has its [`offset`](Refusal::offset).
pub fn import_jobs(text: &[u8]) -> Result<Vec<Job>, Refusal> {
    let mut list = [0; LIST_WORDS];
    let mut offset = 0;
    // SAFETY: each pointer is valid for the length beside it; list and offset are fresh.
    let number = unsafe { gateway_import(text.as_ptr(), text.len(), list.as_mut_ptr(), LIST_WORDS, &mut offset) };
    if number == DONE { Ok(job_words(&list).filter_map(Job::from_words).collect()) } else { Err(Refusal::of_text(number, offset)) }
}

/// The comma-separated text of a job list, which [`import_jobs`] takes. Jobs that break a rule from 5 to 9 are refused by 21, as are none and
/// more than [`MOST_JOBS`].
pub fn export_jobs(jobs: &[Job]) -> Result<Vec<u8>, Refusal> {
    let mut list = [0; LIST_WORDS];
    put_jobs(&mut list, jobs);
    let mut out = vec![0; LONGEST_LIST];
    let mut written = 0;
    // SAFETY: each pointer is valid for the length beside it; out and written are fresh.
    let number = unsafe { gateway_export(list.as_ptr(), LIST_WORDS, out.as_mut_ptr(), out.len(), &mut written) };
    out.truncate(written);
    done(number).map(|()| out)
}

/// What the line meter reads in a slot, in units per slot. Either may be any float.
#[derive(Clone, Copy, Debug, PartialEq)]
pub struct Reading {
    pub mean: f64,
    pub lowest: f64,
}

/// The speed of a reading on a link with the normal rate n: the greatest whole number that is at most the lowest rate and at most n. 4 if n is not
/// from 2 to 1,000, 30 if either rate is not finite, 31 if the lowest one is below zero or above the mean.
pub fn speed_of(reading: Reading, n: u16) -> Result<u16, Refusal> {
    let mut speed = 0;
    // SAFETY: the pointer is valid.
    let number = unsafe { gateway_meter(reading.mean, reading.lowest, n, &mut speed) };
    done(number).map(|()| speed)
}

/// Reads the speeds of a meter log, each as [`speed_of`] tells it, into the front of a list; how many they are. A refusal leaves the list as it
/// was, and has its [`offset`](Refusal::offset) unless it is 4, of the rate, or 22, of a list that is too short: [`MOST_SPEEDS`] places are always enough.
pub fn read_log(log: &[u8], n: u16, list: &mut [u16]) -> Result<usize, Refusal> {
    let (mut count, mut offset) = (0, 0);
    // SAFETY: each pointer is valid for the length beside it; count and offset are fresh, and the list is borrowed for writing.
    let number = unsafe { gateway_speeds(log.as_ptr(), log.len(), n, list.as_mut_ptr(), list.len(), &mut count, &mut offset) };
    if number == DONE { Ok(count) } else { Err(Refusal::of_log(number, offset)) }
}

/// A run of a plan.
#[derive(Clone, PartialEq, Eq)]
pub struct Run {
    // Each mark is 0 or 1.
    words: [u32; RUN_WORDS],
}

impl Run {
    /// The run that stored words say. Too few are refused by 22, and a mark that is neither 0 nor 1 by 21, as every call on it would be.
    /// Whether the run fits a plan is for each call to say.
    pub fn from_words(words: &[u32]) -> Result<Run, Refusal> {
        let words: Option<[u32; RUN_WORDS]> = words.get(..RUN_WORDS).and_then(|w| w.try_into().ok());
        let words = words.ok_or(Refusal::nowhere(refusal::BUFFER_TOO_SHORT))?;
        let mut marks = words[index::SLOW..index::CARRIED].iter().chain(&words[index::ENDED..]);
        if marks.all(|&mark| mark <= 1) { Ok(Run { words }) } else { Err(Refusal::nowhere(refusal::UNSOUND)) }
    }

    /// The run's words, to store; [`index`] says which of them says what.
    pub fn words(&self) -> &[u32; RUN_WORDS] {
        &self.words
    }

    /// Carries one slot at a speed; the grant of each of the plan's jobs. A refusal leaves the run as it was.
    pub fn step(&mut self, plan: &Plan, speed: u16) -> Result<Vec<u32>, Refusal> {
        let mut grants = vec![0; MOST_JOBS];
        // SAFETY: each pointer is valid for the length beside it; grants is fresh, and the run is borrowed for writing.
        let number = unsafe {
            gateway_step(plan.words.as_ptr(), PLAN_WORDS, plan.table.as_ptr(), TABLE_PLACES, self.words.as_mut_ptr(), RUN_WORDS, speed, grants.as_mut_ptr(), MOST_JOBS)
        };
        grants.truncate(plan.job_count());
        done(number).map(|()| grants)
    }

    /// Carries a slot at each of at most [`MOST_SPEEDS`] speeds in turn, as [`step`](Run::step) would. For each speed it puts the grants into
    /// its [`row`](Plan::row) of `rows`, and into `numbers` 0 or the number of a refusal, 19 or 20: a refused speed leaves its row and the run, and
    /// the next one is tried. Places beyond the last row and the last number stay. 27 if there are more speeds, 22 if rows or numbers are too
    /// few; a refusal leaves the run, the rows and the numbers as they were.
    pub fn shift(&mut self, plan: &Plan, speeds: &[u16], rows: &mut [u32], numbers: &mut [u8]) -> Result<(), Refusal> {
        // SAFETY: each pointer is valid for the length beside it; the run, the rows and the numbers are borrowed for writing.
        done(unsafe {
            gateway_shift(
                plan.words.as_ptr(), PLAN_WORDS, plan.table.as_ptr(), TABLE_PLACES, self.words.as_mut_ptr(), RUN_WORDS, speeds.as_ptr(), speeds.len(),
                rows.as_mut_ptr(), rows.len(), numbers.as_mut_ptr(), numbers.len(),
            )
        })
    }

    /// The host's word that the transfer of the job at a position has ended before its size was carried. It gets nothing in later slots, and
    /// what it leaves goes to the others. 25 if there is no such job, 26 if it is not yet released or over already; a refusal leaves the run as
    /// it was.
    pub fn end(&mut self, plan: &Plan, position: usize) -> Result<(), Refusal> {
        // SAFETY: each pointer is valid for the length beside it; the run is borrowed for writing.
        done(unsafe { gateway_end(plan.words.as_ptr(), PLAN_WORDS, self.words.as_mut_ptr(), RUN_WORDS, position) })
    }

    /// How a job's transfer ended, or that it is still open.
    pub fn outcome(&self, plan: &Plan, position: usize) -> Result<Outcome, Refusal> {
        // SAFETY: each pointer is valid for the length beside it.
        let number = unsafe { gateway_outcome(plan.words.as_ptr(), PLAN_WORDS, self.words.as_ptr(), RUN_WORDS, position) };
        match number {
            MET => Ok(Outcome::Met),
            ENDED => Ok(Outcome::Ended),
            DISCARDED => Ok(Outcome::Discarded),
            MISSED => Ok(Outcome::Missed),
            OPEN => Ok(Outcome::Open),
            _ => Err(Refusal::nowhere(number as u8)),
        }
    }

    /// The slot that the next step carries.
    pub fn clock(&self) -> u32 {
        self.words[index::CLOCK]
    }

    /// Whether some slot was slow: slower than the normal rate, and than what was due in it. LO jobs get nothing from then on.
    pub fn is_slow(&self) -> bool {
        self.words[index::SLOW] == 1
    }

    /// Whether some slot was slower than the floor. Nothing is promised from then on, to HI jobs neither.
    pub fn is_below_floor(&self) -> bool {
        self.words[index::BELOW_FLOOR] == 1
    }

    /// The units carried for a job; none where there is no such place.
    pub fn carried(&self, job: usize) -> Option<u32> {
        self.words[index::CARRIED..index::ENDED].get(job).copied()
    }

    /// Whether the host has said that a job has ended; none where there is no such place.
    pub fn has_ended(&self, job: usize) -> Option<bool> {
        self.words[index::ENDED..].get(job).map(|&mark| mark == 1)
    }
}

impl fmt::Debug for Run {
    fn fmt(&self, f: &mut fmt::Formatter<'_>) -> fmt::Result {
        let ended: Vec<usize> = (0..MOST_JOBS).filter(|&job| self.has_ended(job) == Some(true)).collect();
        f.debug_struct("Run")
            .field("clock", &self.clock())
            .field("slow", &self.is_slow())
            .field("below_floor", &self.is_below_floor())
            .field("carried", &&self.words[index::CARRIED..index::ENDED])
            .field("ended", &ended)
            .finish()
    }
}
