//! A plan, a run and a job list in the words that a host lends, as `gateway.h` describes them.

use reference::edition::MOST_JOBS;
use reference::joblist::JobList;
use reference::plan::{Job, Plan};
use reference::run::Run;

/// n, d and the job count come first, then the words of each of 32 jobs.
pub const HEAD_WORDS: usize = 3;
pub const NORMAL_RATE: usize = 0;
pub const FLOOR: usize = 1;
pub const JOB_COUNT: usize = 2;

/// The words of a job.
pub const JOB_WORDS: usize = 5;
pub const NAME: usize = 0;
pub const GRADE: usize = 1;
pub const RELEASE: usize = 2;
pub const SIZE: usize = 3;
pub const DEADLINE: usize = 4;

pub const PLAN_WORDS: usize = HEAD_WORDS + JOB_WORDS * MOST_JOBS;

/// The job count comes first, then the words of each of 32 jobs.
pub const LISTED_COUNT: usize = 0;
pub const LISTED_JOBS: usize = 1;

pub const LIST_WORDS: usize = LISTED_JOBS + JOB_WORDS * MOST_JOBS;

/// The clock and both marks come first, then the units carried for each of 32 jobs, then the ended
/// mark of each.
pub const CLOCK: usize = 0;
pub const SLOW: usize = 1;
pub const BELOW_FLOOR: usize = 2;
pub const CARRIED: usize = 3;
pub const ENDED: usize = CARRIED + MOST_JOBS;

pub const RUN_WORDS: usize = ENDED + MOST_JOBS;

/// Where each of the 34 marks of a run stands.
pub fn marks() -> impl Iterator<Item = usize> {
    [SLOW, BELOW_FLOOR].into_iter().chain(ENDED..RUN_WORDS)
}

/// What a refusal names.
pub const LOCATION_WORDS: usize = 2;

/// Two times by which there is no timetable, what is asked by them and what the link carries.
pub const PAIR_WORDS: usize = 4;

/// Where the words of a job begin in a plan.
pub fn job_at(position: usize) -> usize {
    HEAD_WORDS + JOB_WORDS * position
}

/// Where the words of a job begin in a list.
pub fn listed_at(position: usize) -> usize {
    LISTED_JOBS + JOB_WORDS * position
}

/// A word that is too large means the largest number of its field.
fn narrow<T: TryFrom<u64>>(word: u64, largest: T) -> T {
    T::try_from(word).unwrap_or(largest)
}

/// The plan that at least 163 words say.
pub fn plan_of(words: &[u64]) -> Plan {
    Plan {
        n: narrow(words[NORMAL_RATE], u16::MAX),
        d: narrow(words[FLOOR], u16::MAX),
        count: words[JOB_COUNT],
        jobs: jobs_of(&words[HEAD_WORDS..]),
    }
}

/// The list that at least 161 words say.
pub fn list_of(words: &[u64]) -> JobList {
    JobList {
        count: words[LISTED_COUNT],
        jobs: jobs_of(&words[LISTED_JOBS..]),
    }
}

fn jobs_of(words: &[u64]) -> [Job; MOST_JOBS] {
    let mut jobs = [Job::zeros(); MOST_JOBS];
    for (job, words) in jobs.iter_mut().zip(words.chunks_exact(JOB_WORDS)) {
        *job = Job {
            name: words[NAME].to_be_bytes(),
            grade: narrow(words[GRADE], u8::MAX),
            release: narrow(words[RELEASE], u32::MAX),
            size: words[SIZE],
            deadline: narrow(words[DEADLINE], u32::MAX),
        };
    }
    jobs
}

pub fn words_of_plan(plan: &Plan) -> Vec<u64> {
    let mut words = vec![plan.n.into(), plan.d.into(), plan.count];
    words.extend(words_of_jobs(&plan.jobs));
    words
}

pub fn words_of_list(list: &JobList) -> Vec<u64> {
    let mut words = vec![list.count];
    words.extend(words_of_jobs(&list.jobs));
    words
}

fn words_of_jobs(jobs: &[Job]) -> Vec<u64> {
    let mut words = Vec::new();
    for job in jobs {
        words.push(u64::from_be_bytes(job.name));
        words.push(job.grade.into());
        words.push(job.release.into());
        words.push(job.size);
        words.push(job.deadline.into());
    }
    words
}

/// The run that at least 67 words say; none if a mark is neither 0 nor 1.
pub fn run_of(words: &[u32]) -> Option<Run> {
    let is_good = marks().all(|mark| words[mark] <= 1);
    is_good.then(|| run_of_any(words))
}

/// The same of any words, a wrong mark taken for a clear one.
pub fn run_of_any(words: &[u32]) -> Run {
    let mut carried = [0; MOST_JOBS];
    carried.copy_from_slice(&words[CARRIED..ENDED]);
    let mut ended = [false; MOST_JOBS];
    for (mark, &word) in ended.iter_mut().zip(&words[ENDED..RUN_WORDS]) {
        *mark = word == 1;
    }
    Run {
        clock: words[CLOCK],
        slow: words[SLOW] == 1,
        below_floor: words[BELOW_FLOOR] == 1,
        carried,
        ended,
    }
}

pub fn words_of_run(run: &Run) -> Vec<u32> {
    let mut words = vec![run.clock, run.slow.into(), run.below_floor.into()];
    words.extend(run.carried);
    words.extend(run.ended.map(u32::from));
    words
}
