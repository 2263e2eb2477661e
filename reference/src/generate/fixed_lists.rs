//! The job lists in hand that are always tried by export: every output's length, every bound and byte,
//! and each rule broken at each job.

use super::fixed_files::SEED;
use super::input::ListInput;
use super::joblists::jobs_of;
use super::prng::{Prng, Purpose};
use crate::edition::{HI, LO, MOST_DEADLINE, MOST_JOBS, MOST_SIZE};
use crate::joblist::{text_of, JobList};
use crate::plan::Job;

/// An output that every text fits into.
const AMPLE: usize = 1_500;

/// All of them, in their order.
pub fn fixed_lists() -> Vec<ListInput> {
    let parts = [
        outputs(),
        counts(),
        bytes(),
        numbers(),
        broken_at_each_job(),
        largest(),
    ];
    parts.concat()
}

fn two_jobs() -> JobList {
    let lo = Job {
        name: *b"Mirror-A",
        grade: LO,
        release: 0,
        size: 6,
        deadline: 5,
    };
    let hi = Job {
        name: *b"a,\"b\",c\"",
        grade: HI,
        release: 1,
        size: 8,
        deadline: 10,
    };
    JobList::of(&[lo, hi])
}

/// The list with an output of its exact length, one byte less, and ample room.
fn around(list: &JobList) -> Vec<ListInput> {
    let mut outputs = vec![0, AMPLE];
    if let Ok(text) = text_of(list) {
        outputs.extend([text.len() - 1, text.len(), text.len() + 1]);
    }
    with_outputs(list, &outputs)
}

fn with_outputs(list: &JobList, outputs: &[usize]) -> Vec<ListInput> {
    let mut inputs = Vec::new();
    for &output in outputs {
        let list = list.clone();
        inputs.push(ListInput { list, output });
    }
    inputs
}

/// Every length of an output up to two more than are needed.
fn outputs() -> Vec<ListInput> {
    let list = two_jobs();
    let exact = text_of(&list).expect("a sound list").len();
    let lengths: Vec<usize> = (0..=exact + 2).collect();
    with_outputs(&list, &lengths)
}

/// Every count of records, one and two too many, and counts that are right in fewer bits.
fn counts() -> Vec<ListInput> {
    let prng = &mut Prng::new(SEED, Purpose::Fixed, 0);
    let mut list = JobList::of(&jobs_of(prng, MOST_JOBS));
    let mut counts: Vec<u64> = (0..=MOST_JOBS as u64 + 2).collect();
    for bits in [6, 7, 8, 16, 31, 32, 63] {
        counts.extend([1 << bits, (1 << bits) + 1, (1 << bits) + 32]);
    }
    counts.push(u64::MAX);
    let mut inputs = Vec::new();
    for count in counts {
        list.count = count;
        inputs.extend(around(&list));
    }
    inputs
}

/// Each byte at the first, a middle and the last place of a name, and each byte as a grade.
fn bytes() -> Vec<ListInput> {
    let mut inputs = Vec::new();
    for byte in 0..=u8::MAX {
        for place in [0, 4, 7] {
            let mut list = two_jobs();
            list.jobs[1].name[place] = byte;
            inputs.extend(around(&list));
        }
        let mut list = two_jobs();
        list.jobs[0].grade = byte;
        inputs.extend(around(&list));
    }
    inputs
}

/// Each number around its bounds, with every number of digits.
fn numbers() -> Vec<ListInput> {
    let mut jobs = Vec::new();
    let job = two_jobs().jobs[0];
    let mut times = vec![0, 1, 2, 9, 10, 11, 99, 100, 999, 1_000, 9_999, 10_000];
    let most = MOST_DEADLINE;
    times.extend([most - 1, most, most + 1, 1 << 31, u32::MAX - 1, u32::MAX]);
    for &release in &times {
        for &deadline in &times {
            jobs.push(Job {
                release,
                deadline,
                ..job
            });
        }
    }
    let mut sizes = vec![
        0,
        MOST_SIZE + 1,
        u64::from(u32::MAX),
        1 << 32,
        (1 << 32) + 6,
        u64::MAX,
    ];
    for digits in 0..=8 {
        let power = 10_u64.pow(digits);
        sizes.extend([power, 2 * power - 1, (10 * power - 1).min(MOST_SIZE)]);
    }
    for size in sizes {
        jobs.push(Job { size, ..job });
    }
    let lists = jobs.iter().map(|job| JobList::of(&[*job]));
    lists.flat_map(|list| around(&list)).collect()
}

/// Each rule broken at each job of a list that is as long as it may be.
fn broken_at_each_job() -> Vec<ListInput> {
    let prng = &mut Prng::new(SEED, Purpose::Fixed, 1);
    let sound = JobList::of(&jobs_of(prng, MOST_JOBS));
    let mut inputs = around(&sound);
    for position in 0..MOST_JOBS {
        let other = sound.jobs[(position + 7) % MOST_JOBS].name;
        let changes: [&dyn Fn(&mut Job); 6] = [
            &|job| job.name[position % 8] = 0x20,
            &|job| job.name = other,
            &|job| job.grade = 2,
            &|job| job.release = job.deadline,
            &|job| job.size = 0,
            &|job| job.deadline = MOST_DEADLINE + 1,
        ];
        for change in changes {
            let mut list = sound.clone();
            change(&mut list.jobs[position]);
            inputs.extend(around(&list));
            // The same fault just beyond the count is none; the other name may still stand before it.
            list.count = position as u64;
            inputs.extend(around(&list));
        }
    }
    inputs
}

/// The longest text that there is: every number at its longest, and quotes in all names.
fn largest() -> Vec<ListInput> {
    let longest = Job {
        name: [b'"'; 8],
        grade: HI,
        release: MOST_DEADLINE - 1,
        size: MOST_SIZE,
        deadline: MOST_DEADLINE,
    };
    let mut list = JobList::of(&[longest; MOST_JOBS]);
    for position in 1..MOST_JOBS {
        list.jobs[position].name[position % 8] = b'A' + position as u8;
    }
    around(&list)
}
