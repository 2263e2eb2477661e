//! Plan files that are wrong at many places and are the same for every seed: each field cut, leftovers,
//! each fault at each job and each row, and two faults in one file.

use super::accepted::accepted_of;
use super::damaged::{damaged_twice, sound_base, Damage, Spot};
use super::draft::{
    job_at, row_at, Draft, Where, ANY, DEADLINE_IN, EVERYWHERE, INTERVAL_IN, JOB_COUNT_AT,
    RATES_AT, RELEASE_IN, SIZE_IN, UNITS_IN,
};
use super::fields::{job_fields, rate_fields, row_count_field, row_fields, Field};
use super::fixed_files::{full_draft, SEED};
use super::prng::{Prng, Purpose};
use crate::edition::{JOB_LENGTH, MOST_JOBS, MOST_ROWS, ROW_LENGTH};
use crate::refusal::{
    GRADE, NAME_BYTE, NAME_TWICE, NO_SUCH_INTERVAL, NO_SUCH_JOB, NO_UNITS, ROW_ORDER,
    TIMES_OR_SIZE, VERSION,
};

/// Draws for each number and each job or row.
const DRAWS: usize = 2;

/// All of them, in their order.
pub fn fixed_places() -> Vec<Vec<u8>> {
    let mut files = Vec::new();
    for draft in [small_draft(), large_draft()] {
        files.extend(cut_fields(&draft));
        files.extend(cuts_before_tests(&draft));
        files.extend(leftovers(&draft));
    }
    files.extend(every_count(&large_draft()));
    files.extend(every_job(&large_draft()));
    files.extend(every_row(&large_draft()));
    files.extend(far_rows());
    files.extend(pairs());
    files
}

fn source(number: usize) -> Prng {
    Prng::new(SEED, Purpose::Fixed, number as u64)
}

fn small_draft() -> Draft {
    sound_base(&mut source(0), &ANY)
}

/// All jobs and intervals that there can be, and some rows for each job.
fn large_draft() -> Draft {
    accepted_of(&mut source(0), &ANY, MOST_JOBS, 2 * MOST_JOBS)
}

/// The fields after the length field, of the first, a middle and the last job and row.
fn fields(draft: &Draft) -> Vec<Field> {
    let jobs = draft.jobs();
    let mut fields = rate_fields();
    for place in EVERYWHERE {
        fields.extend(job_fields(place.index(jobs)));
    }
    fields.extend(row_count_field(jobs));
    for place in EVERYWHERE {
        fields.extend(row_fields(jobs, place.index(draft.rows())));
    }
    fields
}

/// Each field cut after each number of its bytes; what is left of it as it was, and wrong.
fn cut_fields(draft: &Draft) -> Vec<Vec<u8>> {
    let mut files = Vec::new();
    let mut cut = |field, kept, replaced| {
        let mut damage = Damage::new(draft);
        damage.cut_field(field, kept, replaced);
        files.push(damage.file);
    };
    for field in fields(draft) {
        cut(field, 0, None);
        for kept in 1..field.length {
            cut(field, kept, None);
            cut(field, kept, Some(u8::MAX));
        }
    }
    files
}

/// Wrong fields that are tested together with a later one, and a cut in the later one.
fn cuts_before_tests(draft: &Draft) -> Vec<Vec<u8>> {
    let mut files = Vec::new();
    for end in [2, 3] {
        files.push(wrong_and_cut(draft, RATES_AT, 2, RATES_AT + end));
    }
    for place in EVERYWHERE {
        let at = job_at(place.index(draft.jobs()));
        for end in [SIZE_IN, SIZE_IN + 3, DEADLINE_IN, DEADLINE_IN + 3] {
            files.push(wrong_and_cut(draft, at + RELEASE_IN, 8, at + end));
        }
    }
    for row in [1, draft.rows() / 2, draft.rows() - 1] {
        for end in [INTERVAL_IN, INTERVAL_IN + 1, UNITS_IN, UNITS_IN + 3] {
            let mut damage = Damage::new(draft);
            damage.take_back(row, 0);
            damage.cut(row_at(draft.jobs(), row) + end);
            files.push(damage.file);
        }
    }
    files
}

/// The file with so many bytes wrong from a place on, cut at another.
fn wrong_and_cut(draft: &Draft, at: usize, length: usize, end: usize) -> Vec<u8> {
    let mut damage = Damage::new(draft);
    damage.set(at, &vec![u8::MAX; length]);
    damage.cut(end);
    damage.file
}

/// Bytes after the last row, and more rows than are counted.
fn leftovers(draft: &Draft) -> Vec<Vec<u8>> {
    let mut files = Vec::new();
    for more in [1, 2, 14, 15, 16, 255, 256, 1_000] {
        for byte in [0, 1, ROW_LENGTH, u8::MAX] {
            let mut damage = Damage::new(draft);
            damage.add(&vec![byte; more]);
            files.push(damage.file);
        }
    }
    for rows in 0..draft.rows() {
        let mut damage = Damage::new(draft);
        damage.set_row_count(rows);
        files.push(damage.file);
    }
    files
}

/// The file struck with each of these numbers, a few draws of each.
fn struck(draft: &Draft, numbers: &[u8], spot: Spot) -> Vec<Vec<u8>> {
    let mut files = Vec::new();
    for &number in numbers {
        for draw in 0..DRAWS {
            let mut damage = Damage::new(draft);
            let prng = &mut source(DRAWS * (spot.job + spot.row) + draw);
            damage.strike_at(prng, number, spot);
            files.push(damage.file);
        }
    }
    files
}

/// Row counts that are too high or promise too much after each number of jobs, and jobs that are not counted.
fn every_count(draft: &Draft) -> Vec<Vec<u8>> {
    let mut files = Vec::new();
    for jobs in 1..=draft.jobs() {
        let without_rows = Draft::new(2, 1, &draft.plan.jobs[..jobs]);
        for rows in [1, MOST_ROWS as usize, MOST_ROWS as usize + 1, 0xFFFF] {
            let mut damage = Damage::new(&without_rows);
            damage.set_row_count(rows);
            files.push(damage.file);
        }
        files.push(with_byte(draft, JOB_COUNT_AT, jobs as u8));
    }
    files
}

/// The numbers that a job can have besides that of its length byte.
const OF_JOBS: [u8; 4] = [NAME_BYTE, NAME_TWICE, GRADE, TIMES_OR_SIZE];

fn every_job(draft: &Draft) -> Vec<Vec<u8>> {
    let mut files = Vec::new();
    for job in 0..draft.jobs() {
        files.push(with_byte(draft, job_at(job), ROW_LENGTH));
        files.extend(struck(draft, &OF_JOBS, Spot { job, row: 0 }));
    }
    files
}

/// The numbers that a row can have besides that of its length byte.
const OF_ROWS: [u8; 4] = [NO_SUCH_JOB, NO_SUCH_INTERVAL, NO_UNITS, ROW_ORDER];

fn wrong_row(draft: &Draft, row: usize) -> Vec<Vec<u8>> {
    let mut files = struck(draft, &OF_ROWS, Spot { job: 0, row });
    files.push(with_byte(draft, row_at(draft.jobs(), row), JOB_LENGTH));
    files
}

fn every_row(draft: &Draft) -> Vec<Vec<u8>> {
    let rows = 0..draft.rows();
    rows.flat_map(|row| wrong_row(draft, row)).collect()
}

fn with_byte(draft: &Draft, at: usize, byte: u8) -> Vec<u8> {
    let mut damage = Damage::new(draft);
    damage.set(at, &[byte]);
    damage.file
}

/// Faults in rows of the largest file, far behind its beginning.
fn far_rows() -> Vec<Vec<u8>> {
    let draft = full_draft();
    let mut files = Vec::new();
    for row in [1, 63, 1_008, 2_015] {
        files.extend(wrong_row(&draft, row));
        for earlier in [0, row - 1] {
            let mut damage = Damage::new(&draft);
            damage.take_back(row, earlier);
            files.push(damage.file);
        }
    }
    files
}

/// Faults of every two numbers in one file, either of them before the other.
fn pairs() -> Vec<Vec<u8>> {
    let mut files = Vec::new();
    for first in VERSION..=ROW_ORDER {
        for second in first..=ROW_ORDER {
            for places in [
                (Where::First, Where::Last),
                (Where::Last, Where::First),
                (Where::Middle, Where::Middle),
            ] {
                let prng = &mut source(files.len());
                files.push(damaged_twice(prng, &ANY, (first, second), places));
            }
        }
    }
    files
}
