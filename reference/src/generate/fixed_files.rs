//! The plan files that are the same for every seed: the plans to try, runs with idle slots, every cut
//! and changed byte of a small file, every bound and one past it, each fault at each place, and short
//! buffers.

use super::accepted::accepted_of;
use super::damaged::{sound_base, Damage};
use super::draft::{
    job, job_at, patch, plan_e, plan_e_with, row_at, row_count_at, seal, widest_windows, Draft,
    AMPLE, ANY, DEADLINE_IN, EVERYWHERE, GRADE_IN, INTERVAL_IN, JOB_COUNT_AT, LENGTH_AT, NAME_IN,
    RATES_AT, RELEASE_IN, SIZE_IN, UNITS_IN,
};
use super::fixed_places::fixed_places;
use super::input::{FileInput, Lent};
use super::prng::{Prng, Purpose};
use crate::edition::{
    HI, LO, MOST_DEADLINE, MOST_INTERVALS, MOST_JOBS, MOST_ROWS, MOST_SIZE, TABLE_PLACES,
};
use crate::plan::{place_of, Job};
use crate::refusal::{ROW_ORDER, VERSION};

/// The seed of everything fixed that is drawn.
pub const SEED: u64 = 1;
/// Draws for each number and place of damage.
const DRAWS_OF_DAMAGE: u64 = 5;

/// All of them, in their order.
pub fn fixed_files() -> Vec<FileInput> {
    let parts = [
        cases(),
        short_runs_of_e(),
        runs_with_idle_slots(),
        cuts(),
        changed_bytes(),
        wrong_lengths(),
        rate_bounds(),
        job_bounds(),
        row_bounds(),
        judge_bounds(),
        every_width(),
        widest_files(),
        short_buffers(),
        damages(),
        wrong_places(),
    ];
    parts.concat()
}

fn of_file(file: Vec<u8>, speeds: &[u16]) -> FileInput {
    FileInput {
        lent: AMPLE,
        file,
        speeds: speeds.to_vec(),
    }
}

fn of_draft(draft: &Draft, speeds: &[u16]) -> FileInput {
    of_file(draft.file(), speeds)
}

/// The file of plan E with some bytes replaced.
fn patched_e(at: usize, bytes: &[u8]) -> FileInput {
    let mut file = plan_e().file();
    patch(&mut file, at, bytes);
    of_file(file, &[2, 1])
}

/// The plans to try, each with speeds that show something.
fn cases() -> Vec<FileInput> {
    let run = [2, 2, 2, 1, 1, 1, 1];
    vec![
        of_draft(&plan_e(), &run),
        of_draft(&plan_e_with(&[2, 4, 0], &[0, 3, 5]), &run),
        of_draft(&plan_e_with(&[2, 4, 0], &[0, 2, 6]), &run),
        of_draft(&plan_e_with(&[2, 4, 0], &[0, 4, 3]), &run),
        of_draft(
            &four_jobs(),
            &[2, 2, 2, 2, 2, 1, 1, 1, 1, 1, 1, 1, 1, 1, 1, 1, 1],
        ),
        of_draft(&three_jobs(&[0, 2]), &run),
        of_draft(&three_jobs(&[2, 0]), &run),
        of_draft(&plan_e_with(&[2, 3, 1], &[0, 4, 4]), &run),
        of_draft(&later_deadline_first(), &[2, 1, 1, 1]),
        of_draft(&plan_e(), &[2, 2]),
        of_draft(&plan_e(), &[1]),
        of_draft(&plan_e(), &[3]),
        of_draft(&two_reports(), &[2, 1, 1, 1, 2]),
        patched_e(row_at(2, 2) + NAME_IN, b"MIRROR-A"),
        patched_e(RATES_AT, &[0, 2, 0, 2]),
        of_file(Vec::new(), &[2]),
        of_file(vec![1], &[2]),
    ]
}

fn four_jobs() -> Draft {
    let jobs = [
        job(b"essent-1", HI, 0, 8, 10),
        job(b"essent-2", HI, 0, 4, 16),
        job(b"other--1", LO, 0, 6, 4),
        job(b"other--2", LO, 0, 10, 12),
    ];
    let rows: [&[u32]; 4] = [&[2, 6, 0, 0], &[0, 0, 0, 4], &[6, 0, 0, 0], &[0, 6, 4, 0]];
    Draft::new(2, 1, &jobs).with_rows(&rows)
}

fn three_jobs(second: &[u32]) -> Draft {
    let jobs = [
        job(b"other--1", LO, 0, 4, 2),
        job(b"essent-1", HI, 0, 2, 4),
        job(b"essent-2", HI, 2, 2, 4),
    ];
    Draft::new(2, 1, &jobs).with_rows(&[&[4, 0], second, &[0, 2]])
}

fn later_deadline_first() -> Draft {
    let jobs = [job(b"transf-B", HI, 0, 2, 4), job(b"transf-A", HI, 0, 2, 2)];
    Draft::new(2, 1, &jobs).with_rows(&[&[2, 0], &[2, 0]])
}

/// Two jobs with nothing to send between them.
fn two_reports() -> Draft {
    let jobs = [job(b"report-1", LO, 0, 2, 2), job(b"report-2", LO, 4, 2, 6)];
    Draft::new(2, 1, &jobs).with_rows(&[&[2, 0, 0], &[0, 0, 2]])
}

/// Plan E with every choice of three speeds, then slots at the floor or at the normal rate.
fn short_runs_of_e() -> Vec<FileInput> {
    let mut inputs = Vec::new();
    for choice in 0..128_u16 {
        let mut speeds = vec![choice % 4, choice / 4 % 4, choice / 16 % 4];
        speeds.extend([1 + choice / 64; 9]);
        inputs.push(of_draft(&plan_e(), &speeds));
    }
    inputs
}

/// The two reports with every choice of five speeds, then a slot at the normal rate.
fn runs_with_idle_slots() -> Vec<FileInput> {
    let mut inputs = Vec::new();
    for choice in 0..243_u16 {
        let speeds = [1, 3, 9, 27, 81].map(|weight| choice / weight % 3);
        inputs.push(of_draft(&two_reports(), &[&speeds[..], &[2]].concat()));
    }
    inputs
}

/// Every beginning of a small file, with the old length field and with one that fits.
fn cuts() -> Vec<FileInput> {
    let whole = plan_e().file();
    let mut inputs = Vec::new();
    for length in 0..whole.len() {
        let mut file = whole[..length].to_vec();
        inputs.push(of_file(file.clone(), &[]));
        seal(&mut file);
        inputs.push(of_file(file, &[]));
    }
    inputs
}

/// Every byte of a small file changed in four ways.
fn changed_bytes() -> Vec<FileInput> {
    let whole = plan_e().file();
    let mut inputs = Vec::new();
    for at in 0..whole.len() {
        for change in [0x01, 0x20, 0x80, 0xFF] {
            let mut file = whole.clone();
            file[at] ^= change;
            inputs.push(of_file(file, &[2, 2]));
        }
    }
    inputs
}

/// Length fields that are wrong, and bytes after the last row.
fn wrong_lengths() -> Vec<FileInput> {
    let whole = plan_e().file();
    let right = whole.len() as u32 - 5;
    let mut inputs = Vec::new();
    for length in [
        0,
        1,
        right - 1,
        right + 1,
        right + 256,
        30_951,
        30_952,
        u32::MAX - 4,
        u32::MAX,
    ] {
        inputs.push(patched_e(LENGTH_AT, &length.to_be_bytes()));
    }
    for more in [1, 2, 4, 15] {
        let mut file = whole.clone();
        file.extend(vec![14; more]);
        inputs.push(of_file(file.clone(), &[]));
        seal(&mut file);
        inputs.push(of_file(file, &[]));
    }
    inputs
}

/// Rates at their bounds and one past each, and the job count.
fn rate_bounds() -> Vec<FileInput> {
    let mut inputs = Vec::new();
    let rates: [(u16, u16); 15] = [
        (2, 1),
        (3, 2),
        (1_000, 1),
        (1_000, 999),
        (999, 998),
        (1_000, 1_000),
        (1_001, 1),
        (1_001, 1_000),
        (2, 2),
        (2, 3),
        (2, 0),
        (1, 0),
        (0, 0),
        (u16::MAX, 1),
        (258, 257),
    ];
    for (n, d) in rates {
        let mut bytes = n.to_be_bytes().to_vec();
        bytes.extend(d.to_be_bytes());
        inputs.push(patched_e(RATES_AT, &bytes));
    }
    for count in [0, 1, 3, 32, 33, 255] {
        inputs.push(patched_e(JOB_COUNT_AT, &[count]));
    }
    inputs
}

/// Plan E with each of these bytes at one place.
fn bytes_at(at: usize, bytes: &[u8]) -> Vec<FileInput> {
    bytes.iter().map(|&byte| patched_e(at, &[byte])).collect()
}

/// Plan E with each of these numbers of four bytes at one place.
fn numbers_at(at: usize, numbers: &[u32]) -> Vec<FileInput> {
    let patched = |number: &u32| patched_e(at, &number.to_be_bytes());
    numbers.iter().map(patched).collect()
}

/// Fields of the first and the last job of plan E at their bounds and one past each.
fn job_bounds() -> Vec<FileInput> {
    let name_bytes = [0, 0x20, 0x21, 0x7E, 0x7F, 0xFF];
    let sizes = [0, 1, MOST_SIZE as u32, MOST_SIZE as u32 + 1, u32::MAX];
    let latest = [MOST_DEADLINE - 1, MOST_DEADLINE, MOST_DEADLINE + 1];
    let mut inputs = Vec::new();
    for position in [0, 1] {
        let at = job_at(position);
        inputs.extend(bytes_at(at, &[0, 14, 20, 22, 255]));
        inputs.extend(bytes_at(at + NAME_IN, &name_bytes));
        inputs.extend(bytes_at(at + NAME_IN + 7, &name_bytes));
        inputs.extend(bytes_at(at + GRADE_IN, &[0, 1, 2, 255]));
        inputs.extend(numbers_at(at + SIZE_IN, &sizes));
        for field in [RELEASE_IN, DEADLINE_IN] {
            inputs.extend(numbers_at(at + field, &[0, 4, 5, 9, 10, u32::MAX]));
            inputs.extend(numbers_at(at + field, &latest));
        }
    }
    inputs.push(patched_e(job_at(1) + NAME_IN, b"Mirror-A"));
    inputs
}

/// The row count and the fields of each row of plan E at their bounds and one past each.
fn row_bounds() -> Vec<FileInput> {
    let names = [b"Mirror-A", b"mirror-A", b"MIRROR-A", b"Mirror-B"];
    let mut inputs = Vec::new();
    for count in [0, 3, 5, MOST_ROWS as u16, MOST_ROWS as u16 + 1, u16::MAX] {
        inputs.push(patched_e(row_count_at(2), &count.to_be_bytes()));
    }
    for row in 0..4 {
        let at = row_at(2, row);
        inputs.extend(bytes_at(at, &[0, 13, 15, 21, 255]));
        inputs.extend(names.map(|name| patched_e(at + NAME_IN, name)));
        for interval in [0, 1, 2, 3, 62, 63, 256, u16::MAX] {
            inputs.push(patched_e(at + INTERVAL_IN, &interval.to_be_bytes()));
        }
        let units = [0, 1, 3, MOST_SIZE as u32, 1 << 31, u32::MAX];
        inputs.extend(numbers_at(at + UNITS_IN, &units));
    }
    inputs
}

/// One job that gets all its units in its only interval.
fn one_job(rates: (u16, u16), grade: u8, window: (u32, u32), size: u32) -> FileInput {
    let only = job(b"only-job", grade, window.0, u64::from(size), window.1);
    let draft = Draft::new(rates.0, rates.1, &[only]).with_rows(&[&[size]]);
    of_draft(&draft, &[rates.0, rates.0, rates.1, rates.1, 0])
}

/// Sums at the limit of the judge's rules and one past it.
fn judge_bounds() -> Vec<FileInput> {
    let whole = (0, MOST_DEADLINE);
    let last_slot = (MOST_DEADLINE - 1, MOST_DEADLINE);
    let mut inputs = vec![
        one_job((1_000, 999), LO, whole, MOST_SIZE as u32),
        one_job((999, 998), LO, whole, 99_900_000),
        one_job((999, 998), LO, whole, 99_900_001),
        one_job((999, 998), LO, whole, MOST_SIZE as u32),
        one_job((1_000, 999), HI, whole, 99_900_000),
        one_job((1_000, 999), HI, whole, 99_900_001),
        one_job((1_000, 999), HI, whole, MOST_SIZE as u32),
        one_job((2, 1), HI, whole, 100_000),
        one_job((2, 1), HI, whole, 100_001),
        one_job((2, 1), LO, last_slot, 1),
        one_job((2, 1), LO, last_slot, 2),
        one_job((2, 1), LO, last_slot, 3),
        one_job((2, 1), HI, last_slot, 1),
        one_job((2, 1), HI, last_slot, 2),
        one_job((1_000, 999), HI, last_slot, 999),
        one_job((1_000, 999), HI, last_slot, 1_000),
        one_job((1_000, 999), LO, last_slot, 1_000),
        one_job((1_000, 999), LO, last_slot, 1_001),
    ];
    inputs.extend(wide_sums());
    inputs
}

/// Sums that 32 bits cannot hold, or barely.
fn wide_sums() -> Vec<FileInput> {
    let half = 1 << 31;
    let full = u32::MAX;
    let mut inputs = vec![
        of_draft(&plan_e_with(&[2 + half, 4 + half, 0], &[0, 4, 4]), &[2]),
        of_draft(&plan_e_with(&[full, 7, 0], &[0, 4, 4]), &[2]),
        of_draft(&plan_e_with(&[2, 4, 0], &[0, full, 9]), &[2]),
        of_draft(&plan_e_with(&[2, 4 + half, 0], &[0, 4 + half, 4]), &[2]),
        of_draft(&plan_e_with(&[2, 4, 0], &[0, 4 + half, 4 + half]), &[2]),
        of_draft(&plan_e_with(&[full, full, full], &[full, full, full]), &[2]),
    ];
    for grade in [LO, HI] {
        let jobs: Vec<Job> = (0..MOST_JOBS)
            .map(|i| Job {
                name: [b'a' + i as u8 % 26, b'A' + i as u8, 33, 33, 33, 33, 33, 33],
                grade,
                release: 0,
                size: MOST_SIZE,
                deadline: MOST_DEADLINE,
            })
            .collect();
        let row: &[u32] = &[MOST_SIZE as u32];
        inputs.push(of_draft(
            &Draft::new(1_000, 1, &jobs).with_rows(&[row; MOST_JOBS]),
            &[1],
        ));
    }
    inputs
}

/// An accepted plan for each number of intervals, with as few jobs as can make them and one more.
fn every_width() -> Vec<FileInput> {
    let mut inputs = Vec::new();
    for intervals in 1..=MOST_INTERVALS {
        let jobs = (intervals / 2 + 1 + intervals % 2).min(MOST_JOBS);
        let mut prng = Prng::new(SEED, Purpose::Fixed, intervals as u64);
        let mut draft = accepted_of(&mut prng, &ANY, jobs, intervals + 1);
        while draft.intervals().len() != intervals {
            draft = accepted_of(&mut prng, &ANY, jobs, intervals + 1);
        }
        let run = [
            draft.plan.n,
            draft.plan.n,
            draft.plan.n,
            draft.plan.d,
            draft.plan.d,
        ];
        inputs.push(of_draft(&draft, &run));
    }
    inputs
}

/// The plan with the most jobs and intervals, one unit in every place.
pub fn full_draft() -> Draft {
    let jobs: Vec<Job> = widest_windows()
        .iter()
        .enumerate()
        .map(|(i, &(release, deadline))| {
            let name = [b'!' + i as u8, 0x7E, 0x21, 0x7E, 0x21, 0x7E, 0x21, 0x7E];
            job(
                &name,
                if i % 2 == 0 { HI } else { LO },
                release,
                1,
                deadline,
            )
        })
        .collect();
    let row: &[u32] = &[1; MOST_INTERVALS];
    Draft::new(1_000, 500, &jobs).with_rows(&[row; MOST_JOBS])
}

/// The largest file, the same with a leftover byte, and accepted plans of the widest shape.
fn widest_files() -> Vec<FileInput> {
    let mut largest = full_draft();
    let mut longer = largest.file();
    longer.push(14);
    seal(&mut longer);
    let mut inputs = vec![of_draft(&largest, &[1_000]), of_file(longer, &[])];
    for i in 0..MOST_JOBS {
        for j in 0..MOST_INTERVALS {
            // Only the first interval of each window keeps its unit.
            if i != j {
                largest.table[place_of(i, j)] = 0;
            }
        }
    }
    let run: Vec<u16> = (0..66)
        .map(|slot| if slot < 40 { 1_000 } else { 500 })
        .collect();
    inputs.push(of_draft(&largest, &run));
    for input in 0..6 {
        let mut prng = Prng::new(SEED, Purpose::Fixed, input);
        let draft = accepted_of(&mut prng, &ANY, MOST_JOBS, 2 * MOST_JOBS);
        inputs.push(of_draft(&draft, &[draft.plan.n; 70]));
    }
    inputs
}

/// Buffers of every length around the exact one, for a plan of two jobs and the length of its file.
pub fn lents(exact: usize) -> Vec<Lent> {
    let tables = [
        0,
        1,
        MOST_INTERVALS,
        TABLE_PLACES - 1,
        TABLE_PLACES,
        TABLE_PLACES + 1,
        AMPLE.table,
    ];
    let outputs = [0, 1, 5, exact - 1, exact, exact + 1];
    let mut lents: Vec<Lent> = Vec::new();
    lents.extend(tables.map(|table| Lent { table, ..AMPLE }));
    lents.extend(outputs.map(|output| Lent { output, ..AMPLE }));
    lents.extend([0, 1, 2, 3, 32].map(|grants| Lent { grants, ..AMPLE }));
    lents
}

/// Plan E and a file that is refused, with each of these buffers.
fn short_buffers() -> Vec<FileInput> {
    let file = plan_e().file();
    let mut inputs = Vec::new();
    for lent in lents(file.len()) {
        for file in [&file[..], &file[..40]] {
            inputs.push(FileInput {
                lent,
                file: file.to_vec(),
                speeds: vec![2, 2, 3, 1],
            });
        }
    }
    inputs
}

/// Each number of the reader at the first, a middle and the last place.
fn damages() -> Vec<FileInput> {
    let mut inputs = Vec::new();
    for number in VERSION..=ROW_ORDER {
        for place in EVERYWHERE {
            for _ in 0..DRAWS_OF_DAMAGE {
                let mut prng = Prng::new(SEED, Purpose::Fixed, inputs.len() as u64);
                let mut damage = Damage::new(&sound_base(&mut prng, &ANY));
                damage.strike(&mut prng, number, place);
                inputs.push(of_file(damage.file, &[2]));
            }
        }
    }
    inputs
}

/// Faults at many places.
fn wrong_places() -> Vec<FileInput> {
    let of_place = |file| of_file(file, &[2]);
    fixed_places().into_iter().map(of_place).collect()
}
