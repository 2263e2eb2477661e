//! Plan E of the rules by hand: its file byte for byte, its words and its table.

use reference::edition::TABLE_PLACES;
use reference::generate::{Prng, Purpose};

use crate::inputs::ENOUGH;
use crate::memory::{Listing, Memory};
use crate::words::{JOB_COUNT, LIST_WORDS, PLAN_WORDS};

/// Where the parts of the file begin.
pub const LENGTH: usize = 1;
pub const RATES: usize = 5;
pub const COUNT: usize = 9;
pub const JOB_0: usize = 10;
pub const JOB_1: usize = 32;
pub const ROW_COUNT: usize = 54;
pub const ROW_0: usize = 56;
pub const ROW_1: usize = 71;
pub const ROW_2: usize = 86;
pub const ROW_3: usize = 101;
pub const END: usize = 116;

/// Where the fields begin in a job and in a row, counted from the length byte.
pub const NAME_IN: usize = 1;
pub const GRADE_IN: usize = 9;
pub const RELEASE_IN: usize = 10;
pub const SIZE_IN: usize = 14;
pub const DEADLINE_IN: usize = 18;
pub const INTERVAL_IN: usize = 9;
pub const UNITS_IN: usize = 11;

pub const LO: u64 = 0;
pub const HI: u64 = 1;

/// The file: version 1, 111 bytes that follow, rates 2 and 1, two jobs, four rows.
pub const FILE: &[u8; END] = b"\x01\0\0\0\x6F\0\x02\0\x01\x02\
    \x15Mirror-A\0\0\0\0\0\0\0\0\x06\0\0\0\x05\
    \x15mirror-A\x01\0\0\0\x01\0\0\0\x08\0\0\0\x0A\
    \0\x04\
    \x0EMirror-A\0\0\0\0\0\x02\
    \x0EMirror-A\0\x01\0\0\0\x04\
    \x0Emirror-A\0\x01\0\0\0\x04\
    \x0Emirror-A\0\x02\0\0\0\x04";

/// The jobs as name, grade, release, size, deadline.
pub const JOBS: [Job; 2] = [(b"Mirror-A", LO, 0, 6, 5), (b"mirror-A", HI, 1, 8, 10)];

/// The rows of its table.
pub const ROWS: [&[u32]; 2] = [&[2, 4, 0], &[0, 4, 4]];

pub type Job = (&'static [u8; 8], u64, u64, u64, u64);

/// The file with some bytes replaced.
pub fn with(at: usize, bytes: &[u8]) -> Vec<u8> {
    let mut file = FILE.to_vec();
    file[at..at + bytes.len()].copy_from_slice(bytes);
    file
}

/// The beginning of the file, with a length field that agrees.
pub fn cut_at(length: usize) -> Vec<u8> {
    let mut file = FILE[..length].to_vec();
    file[LENGTH + 3] = (length - RATES) as u8;
    file
}

/// The file with row 1 a second time, some bytes of it replaced. Row count and length agree with it.
pub fn with_row_again(at: usize, bytes: &[u8]) -> Vec<u8> {
    let mut row = FILE[ROW_1..ROW_2].to_vec();
    row[at..at + bytes.len()].copy_from_slice(bytes);
    let mut file = with(ROW_COUNT, &[0, 5]);
    file[LENGTH + 3] += row.len() as u8;
    let tail = file.split_off(ROW_2);
    [file, row, tail].concat()
}

/// The words of a plan; all jobs beyond are 0.
pub fn words(n: u64, d: u64, jobs: &[Job]) -> Vec<u64> {
    let mut words = vec![n, d, jobs.len() as u64];
    for &(name, grade, release, size, deadline) in jobs {
        words.extend([u64::from_be_bytes(*name), grade, release, size, deadline]);
    }
    words.resize(PLAN_WORDS, 0);
    words
}

/// The words of a list: a plan's from the count on.
pub fn list_words(jobs: &[Job]) -> Vec<u64> {
    words(2, 1, jobs)[JOB_COUNT..].to_vec()
}

/// The words of a list of jobs that have these names, and all else in common.
pub fn named_words(names: &[[u8; 8]], others: [u64; 4]) -> Vec<u64> {
    let mut words = vec![names.len() as u64];
    for name in names {
        words.push(u64::from_be_bytes(*name));
        words.extend(others);
    }
    words.resize(LIST_WORDS, 0);
    words
}

/// A table with these rows; all other places are 0.
pub fn table(rows: &[&[u32]]) -> Vec<u32> {
    let mut table = vec![0; TABLE_PLACES];
    for (row, places) in rows.iter().zip(table.chunks_mut(63)) {
        places[..row.len()].copy_from_slice(row);
    }
    table
}

/// Memory with known words, and buffers just long enough or longer.
pub fn memory() -> Memory {
    Memory::known(&mut Prng::new(1, Purpose::Lending, 0), &ENOUGH)
}

/// The same for a job list.
pub fn listing() -> Listing {
    Listing::known(&mut Prng::new(1, Purpose::Lending, 0))
}

/// Memory with a plan of rates 2 and 1 and its table.
pub fn memory_of(jobs: &[Job], rows: &[&[u32]]) -> Memory {
    let mut memory = memory();
    memory.plan.put(0, &words(2, 1, jobs));
    memory.table.put(0, &table(rows));
    memory
}
