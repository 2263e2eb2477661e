//! Words that no record can say: too large for their fields, marks other than 0 and 1, and rubbish
//! from the count on.

use std::ops::Range;

use reference::edition::MOST_JOBS;
use reference::generate::Prng;

use crate::between::wrong_mark;
use crate::buffer::Buffer;
use crate::memory::Memory;
use crate::words::{
    job_at, listed_at, CARRIED, DEADLINE, ENDED, FLOOR, GRADE, JOB_COUNT, LISTED_COUNT, LIST_WORDS,
    NORMAL_RATE, PLAN_WORDS, RELEASE, RUN_WORDS, SIZE,
};

/// The bits that the fields of a plan file have: rates; the count and a grade; times and sizes.
const RATE_BITS: u32 = u16::BITS;
const BYTE_BITS: u32 = u8::BITS;
const NUMBER_BITS: u32 = u32::BITS;

/// Leaves a third of the inputs as they are.
pub fn twist(prng: &mut Prng, memory: &mut Memory) {
    match prng.below(3) {
        0 => one_word(prng, memory),
        1 => rubbish(prng, memory),
        _ => (),
    }
}

/// The same of a job list alone.
pub fn twist_list(prng: &mut Prng, list: &mut Buffer<u64>) {
    let jobs = list.contents()[LISTED_COUNT].min(MOST_JOBS as u64) as usize;
    match prng.below(3) {
        0 => {
            let fields = fields_of(listed_at(prng.index(jobs.max(1))));
            enlarge(prng, list, &[&[(LISTED_COUNT, BYTE_BITS)], &fields[..]].concat());
        }
        1 => put_rubbish(prng, list, listed_at(jobs)..LIST_WORDS),
        _ => (),
    }
}

/// The words of a job that begins here, each with the bits of its field; a name fills its word.
fn fields_of(job: usize) -> [(usize, u32); 4] {
    [
        (job + GRADE, BYTE_BITS),
        (job + RELEASE, NUMBER_BITS),
        (job + SIZE, NUMBER_BITS),
        (job + DEADLINE, NUMBER_BITS),
    ]
}

/// One word of the head, of a counted job or of the marks.
fn one_word(prng: &mut Prng, memory: &mut Memory) {
    let fields = fields_of(job_at(prng.index(memory.jobs().max(1))));
    let head = [
        (NORMAL_RATE, RATE_BITS),
        (FLOOR, RATE_BITS),
        (JOB_COUNT, BYTE_BITS),
    ];
    if prng.once_in(4) {
        let (at, mark) = wrong_mark(prng, memory.jobs());
        memory.run.put(at, &[mark]);
        return;
    }
    enlarge(prng, &mut memory.plan, &[&head[..], &fields].concat());
}

/// Makes one of these words too large for its field.
fn enlarge(prng: &mut Prng, buffer: &mut Buffer<u64>, words: &[(usize, u32)]) {
    let (at, bits) = prng.pick(words);
    let large = too_large(prng, buffer.contents()[at], bits);
    buffer.put(at, &[large]);
}

/// A word that has bits beyond those of its field.
fn too_large(prng: &mut Prng, word: u64, bits: u32) -> u64 {
    match prng.below(5) {
        0 => word | 1 << bits,
        1 => word | 1 << prng.between(bits.into(), 63),
        2 => word | 1 << NUMBER_BITS,
        3 => 1 << bits,
        _ => u64::MAX,
    }
}

/// Words of any length.
fn put_rubbish(prng: &mut Prng, buffer: &mut Buffer<u64>, places: Range<usize>) {
    for at in places {
        let word = prng.word() >> prng.below(64);
        buffer.put(at, &[word]);
    }
}

/// Any words in the records from the count on and in what is carried for them, and any marks there.
fn rubbish(prng: &mut Prng, memory: &mut Memory) {
    let jobs = memory.jobs();
    put_rubbish(prng, &mut memory.plan, job_at(jobs)..PLAN_WORDS);
    for at in CARRIED + jobs..ENDED {
        let word = prng.word() as u32;
        memory.run.put(at, &[word]);
    }
    for at in ENDED + jobs..RUN_WORDS {
        memory.run.put(at, &[prng.below(2) as u32]);
    }
}
