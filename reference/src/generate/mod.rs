//! Makes test inputs in memory: fixed ones, and others that a seed and a number determine.

mod accepted;
mod bad_inputs;
mod damaged;
mod desks;
mod draft;
mod fields;
mod fixed_files;
mod fixed_hands;
mod fixed_lists;
mod fixed_meters;
mod fixed_places;
mod fixed_texts;
mod floats;
mod hand;
mod input;
mod joblists;
mod listhand;
mod meters;
mod nights;
mod prng;
mod refused;
mod sheet;
mod sheet_damage;
mod shifts;
mod speeds;
mod words;

use crate::edition::TABLE_PLACES;
use crate::plan::{Job, Plan};
use crate::reader::contents;
use crate::refusal::{ROW_ORDER, VERSION};
use crate::run::Run;
use draft::{Draft, Limits, ANY, EVERYWHERE, SMALL};
use refused::PLACED;
use sheet::Sheet;

pub use bad_inputs::bad_inputs;
pub use fixed_files::fixed_files;
pub use fixed_hands::fixed_hands;
pub use fixed_lists::fixed_lists;
pub use fixed_meters::{fixed_logs, fixed_readings};
pub use fixed_texts::fixed_texts;
pub use input::{
    DeskInput, FileInput, HandInput, Lent, ListInput, LogInput, ReadingInput, ShiftInput, Word,
};
pub use nights::night;
pub use prng::{Prng, Purpose};

/// One input in this many is drawn without limits, all others are small.
const CYCLE: u64 = 10;

/// The shares of wrong files are counted among so many.
const WRONG_CHOICES: u64 = 28;

/// The limits that the number of an input sets for it.
fn limits_of(number: u64) -> &'static Limits {
    if number % CYCLE == 0 {
        &ANY
    } else {
        &SMALL
    }
}

/// A plan file with speeds, drawn from the seed and its own number alone.
pub fn file(seed: u64, number: u64) -> FileInput {
    let prng = &mut Prng::new(seed, Purpose::File, number);
    let limits = limits_of(number);
    match prng.below(100) {
        0..=53 => {
            let draft = accepted::accepted(prng, limits);
            run_of(prng, limits, &draft)
        }
        54..=71 => refused_file(prng, limits),
        choice => of_file(limits, wrong_file(prng, limits, choice - 72)),
    }
}

/// A plan file that the reader refuses, drawn from the seed and its own number alone.
pub fn damaged_input(seed: u64, number: u64) -> FileInput {
    let prng = &mut Prng::new(seed, Purpose::Damaged, number);
    let limits = limits_of(number);
    loop {
        let choice = prng.below(WRONG_CHOICES);
        let file = wrong_file(prng, limits, choice);
        if contents(&file).is_err() {
            return of_file(limits, file);
        }
    }
}

/// A plan in hand with a run and speeds, drawn from the seed and its own number alone.
pub fn hand(seed: u64, number: u64) -> HandInput {
    let prng = &mut Prng::new(seed, Purpose::Hand, number);
    let mut input = hand::hand(prng, limits_of(number));
    // The marks have a source of their own, so that plan, table and the rest of the run do not depend
    // on them.
    hand::set_ended(&mut Prng::new(seed, Purpose::Ended, number), &mut input.run);
    // Speeds come last, since what is due depends on all the rest.
    hand::set_speeds(prng, &mut input);
    input
}

/// The words of the host in a run, drawn from the seed and the number of the input that the run
/// comes from. The run stands at its beginning; plan and run may be ones that no call takes.
pub fn words(seed: u64, number: u64, plan: &Plan, run: &Run, speeds: &[u16]) -> Vec<Word> {
    let prng = &mut Prng::new(seed, Purpose::Words, number);
    words::words(prng, plan, run.clock, speeds.len())
}

/// A shift that goes on from a run, drawn from the seed and the number of the input that the run
/// comes from. Plan and run may be ones that no call takes.
pub fn shift_input(seed: u64, number: u64, plan: &Plan, run: &Run) -> ShiftInput {
    let prng = &mut Prng::new(seed, Purpose::Shift, number);
    shifts::shift(prng, plan, run.clock)
}

/// A plan in hand with a table for the desk, drawn from the seed and its own number alone.
pub fn desk_input(seed: u64, number: u64) -> DeskInput {
    desks::desk(&mut Prng::new(seed, Purpose::Desk, number))
}

/// A text for import, right or wrong, drawn from the seed and its own number alone.
pub fn job_text(seed: u64, number: u64) -> Vec<u8> {
    let prng = &mut Prng::new(seed, Purpose::JobText, number);
    let most = limits_of(number).jobs;
    match prng.below(100) {
        0..=29 => quoted_at_will(prng, most).1,
        30..=79 => sheet_damage::struck(prng, most),
        80..=93 => sheet_damage::sprinkled(prng, most),
        _ => sheet_damage::random_pieces(prng),
    }
}

/// A sound list and a text that imports to it, drawn from the seed and its own number alone.
pub fn quoted_list(seed: u64, number: u64) -> (Vec<Job>, Vec<u8>) {
    let prng = &mut Prng::new(seed, Purpose::QuotedList, number);
    quoted_at_will(prng, limits_of(number).jobs)
}

/// A job list in hand for export, drawn from the seed and its own number alone.
pub fn job_list(seed: u64, number: u64) -> ListInput {
    let prng = &mut Prng::new(seed, Purpose::JobList, number);
    listhand::list(prng, limits_of(number).jobs)
}

/// A reading of the meter with a rate, drawn from the seed and its own number alone.
pub fn reading_input(seed: u64, number: u64) -> ReadingInput {
    meters::reading(&mut Prng::new(seed, Purpose::Reading, number))
}

/// A log of the meter with a rate and a list, drawn from the seed and its own number alone.
pub fn log_input(seed: u64, number: u64) -> LogInput {
    meters::log(&mut Prng::new(seed, Purpose::Log, number))
}

/// A sound list of at most so many jobs, and its text with more quotes than there must be.
fn quoted_at_will(prng: &mut Prng, most: usize) -> (Vec<Job>, Vec<u8>) {
    let jobs = joblists::jobs(prng, most);
    let text = Sheet::drawn(prng, &jobs).text();
    (jobs, text)
}

fn of_file(limits: &Limits, file: Vec<u8>) -> FileInput {
    FileInput {
        lent: limits.lent,
        file,
        speeds: vec![2, 1],
    }
}

/// A draft as a file with the speeds of a run, now and then with scant buffers.
fn run_of(prng: &mut Prng, limits: &Limits, draft: &Draft) -> FileInput {
    let file = draft.file();
    let mut lent = limits.lent;
    if prng.once_in(10) {
        lent = scant(prng, file.len(), draft.jobs());
    }
    let speeds = speeds_of_draft(prng, draft);
    FileInput { lent, file, speeds }
}

/// Speeds for a run of a draft from its beginning.
fn speeds_of_draft(prng: &mut Prng, draft: &Draft) -> Vec<u16> {
    let speeds = speeds::speeds(prng, &draft.plan);
    speeds::or_around_dues(prng, speeds, &draft.plan, &draft.table, &draft.run())
}

/// Buffers around the lengths that a plan needs.
fn scant(prng: &mut Prng, exact: usize, jobs: usize) -> Lent {
    let tables = [0, TABLE_PLACES - 1, TABLE_PLACES, TABLE_PLACES + 1];
    Lent {
        table: prng.pick(&tables),
        output: prng.pick(&[exact, exact - 1, exact + 1, 0]),
        grants: prng.pick(&[jobs, jobs - 1, jobs + 1, 0]),
    }
}

/// A plan that the judge refuses.
fn refused_draft(prng: &mut Prng, limits: &Limits) -> Draft {
    match prng.below(12) {
        0 => refused::wide_column(prng, limits),
        1 => refused::heavy_column(prng),
        _ => {
            let number = prng.pick(&PLACED);
            let place = prng.pick(&EVERYWHERE);
            refused::refused(prng, limits, number, place)
        }
    }
}

fn refused_file(prng: &mut Prng, limits: &Limits) -> FileInput {
    let draft = refused_draft(prng, limits);
    run_of(prng, limits, &draft)
}

/// A damaged file, random bytes, or a file with a few random bytes, which may still be read.
fn wrong_file(prng: &mut Prng, limits: &Limits, choice: u64) -> Vec<u8> {
    match choice {
        0..=19 => damaged_file(prng, limits),
        20..=22 => damaged::random_bytes(prng),
        _ => damaged::sprinkled(prng, limits),
    }
}

/// A file with one fault or two of the reader's numbers, or one that ends in a field.
fn damaged_file(prng: &mut Prng, limits: &Limits) -> Vec<u8> {
    let number = |prng: &mut Prng| prng.between(u64::from(VERSION), u64::from(ROW_ORDER)) as u8;
    let place = prng.pick(&EVERYWHERE);
    match prng.below(6) {
        0 => damaged::cut_in_field(prng, limits, place),
        1 | 2 => {
            let numbers = (number(prng), number(prng));
            let places = (place, prng.pick(&EVERYWHERE));
            damaged::damaged_twice(prng, limits, numbers, places)
        }
        _ => {
            let number = number(prng);
            damaged::damaged(prng, limits, number, place)
        }
    }
}
