//! What `gateway.h` says of each call, in terms of the reference: the number that it answers, and
//! what it leaves in each lent buffer.

use reference::desk::{draw_up, shortage as shortage_of, Shortage};
use reference::joblist::{export as export_jobs, import as import_jobs, JobList};
use reference::judge::judge as judge_plan;
use reference::lookup::name_lookup;
use reference::meter::{read_log, speed_of, Reading};
use reference::reader::reader;
use reference::refusal::{Refusal, DONE, NO_TIMETABLE, TOO_SHORT, UNSOUND};
use reference::run::{end as end_job, outcome as outcome_of, start as start_run, step as step_run};
use reference::run::{Outcome, Run};
use reference::shift::shift as shift_run;
use reference::slack::{slack_figure, SlackFigure};
use reference::writer::writer;

use crate::words::{list_of, plan_of, run_of, words_of_list, words_of_plan, words_of_run};
use crate::words::{LIST_WORDS, LOCATION_WORDS, PAIR_WORDS, PLAN_WORDS, RUN_WORDS};

/// Results that are no refusals.
pub const NONE_ESSENTIAL: u32 = 256;
pub const MET: u32 = 257;
pub const DISCARDED: u32 = 258;
pub const MISSED: u32 = 259;
pub const OPEN: u32 = 260;
pub const ENDED: u32 = 261;

pub fn read(file: &[u8], plan: &mut [u64], table: &mut [u32], offset: &mut usize) -> u32 {
    if plan.len() < PLAN_WORDS {
        return TOO_SHORT.into();
    }
    let answer = reader(file, table);
    plan[..PLAN_WORDS].copy_from_slice(&words_of_plan(&answer.plan));
    *offset = answer.offset.unwrap_or(0);
    answer.number.into()
}

pub fn name(file: &[u8], position: usize) -> usize {
    name_lookup(file, position as u64).offset
}

pub fn write(plan: &[u64], table: &[u32], out: &mut [u8], written: &mut usize) -> u32 {
    if plan.len() < PLAN_WORDS {
        return TOO_SHORT.into();
    }
    put_length(written, writer(&plan_of(plan), table, out))
}

pub fn judge(plan: &[u64], table: &[u32], location: &mut [u64]) -> u32 {
    if plan.len() < PLAN_WORDS || location.len() < LOCATION_WORDS {
        return TOO_SHORT.into();
    }
    match judge_plan(&plan_of(plan), table) {
        Ok(()) => put_location(location, &[], DONE.into()),
        Err(refusal) => put_refusal(location, &refusal),
    }
}

pub fn slack(plan: &[u64], table: &[u32], slack: &mut i64, location: &mut [u64]) -> u32 {
    if plan.len() < PLAN_WORDS || location.len() < LOCATION_WORDS {
        return TOO_SHORT.into();
    }
    *slack = 0;
    match slack_figure(&plan_of(plan), table) {
        Ok(SlackFigure::NoneEssential) => put_location(location, &[], NONE_ESSENTIAL),
        Ok(SlackFigure::Least {
            slack: least,
            interval,
            deadline,
        }) => {
            *slack = least;
            put_location(location, &[interval, deadline.into()], DONE.into())
        }
        Err(refusal) => put_refusal(location, &refusal),
    }
}

pub fn draw(plan: &[u64], table: &mut [u32]) -> u32 {
    if plan.len() < PLAN_WORDS {
        return TOO_SHORT.into();
    }
    draw_up(&plan_of(plan), table).into()
}

pub fn shortage(plan: &[u64], pair: &mut [u64]) -> u32 {
    if plan.len() < PLAN_WORDS || pair.len() < PAIR_WORDS {
        return TOO_SHORT.into();
    }
    let (number, words) = match shortage_of(&plan_of(plan)) {
        Shortage::TimetableExists => (DONE, [0; PAIR_WORDS]),
        Shortage::Refused(number) => (number, [0; PAIR_WORDS]),
        Shortage::At(short) => {
            let times = [short.essential.into(), short.other.into()];
            (NO_TIMETABLE, [times[0], times[1], short.asked, short.carries])
        }
    };
    pair[..PAIR_WORDS].copy_from_slice(&words);
    number.into()
}

pub fn start(plan: &[u64], table: &[u32], run: &mut [u32], location: &mut [u64]) -> u32 {
    let too_short = plan.len() < PLAN_WORDS || run.len() < RUN_WORDS || location.len() < LOCATION_WORDS;
    if too_short {
        return TOO_SHORT.into();
    }
    match start_run(&plan_of(plan), table) {
        Ok(started) => {
            run[..RUN_WORDS].copy_from_slice(&words_of_run(&started));
            put_location(location, &[], DONE.into())
        }
        Err(refusal) => put_refusal(location, &refusal),
    }
}

pub fn step(plan: &[u64], table: &[u32], run: &mut [u32], speed: u16, grants: &mut [u32]) -> u32 {
    let change = |record: &mut Run| step_run(&plan_of(plan), table, record, speed, grants);
    change_run(plan, run, change)
}

/// The outputs are the rows of grants and the numbers.
pub fn shift(
    plan: &[u64],
    table: &[u32],
    run: &mut [u32],
    speeds: &[u16],
    (rows, numbers): (&mut [u32], &mut [u8]),
) -> u32 {
    let change = |record: &mut Run| shift_run(&plan_of(plan), table, record, speeds, rows, numbers);
    change_run(plan, run, change)
}

pub fn end(plan: &[u64], run: &mut [u32], position: usize) -> u32 {
    let change = |record: &mut Run| end_job(&plan_of(plan), record, position as u64);
    change_run(plan, run, change)
}

/// A call on a plan and a run that changes the run's record and answers a number.
fn change_run(plan: &[u64], run: &mut [u32], change: impl FnOnce(&mut Run) -> u8) -> u32 {
    if plan.len() < PLAN_WORDS || run.len() < RUN_WORDS {
        return TOO_SHORT.into();
    }
    let mut record = match run_of(run) {
        Some(record) => record,
        None => return UNSOUND.into(),
    };
    let number = change(&mut record);
    run[..RUN_WORDS].copy_from_slice(&words_of_run(&record));
    number.into()
}

pub fn outcome(plan: &[u64], run: &[u32], position: usize) -> u32 {
    if plan.len() < PLAN_WORDS || run.len() < RUN_WORDS {
        return TOO_SHORT.into();
    }
    let record = match run_of(run) {
        Some(record) => record,
        None => return UNSOUND.into(),
    };
    match outcome_of(&plan_of(plan), &record, position as u64) {
        Ok(Outcome::Met) => MET,
        Ok(Outcome::Ended) => ENDED,
        Ok(Outcome::Discarded) => DISCARDED,
        Ok(Outcome::Missed) => MISSED,
        Ok(Outcome::Open) => OPEN,
        Err(number) => number.into(),
    }
}

pub fn import(text: &[u8], list: &mut [u64], offset: &mut usize) -> u32 {
    if list.len() < LIST_WORDS {
        return TOO_SHORT.into();
    }
    let (jobs, number, wrong_at) = match import_jobs(text) {
        Ok(jobs) => (jobs, DONE, 0),
        Err(fault) => (Vec::new(), fault.number, fault.offset),
    };
    list[..LIST_WORDS].copy_from_slice(&words_of_list(&JobList::of(&jobs)));
    *offset = wrong_at;
    number.into()
}

pub fn export(list: &[u64], out: &mut [u8], written: &mut usize) -> u32 {
    if list.len() < LIST_WORDS {
        return TOO_SHORT.into();
    }
    put_length(written, export_jobs(&list_of(list), out))
}

pub fn speed(reading: Reading, n: u16, speed: &mut u16) -> u32 {
    let told = speed_of(reading, n);
    *speed = told.unwrap_or(0);
    told.err().unwrap_or(DONE).into()
}

/// The single numbers are the count and the offset.
pub fn speeds(
    log: &[u8],
    n: u16,
    list: &mut [u16],
    (count, offset): (&mut usize, &mut usize),
) -> u32 {
    let read = read_log(log, n, list);
    *count = read.unwrap_or(0);
    *offset = read.err().and_then(|refusal| refusal.offset).unwrap_or(0);
    read.err().map_or(DONE, |refusal| refusal.number).into()
}

/// The length of what was written: 0 with a refusal.
fn put_length(written: &mut usize, result: Result<usize, u8>) -> u32 {
    *written = result.unwrap_or(0);
    result.err().unwrap_or(DONE).into()
}

/// Both words of a location: what is named, and 0 where nothing is.
fn put_location(location: &mut [u64], named: &[u64], number: u32) -> u32 {
    location[..LOCATION_WORDS].fill(0);
    location[..named.len()].copy_from_slice(named);
    number
}

fn put_refusal(location: &mut [u64], refusal: &Refusal) -> u32 {
    put_location(location, &refusal.places, refusal.number.into())
}
