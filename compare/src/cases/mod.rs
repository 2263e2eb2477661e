//! Inputs written by hand, with the answers that the rules give them: each refusal of each call, the
//! cases of the rules, the largest file, the longest list.
//!
//! Archive and model are compared in these calls too, so both have to give the written answer.

mod desk;
mod ended;
mod files;
mod idle;
mod judged;
mod largest;
mod lists;
mod meter;
mod plan_e;
mod refused_shifts;
mod shifts;
mod slots;
mod sums;
mod texts;

use std::fmt::Debug;

use crate::both::{Both, Difference};

/// The cases that came out as they should.
#[derive(Default)]
pub struct Cases {
    both: Both,
    passed: u64,
}

impl Cases {
    /// Holds an answer to the written one.
    fn expect<T: Debug + PartialEq>(
        &mut self,
        case: &str,
        got: Result<T, Difference>,
        expected: T,
    ) -> Result<(), String> {
        match got {
            Ok(got) if got == expected => {
                self.passed += 1;
                Ok(())
            }
            Ok(got) => Err(format!(
                "case '{}': expected {:?}, got {:?}",
                case, expected, got
            )),
            Err(difference) => Err(format!("case '{}': {}", case, difference)),
        }
    }

    /// Holds a list to the written one. Where they differ only the first such place is told.
    fn expect_list<T: Debug + PartialEq>(
        &mut self,
        case: &str,
        got: &[T],
        expected: &[T],
    ) -> Result<(), String> {
        let differs = |&at: &usize| got.get(at) != expected.get(at);
        let first = (0..got.len().max(expected.len())).find(differs);
        let shown = first.map(|at| (at, got.get(at)));
        self.expect(case, Ok(shown), first.map(|at| (at, expected.get(at))))
    }
}

/// How many answers were as expected, or the first that was not.
pub fn all() -> Result<u64, String> {
    let cases = &mut Cases::default();
    of_plans(cases)?;
    of_runs(cases)?;
    of_lists(cases)?;
    of_meters(cases)?;
    Ok(cases.passed)
}

/// Plan files, judging and the desk.
fn of_plans(cases: &mut Cases) -> Result<(), String> {
    files::read(cases)?;
    files::rows_again(cases)?;
    files::shorts(cases)?;
    files::names(cases)?;
    judged::plans(cases)?;
    judged::words(cases)?;
    judged::shorts(cases)?;
    desk::timetables(cases)?;
    desk::most_jobs(cases)?;
    desk::short_pairs(cases)?;
    desk::refused(cases)?;
    desk::shorts(cases)
}

/// Slots, words of the host, shifts, and the largest of all.
fn of_runs(cases: &mut Cases) -> Result<(), String> {
    slots::done(cases)?;
    slots::refused(cases)?;
    slots::shorts(cases)?;
    slots::outcomes(cases)?;
    ended::words(cases)?;
    ended::runs(cases)?;
    shifts::of_plan_e(cases)?;
    shifts::of_others(cases)?;
    refused_shifts::grounds(cases)?;
    refused_shifts::rooms(cases)?;
    idle::slots(cases)?;
    idle::nights(cases)?;
    idle::sums(cases)?;
    sums::columns(cases)?;
    sums::dues(cases)?;
    largest::file(cases)
}

/// Texts of job lists, and lists.
fn of_lists(cases: &mut Cases) -> Result<(), String> {
    texts::refused(cases)?;
    texts::taken(cases)?;
    texts::nines(cases)?;
    texts::counts(cases)?;
    texts::shorts(cases)?;
    lists::done(cases)?;
    lists::rooms(cases)?;
    lists::unsound(cases)?;
    lists::counts(cases)?;
    lists::longest(cases)?;
    lists::of_plan(cases)
}

/// Readings and logs of the line meter.
fn of_meters(cases: &mut Cases) -> Result<(), String> {
    meter::readings(cases)?;
    meter::whole_numbers(cases)?;
    meter::logs(cases)?;
    meter::refused_logs(cases)?;
    meter::lists(cases)?;
    meter::most_readings(cases)
}
