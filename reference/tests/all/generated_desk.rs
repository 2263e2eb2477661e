//! The generated inputs of the desk: the same for the same seed, every answer and shape often, and equal to
//! what another way of placing and another sum over times give.

use std::collections::BTreeMap;

use crate::common::table;
use crate::desk_by_units::laid_down;
use reference::desk::{draw_up, shortage, Pair, Shortage};
use reference::edition::{HI, LO};
use reference::generate::{desk_input, DeskInput};
use reference::judge::judge;
use reference::plan::{Job, Plan};
use reference::refusal::{Refusal, DONE, NO_TIMETABLE, RELEASES_DIFFER, TOO_SHORT, UNSOUND};

const SEED: u64 = 31;
const DRAWN: u64 = 6_000;
/// How often each shape has to come.
const LEAST: u64 = 50;
/// Units that are laid down one at a time; of more units so many parts are made.
const PARTS: u64 = 400;
/// Slots from the release to the last deadline for which all times are tried.
const FEW_SLOTS: u32 = 40;

/// An input with the desk's answer and the table after it.
struct Case {
    input: DeskInput,
    answer: u8,
    after: Vec<u32>,
}

impl Case {
    fn drawn(number: u64) -> Case {
        let input = desk_input(SEED, number);
        let mut after = input.table.clone();
        Case {
            answer: draw_up(&input.plan, &mut after),
            after,
            input,
        }
    }

    fn plan(&self) -> &Plan {
        &self.input.plan
    }

    /// The grounds on which the call is refused, as far as the earlier ones allow to look for them.
    fn grounds(&self) -> Vec<u8> {
        let plan = self.plan();
        let mut grounds = Vec::new();
        if self.input.table.len() < 2_016 {
            grounds.push(TOO_SHORT);
        }
        if is_unsound(plan) {
            grounds.push(UNSOUND);
        } else if parted(plan.counted()) {
            grounds.push(RELEASES_DIFFER);
        } else if timetable(plan).is_none() {
            grounds.push(NO_TIMETABLE);
        }
        grounds
    }

    /// The table that is to come out.
    fn expected(&self) -> Vec<u32> {
        let own = match self.grounds().first() {
            Some(&TOO_SHORT | &UNSOUND) => return self.input.table.clone(),
            Some(_) => table(),
            None => timetable(self.plan()).expect("no ground for a refusal"),
        };
        [&own[..], &self.input.table[2_016..]].concat()
    }
}

/// An empty table has no stray place, so the judge finds a plan unsound by its rules alone.
fn is_unsound(plan: &Plan) -> bool {
    judge(plan, &table()) == Err(Refusal::without_place(UNSOUND))
}

fn parted(jobs: &[Job]) -> bool {
    jobs.windows(2).any(|two| two[0].release != two[1].release)
}

/// The table laid down in small parts without any test beforehand, if the judge accepts it.
fn timetable(plan: &Plan) -> Option<Vec<u32>> {
    let units: u64 = plan.counted().iter().map(|job| job.size).sum();
    laid_down(plan, units / PARTS + 1).filter(|table| judge(plan, table).is_ok())
}

fn cases() -> Vec<Case> {
    (0..DRAWN).map(Case::drawn).collect()
}

/// The cases in which the question of a timetable was answered.
fn answered() -> Vec<Case> {
    let mut cases = cases();
    cases.retain(|case| [DONE, NO_TIMETABLE].contains(&case.answer));
    cases
}

/// The sizes of a grade's jobs due by a time, or of all jobs.
fn due(plan: &Plan, grades: &[u8], time: u32) -> u64 {
    let jobs = plan.counted().iter();
    let due = jobs.filter(|job| grades.contains(&job.grade) && job.deadline <= time);
    due.map(|job| job.size).sum()
}

/// What is asked by two times and what the link carries, slot by slot: normal before the other time.
fn both_sides(plan: &Plan, essential: u32, other: u32) -> (u64, u64) {
    let asked = due(plan, &[HI], essential) + due(plan, &[LO], other);
    let rate = |slot: u32| u64::from(if slot < other { plan.n } else { plan.d });
    let slots = plan.counted()[0].release..essential.max(other);
    (asked, slots.map(rate).sum())
}

/// The first of all pairs of times that asks for more than the link carries, by the two lists' order.
fn first_short(plan: &Plan, essential: &[u32], other: &[u32]) -> Option<(u32, u32)> {
    let pairs = essential
        .iter()
        .flat_map(|&time| other.iter().map(move |&by| (time, by)));
    let mut short = pairs.filter(|&(time, by)| {
        let (asked, carries) = both_sides(plan, time, by);
        asked > carries
    });
    short.next()
}

/// The release and the deadlines of a grade's jobs, rising, some of them more than once.
fn times_of(plan: &Plan, grade: u8) -> Vec<u32> {
    let jobs = plan.counted().iter();
    let deadlines = jobs
        .filter(|job| job.grade == grade)
        .map(|job| job.deadline);
    let mut times: Vec<u32> = deadlines.chain([plan.jobs[0].release]).collect();
    times.sort_unstable();
    times
}

fn last_deadline(plan: &Plan) -> u32 {
    plan.counted().iter().map(|job| job.deadline).max().unwrap()
}

/// Whether one rate is enough for the jobs of some grades from the release to every deadline.
fn rate_is_enough(plan: &Plan, rate: u16, grades: &[u8]) -> bool {
    plan.counted().iter().all(|job| {
        let slots = job.deadline - job.release;
        due(plan, grades, job.deadline) <= u64::from(rate) * u64::from(slots)
    })
}

/// Whether by some pair exactly as much is asked as the link carries.
fn just_fits(plan: &Plan) -> bool {
    let (essential, other) = (times_of(plan, HI), times_of(plan, LO));
    essential.iter().any(|&time| {
        other.iter().any(|&by| {
            let (asked, carries) = both_sides(plan, time, by);
            asked == carries && asked > 0
        })
    })
}

fn assert_often<K: Ord + std::fmt::Debug>(counts: &BTreeMap<K, u64>, shapes: usize) {
    assert_eq!(counts.len(), shapes, "{:?}", counts);
    assert!(counts.values().all(|&count| count >= LEAST), "{:?}", counts);
}

/// How often each value comes.
fn tally<K: Ord>(values: impl Iterator<Item = K>) -> BTreeMap<K, u64> {
    let mut counts = BTreeMap::new();
    for value in values {
        *counts.entry(value).or_insert(0) += 1;
    }
    counts
}

#[test]
fn same_seed_gives_the_same_inputs_and_another_seed_does_not() {
    let all = |seed| -> Vec<DeskInput> { (0..300).map(|k| desk_input(seed, k)).collect() };
    assert!(all(1) == all(1) && all(1) != all(2));
}

#[test]
fn answer_and_table_are_those_of_the_other_way() {
    for (number, case) in cases().iter().enumerate() {
        let grounds = case.grounds();
        assert_eq!(case.answer, *grounds.first().unwrap_or(&DONE), "{}", number);
        assert!(case.after == case.expected(), "{}", number);
    }
}

#[test]
fn what_is_drawn_up_is_accepted() {
    for case in answered() {
        if case.answer == DONE {
            assert_eq!(judge(case.plan(), &case.after), Ok(()));
        }
    }
}

#[test]
fn planner_is_told_of_a_pair_exactly_when_there_is_no_timetable() {
    for case in cases() {
        let mut long_enough = table();
        let expected = match draw_up(case.plan(), &mut long_enough) {
            DONE => Shortage::TimetableExists,
            NO_TIMETABLE => {
                assert!(matches!(shortage(case.plan()), Shortage::At(_)));
                continue;
            }
            number => Shortage::Refused(number),
        };
        assert_eq!(shortage(case.plan()), expected);
    }
}

#[test]
fn pair_is_the_first_of_all_that_fail() {
    for case in answered() {
        let plan = case.plan();
        let first = first_short(plan, &times_of(plan, HI), &times_of(plan, LO));
        match shortage(plan) {
            Shortage::At(pair) => {
                assert_eq!(first, Some((pair.essential, pair.other)));
                let (asked, carries) = both_sides(plan, pair.essential, pair.other);
                assert_eq!((pair.asked, pair.carries), (asked, carries));
                assert!(asked > carries);
            }
            _ => assert_eq!(first, None),
        }
    }
}

#[test]
fn pair_is_the_first_among_all_times_too() {
    let mut tried = BTreeMap::new();
    for case in answered() {
        let plan = case.plan();
        let all: Vec<u32> = (plan.jobs[0].release..=last_deadline(plan)).collect();
        if all.len() as u32 <= FEW_SLOTS {
            let named = match shortage(plan) {
                Shortage::At(Pair {
                    essential, other, ..
                }) => Some((essential, other)),
                _ => None,
            };
            assert_eq!(first_short(plan, &all, &all), named);
            *tried.entry(named.is_some()).or_insert(0) += 1;
        }
    }
    assert_often(&tried, 2);
}

#[test]
fn each_answer_comes_often() {
    let answers = tally(cases().iter().map(|case| case.answer));
    assert_often(&answers, 5);
    assert!(
        answers[&DONE] > DRAWN / 4 && answers[&NO_TIMETABLE] > DRAWN / 5,
        "{:?}",
        answers
    );
}

#[test]
fn grounds_of_refusals_come_together_too() {
    let grounds = tally(cases().iter().map(Case::grounds));
    for later in [UNSOUND, RELEASES_DIFFER, NO_TIMETABLE] {
        assert!(grounds[&vec![TOO_SHORT, later]] >= 10, "{:?}", grounds);
    }
    // A broken rule that leaves the releases legible may come with ones that differ.
    let both = |case: &&Case| {
        let plan = case.plan();
        is_unsound(plan) && (1..=32).contains(&plan.count) && parted(plan.counted())
    };
    assert!(cases().iter().filter(both).count() as u64 >= LEAST);
}

#[test]
fn each_reason_to_fail_and_to_fit_comes_often() {
    let reasons = tally(answered().iter().map(|case| {
        let plan = case.plan();
        (
            case.answer,
            rate_is_enough(plan, plan.n, &[HI, LO]),
            rate_is_enough(plan, plan.d, &[HI]),
        )
    }));
    // Enough at both rates is needed for a timetable, but there may still be none.
    assert_often(&reasons, 5);
    assert!(reasons.contains_key(&(NO_TIMETABLE, true, true)));
    let fits = tally(
        answered()
            .iter()
            .filter(|case| case.answer == DONE)
            .map(|case| {
                let grades = |grade| case.plan().counted().iter().any(|job| job.grade == grade);
                (just_fits(case.plan()), grades(HI), grades(LO))
            }),
    );
    assert_often(&fits, 6);
}

#[test]
fn one_unit_too_much_comes_often() {
    let short = |case: &Case| match shortage(case.plan()) {
        Shortage::At(pair) => Some(pair.asked - pair.carries),
        _ => None,
    };
    let amounts = tally(answered().iter().filter_map(short));
    assert!(amounts[&1] >= 10 * LEAST, "{:?}", amounts);
}

#[test]
fn each_number_of_jobs_comes_with_both_answers() {
    let counts = tally(
        answered()
            .iter()
            .map(|case| (case.answer, case.plan().count)),
    );
    for jobs in 1..=32 {
        for answer in [DONE, NO_TIMETABLE] {
            assert!(counts[&(answer, jobs)] >= 3, "{:?}", counts);
        }
    }
    assert!(counts[&(DONE, 1)] >= LEAST && counts[&(DONE, 32)] >= LEAST);
}

#[test]
fn extreme_times_and_sizes_come() {
    let done: Vec<Case> = answered()
        .into_iter()
        .filter(|case| case.answer == DONE)
        .collect();
    let often = |shape: &dyn Fn(&Case) -> bool| {
        assert!(done.iter().filter(|case| shape(case)).count() as u64 >= LEAST);
    };
    often(&|case| case.plan().jobs[0].release == 0);
    often(&|case| case.plan().jobs[0].release > 0);
    often(&|case| last_deadline(case.plan()) == 100_000);
    often(&|case| last_deadline(case.plan()) - case.plan().jobs[0].release == 100_000);
    often(&|case| case.plan().n == 1_000);
    often(&|case| case.plan().d == 1);
    often(&|case| case.plan().counted().iter().any(|job| job.size > 1_000_000));
    let greatest = |case: &&Case| {
        let jobs = case.plan().counted();
        jobs.iter().any(|job| job.size == 100_000_000)
    };
    assert!(answered().iter().filter(greatest).count() as u64 >= LEAST);
}

#[test]
fn tables_are_too_short_exact_and_longer_and_seldom_empty_before() {
    let shapes = tally(cases().iter().map(|case| {
        let table = &case.input.table;
        let filled = table.iter().filter(|&&units| units != 0).count();
        (table.len().cmp(&2_016), 2 * filled > table.len())
    }));
    assert_often(&shapes, 6);
    // With each answer something stands in the places beyond the table's own.
    let beyond =
        |case: &&Case| case.input.table.len() > 2_016 && *case.input.table.last().unwrap() != 0;
    let answers = tally(cases().iter().filter(beyond).map(|case| case.answer));
    assert_often(&answers, 4);
}

#[test]
fn records_from_the_count_on_hold_something_often() {
    let rubbish = |case: &&Case| {
        let beyond = &case.plan().jobs[case.plan().count as usize..];
        beyond.iter().any(|job| *job != Job::zeros())
    };
    let answers = tally(answered().iter().filter(rubbish).map(|case| case.answer));
    assert_often(&answers, 2);
}

/// Whether two jobs of one grade and one deadline have their units in other intervals.
fn tie_matters(case: &Case, grade: u8) -> bool {
    let jobs = case.plan().counted();
    let row = |i: usize| -> Vec<bool> {
        let row = &case.after[63 * i..63 * i + 63];
        row.iter().map(|&units| units > 0).collect()
    };
    (0..jobs.len()).any(|i| {
        (0..i).any(|k| {
            let tied = jobs[i].grade == grade && jobs[k].grade == grade;
            tied && jobs[i].deadline == jobs[k].deadline && row(i) != row(k)
        })
    })
}

/// Whether some job's units are spread over several intervals.
fn spread(case: &Case, grade: u8) -> bool {
    (0..case.plan().counted().len()).any(|i| {
        let row = &case.after[63 * i..63 * i + 63];
        let used = row.iter().filter(|&&units| units > 0).count();
        case.plan().jobs[i].grade == grade && used > 1
    })
}

#[test]
fn ties_matter_and_jobs_are_spread_often() {
    let done: Vec<Case> = answered()
        .into_iter()
        .filter(|case| case.answer == DONE)
        .collect();
    for grade in [HI, LO] {
        let ties = done.iter().filter(|case| tie_matters(case, grade)).count();
        let spreads = done.iter().filter(|case| spread(case, grade)).count();
        assert!(
            ties as u64 >= LEAST && spreads as u64 >= LEAST,
            "{} {}",
            ties,
            spreads
        );
    }
}
