//! The generated inputs: the same for the same seed, mostly small, and of every shape that matters.

use std::collections::BTreeMap;

use reference::edition::TABLE_PLACES;
use reference::generate::{file, fixed_files, hand, night, FileInput};
use reference::judge::judge;
use reference::plan::{intervals, Plan};
use reference::reader::reader;
use reference::refusal::{ABOVE_RATE, DONE};
use reference::slack::{slack_figure, SlackFigure};

/// How often a shape has to come among the plans that are looked at.
const LEAST: u64 = 20;
const SEED: u64 = 20_260_101;
const DRAWN: u64 = 20_000;

fn files() -> Vec<FileInput> {
    let drawn = (0..DRAWN).map(|number| file(SEED, number));
    fixed_files().into_iter().chain(drawn).collect()
}

/// The plan and table of a file that the reader takes.
fn read(file: &[u8]) -> Option<(Plan, Vec<u32>)> {
    let mut table = vec![0; TABLE_PLACES];
    let answer = reader(file, &mut table);
    (answer.number == DONE).then_some((answer.plan, table))
}

fn read_plans() -> Vec<(Plan, Vec<u32>)> {
    let inputs = files();
    inputs
        .iter()
        .filter_map(|input| read(&input.file))
        .collect()
}

fn accepted_plans() -> Vec<(Plan, Vec<u32>)> {
    let mut plans = read_plans();
    plans.retain(|(plan, table)| judge(plan, table).is_ok());
    plans
}

#[test]
fn same_seed_gives_the_same_inputs_and_another_seed_does_not() {
    let all = |seed| {
        let numbers = || 0..300;
        let files: Vec<_> = numbers().map(|number| file(seed, number)).collect();
        let hands: Vec<_> = numbers().map(|number| hand(seed, number)).collect();
        let nights: Vec<_> = numbers().map(|number| night(seed, number)).collect();
        (files, hands, nights)
    };
    let (first, again, other) = (all(1), all(1), all(2));
    assert!(first == again);
    assert!(first.0 != other.0 && first.1 != other.1 && first.2 != other.2);
}

#[test]
fn nine_in_ten_are_small() {
    let (mut small, mut large) = (0, 0);
    for number in 0..3_000 {
        let input = file(1, number);
        let jobs = read(&input.file).map_or(0, |(plan, _)| plan.count);
        if jobs <= 6 && input.speeds.len() <= 30 {
            small += 1;
        }
        large += u32::from(jobs == 32);
    }
    assert!(small >= 2_700 && large > 0, "{} {}", small, large);
}

#[test]
fn judge_refuses_at_first_middle_and_last_places() {
    let mut places = BTreeMap::new();
    for (plan, table) in read_plans() {
        if let Err(refusal) = judge(&plan, &table) {
            let jobs = plan.counted().len();
            let length = if refusal.number < ABOVE_RATE {
                jobs
            } else {
                intervals(plan.counted()).len()
            };
            if length > 2 {
                let last = length as u64 - 1;
                let place = u8::from(refusal.places[0] > 0) + u8::from(refusal.places[0] == last);
                *places.entry((refusal.number, place)).or_insert(0_u64) += 1;
            }
        }
    }
    assert_eq!(places.len(), 12);
    assert!(places.values().all(|&count| count >= LEAST), "{:?}", places);
}

#[test]
fn accepted_plans_come_in_all_sizes() {
    let (mut by_jobs, mut by_intervals) = ([0; 33], [0; 64]);
    for (plan, _) in accepted_plans() {
        by_jobs[plan.counted().len()] += 1;
        by_intervals[intervals(plan.counted()).len()] += 1;
    }
    assert!(by_jobs[1..].iter().all(|&count| count > 0), "{:?}", by_jobs);
    assert!(
        by_intervals[1..].iter().all(|&count| count > 0),
        "{:?}",
        by_intervals
    );
    assert!(by_jobs[32] >= LEAST && by_intervals[63] >= LEAST);
}

#[test]
fn accepted_plans_have_every_special_shape() {
    let (mut uncovered, mut equal, mut none_essential, mut tight) = (0, 0, 0, 0);
    for (plan, table) in accepted_plans() {
        let jobs = plan.counted();
        let gap = |interval| !jobs.iter().any(|job| job.covers(interval));
        uncovered += u64::from(intervals(jobs).iter().any(gap));
        let same = |i: usize| jobs[..i].iter().any(|job| job.deadline == jobs[i].deadline);
        equal += u64::from((0..jobs.len()).any(same));
        match slack_figure(&plan, &table) {
            Ok(SlackFigure::NoneEssential) => none_essential += 1,
            Ok(SlackFigure::Least { slack: 0, .. }) => tight += 1,
            _ => (),
        }
    }
    for count in [uncovered, equal, none_essential, tight] {
        assert!(count >= LEAST);
    }
}

/// The greatest sum of units in one interval.
fn heaviest_column(plan: &Plan, table: &[u32]) -> u64 {
    let column = |j| {
        (0..plan.counted().len())
            .map(move |i| u64::from(table[63 * i + j]))
            .sum()
    };
    (0..63).map(column).max().unwrap_or(0)
}

#[test]
fn columns_of_two_to_the_31_and_a_little_are_refused_by_17() {
    let mut heavy = BTreeMap::new();
    for (plan, table) in read_plans() {
        let sum = heaviest_column(&plan, &table);
        if ((1 << 31) - 1..3_200_000_001).contains(&sum) {
            if let Err(refusal) = judge(&plan, &table) {
                let past = u64::from(refusal.number == ABOVE_RATE && sum >= 1 << 31);
                *heavy.entry(sum.min((1 << 31) + 2)).or_insert(0) += past;
            }
        }
    }
    for sum in [1 << 31, (1 << 31) + 1, (1 << 31) + 2] {
        assert!(heavy[&sum] >= LEAST, "{:?}", heavy);
    }
}
