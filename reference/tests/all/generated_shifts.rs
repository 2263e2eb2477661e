//! The generated shifts: the same for the same seed, every length and answer often, and equal to what
//! single calls give.

use std::collections::BTreeMap;

use crate::common::table;
use reference::generate::{file, hand, shift_input, words, ShiftInput};
use reference::plan::Plan;
use reference::reader::reader;
use reference::refusal::{AT_LAST_DEADLINE, DONE, SPEED, TOO_MANY_SPEEDS, TOO_SHORT, UNSOUND};
use reference::run::{end, outcome, start, step, Run};
use reference::shift::shift;

const SEED: u64 = 23;
const DRAWN: u64 = 6_000;
/// How often each shape has to come.
const LEAST: u64 = 50;
/// What stands in the outputs before a shift.
const ROW_MARK: u32 = u32::MAX - 1;
const NUMBER_MARK: u8 = 0xEE;

/// A plan, its table as it is lent, a run, and a shift that goes on from it.
struct Case {
    plan: Plan,
    table: Vec<u32>,
    run: Run,
    shift: ShiftInput,
}

/// The answer, the outputs and the run after a shift.
#[derive(Debug, PartialEq)]
struct After {
    answer: u8,
    rows: Vec<u32>,
    numbers: Vec<u8>,
    run: Run,
}

impl Case {
    /// The case before anything is done.
    fn before(&self) -> After {
        After {
            answer: DONE,
            rows: vec![ROW_MARK; self.shift.rows],
            numbers: vec![NUMBER_MARK; self.shift.numbers],
            run: self.run.clone(),
        }
    }

    fn after(&self) -> After {
        let mut after = self.before();
        after.answer = shift(
            &self.plan,
            &self.table,
            &mut after.run,
            &self.shift.speeds,
            &mut after.rows,
            &mut after.numbers,
        );
        after
    }

    /// The grounds on which the call is refused, in the order in which they are looked for.
    fn grounds(&self) -> Vec<u8> {
        let speeds = self.shift.speeds.len();
        // An outcome is refused for an unsound plan or run, and there is a job at position 0 otherwise.
        let unsound = outcome(&self.plan, &self.run, 0).is_err();
        let jobs = self.plan.count.min(32) as usize;
        let short = self.table.len() < 2_016
            || self.shift.rows < jobs * speeds
            || self.shift.numbers < speeds;
        let grounds = [
            (UNSOUND, unsound),
            (TOO_MANY_SPEEDS, speeds > 256),
            (TOO_SHORT, short),
        ];
        let given = grounds.iter().filter(|(_, given)| *given);
        given.map(|(number, _)| *number).collect()
    }

    /// What is to come out: single calls, each with a grant row of its own that is then laid down.
    fn expected(&self) -> After {
        let mut after = self.before();
        if let Some(&ground) = self.grounds().first() {
            after.answer = ground;
            return after;
        }
        let jobs = self.plan.count as usize;
        for (k, &speed) in self.shift.speeds.iter().enumerate() {
            let mut grants = vec![ROW_MARK; jobs];
            after.numbers[k] = step(&self.plan, &self.table, &mut after.run, speed, &mut grants);
            for (i, grant) in grants.into_iter().enumerate() {
                after.rows[jobs * k + i] = grant;
            }
        }
        after
    }
}

/// A shift from a plan and a run in hand.
fn in_hand(number: u64) -> Case {
    let input = hand(SEED, number);
    let mut table = input.table;
    table.resize(input.lent.table, 0);
    Case {
        shift: shift_input(SEED, number, &input.plan, &input.run),
        plan: input.plan,
        table,
        run: input.run,
    }
}

/// A shift at the start of an accepted plan, after what the host says there.
fn at_start(number: u64) -> Option<Case> {
    let input = file(SEED, number);
    let mut table = table();
    let plan = reader(&input.file, &mut table).plan;
    let mut run = start(&plan, &table).ok()?;
    for word in words(SEED, number, &plan, &run, &[]) {
        end(&plan, &mut run, word.position);
    }
    Some(Case {
        shift: shift_input(SEED, number, &plan, &run),
        plan,
        table,
        run,
    })
}

fn hands() -> Vec<Case> {
    (0..DRAWN).map(in_hand).collect()
}

fn starts() -> Vec<Case> {
    (0..DRAWN).filter_map(at_start).collect()
}

fn assert_often<K: Ord + std::fmt::Debug>(counts: &BTreeMap<K, u64>, shapes: usize) {
    assert_eq!(counts.len(), shapes, "{:?}", counts);
    assert!(counts.values().all(|&count| count >= LEAST), "{:?}", counts);
}

#[test]
fn same_seed_gives_the_same_shifts_and_another_seed_does_not() {
    let all = |seed| -> Vec<ShiftInput> {
        let of_input = |number| {
            let input = hand(1, number);
            shift_input(seed, number, &input.plan, &input.run)
        };
        (0..300).map(of_input).collect()
    };
    assert!(all(1) == all(1) && all(1) != all(2));
}

#[test]
fn shift_is_what_single_calls_give() {
    for case in hands().into_iter().chain(starts()) {
        assert_eq!(case.after(), case.expected());
    }
}

#[test]
fn shift_in_two_parts_is_the_shift_in_one() {
    for (number, case) in starts().into_iter().enumerate() {
        let whole = case.after();
        if whole.answer != DONE {
            continue;
        }
        let (jobs, speeds) = (case.plan.counted().len(), &case.shift.speeds);
        let cut = number % (speeds.len() + 1);
        let mut parts = case.before();
        let (early_rows, late_rows) = parts.rows.split_at_mut(jobs * cut);
        let (early_numbers, late_numbers) = parts.numbers.split_at_mut(cut);
        for (speeds, rows, numbers) in [
            (&speeds[..cut], early_rows, early_numbers),
            (&speeds[cut..], late_rows, late_numbers),
        ] {
            let run = &mut parts.run;
            assert_eq!(
                shift(&case.plan, &case.table, run, speeds, rows, numbers),
                DONE
            );
        }
        assert_eq!(parts, whole);
    }
}

#[test]
fn most_lists_are_short_and_each_length_around_the_bounds_comes_often() {
    let mut lengths = BTreeMap::new();
    for case in hands() {
        *lengths.entry(case.shift.speeds.len()).or_insert(0_u64) += 1;
    }
    for length in [0, 1, 2, 255, 256, 257, 300] {
        assert!(lengths[&length] >= LEAST, "{:?}", lengths);
    }
    let short: u64 = lengths.range(..=12).map(|(_, count)| count).sum();
    assert!(short > DRAWN / 2, "{}", short);
}

#[test]
fn outputs_are_exact_longer_one_too_short_and_empty() {
    let (mut rows, mut numbers) = (BTreeMap::new(), BTreeMap::new());
    for case in starts() {
        let speeds = case.shift.speeds.len();
        if speeds > 0 {
            let kind = |length: usize, exact: usize| match length {
                0 => "empty",
                _ if length == exact => "exact",
                _ if length > exact => "longer",
                _ if length + 1 == exact => "one too short",
                _ => "shorter",
            };
            let of_rows = kind(case.shift.rows, speeds * case.plan.counted().len());
            *rows.entry(of_rows).or_insert(0) += 1;
            let of_numbers = kind(case.shift.numbers, speeds);
            *numbers.entry(of_numbers).or_insert(0) += 1;
        }
    }
    assert_often(&rows, 4);
    assert_often(&numbers, 4);
}

#[test]
fn each_answer_comes_often() {
    let mut answers = BTreeMap::new();
    for case in hands() {
        *answers.entry(case.after().answer).or_insert(0) += 1;
    }
    assert_often(&answers, 4);
    // A started run is sound.
    let mut answers = BTreeMap::new();
    for case in starts() {
        *answers.entry(case.after().answer).or_insert(0) += 1;
    }
    assert_often(&answers, 3);
}

#[test]
fn grounds_of_refusals_come_together_too() {
    let mut grounds = BTreeMap::new();
    for case in hands() {
        *grounds.entry(case.grounds()).or_insert(0_u64) += 1;
    }
    assert_eq!(grounds.len(), 8, "{:?}", grounds);
    assert!(grounds.values().all(|&count| count >= 10), "{:?}", grounds);
}

#[test]
fn each_buffer_alone_is_short_often() {
    let mut short = BTreeMap::new();
    for case in hands() {
        if case.grounds() == [TOO_SHORT] {
            let (jobs, speeds) = (case.plan.counted().len(), case.shift.speeds.len());
            let of_table = case.table.len() < 2_016;
            let of_rows = case.shift.rows < jobs * speeds;
            let of_numbers = case.shift.numbers < speeds;
            *short
                .entry((of_table, of_rows, of_numbers))
                .or_insert(0_u64) += 1;
        }
    }
    for alone in [
        (true, false, false),
        (false, true, false),
        (false, false, true),
    ] {
        assert!(short[&alone] >= LEAST, "{:?}", short);
    }
}

#[test]
fn refused_speeds_come_before_between_and_after_others() {
    let mut places = BTreeMap::new();
    for case in hands().into_iter().chain(starts()) {
        let after = case.after();
        if after.answer == DONE {
            let numbers = &after.numbers[..case.shift.speeds.len()];
            let done = |numbers: &[u8]| numbers.contains(&DONE);
            for number in [SPEED, AT_LAST_DEADLINE] {
                if let Some(k) = numbers.iter().position(|&given| given == number) {
                    let place = (number, done(&numbers[..k]), done(&numbers[k..]));
                    *places.entry(place).or_insert(0_u64) += 1;
                }
            }
        }
    }
    for place in [
        (SPEED, false, true),
        (SPEED, true, true),
        (SPEED, true, false),
        (AT_LAST_DEADLINE, true, false),
        (AT_LAST_DEADLINE, false, false),
    ] {
        assert!(places[&place] >= LEAST, "{:?}", places);
    }
    // Nothing is done once the last deadline is reached.
    for done_before in [false, true] {
        assert_eq!(places.get(&(AT_LAST_DEADLINE, done_before, true)), None);
    }
}

#[test]
fn full_shifts_without_a_refused_speed_come() {
    let full = |case: &Case| {
        let after = case.after();
        after.answer == DONE && case.shift.speeds.len() == 256 && {
            after.numbers[..256].iter().all(|&number| number == DONE)
        }
    };
    let found = hands()
        .iter()
        .chain(&starts())
        .filter(|case| full(case))
        .count();
    assert!(found >= 20, "{}", found);
}

#[test]
fn ended_jobs_come_in_shifts_that_serve_others() {
    let mut found = 0;
    for case in hands().into_iter().chain(starts()) {
        let after = case.after();
        if after.answer == DONE {
            let jobs = case.plan.counted().len();
            let ended = case.run.ended[..jobs].contains(&true);
            found += u64::from(ended && after.run.carried != case.run.carried);
            for i in (0..jobs).filter(|&i| case.run.ended[i]) {
                assert_eq!(after.run.carried[i], case.run.carried[i]);
            }
        }
    }
    assert!(found >= LEAST, "{}", found);
}
