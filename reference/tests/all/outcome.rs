//! The outcome of a job: each of the five, their order, and the refusal.

use crate::common::{broken_plans, e_plan, e_run, with_ended};
use reference::refusal::{NAME_BYTE, NAME_TWICE, UNSOUND};
use reference::run::Outcome::{Discarded, Ended, Met, Missed, Open};
use reference::run::{outcome, Outcome, Run};

fn outcomes(run: &Run) -> [Result<Outcome, u8>; 2] {
    [outcome(&e_plan(), run, 0), outcome(&e_plan(), run, 1)]
}

#[test]
fn unfinished_jobs_are_open_before_their_deadlines() {
    assert_eq!(outcomes(&e_run(4, false, [5, 7])), [Ok(Open), Ok(Open)]);
}

#[test]
fn finished_jobs_are_met_whatever_the_marks_and_clock() {
    assert_eq!(outcomes(&e_run(0, false, [6, 8])), [Ok(Met), Ok(Met)]);
    assert_eq!(outcomes(&e_run(10, true, [6, 8])), [Ok(Met), Ok(Met)]);
}

#[test]
fn clock_at_the_deadline_makes_an_unfinished_job_missed() {
    assert_eq!(outcomes(&e_run(5, false, [5, 0])), [Ok(Missed), Ok(Open)]);
    assert_eq!(
        outcomes(&e_run(10, false, [5, 7])),
        [Ok(Missed), Ok(Missed)]
    );
}

#[test]
fn slow_mark_discards_unfinished_other_jobs_only() {
    assert_eq!(outcomes(&e_run(1, true, [5, 7])), [Ok(Discarded), Ok(Open)]);
}

#[test]
fn discarded_comes_before_missed() {
    assert_eq!(
        outcomes(&e_run(10, true, [5, 7])),
        [Ok(Discarded), Ok(Missed)]
    );
}

#[test]
fn below_floor_mark_alone_discards_nothing() {
    let mut run = e_run(1, false, [0, 0]);
    run.below_floor = true;
    assert_eq!(outcomes(&run), [Ok(Open), Ok(Open)]);
}

#[test]
fn ended_mark_makes_an_unfinished_job_ended() {
    let run = with_ended(e_run(4, false, [5, 0]), &[0]);
    assert_eq!(outcomes(&run), [Ok(Ended), Ok(Open)]);
    let run = with_ended(e_run(4, false, [5, 0]), &[1]);
    assert_eq!(outcomes(&run), [Ok(Open), Ok(Ended)]);
}

#[test]
fn met_comes_before_ended() {
    for (clock, slow) in [(4, false), (4, true), (10, false), (10, true)] {
        let run = with_ended(e_run(clock, slow, [6, 8]), &[0, 1]);
        assert_eq!(outcomes(&run), [Ok(Met), Ok(Met)]);
    }
}

#[test]
fn ended_comes_before_discarded_and_missed() {
    for (clock, slow) in [(4, true), (10, false), (10, true)] {
        let run = with_ended(e_run(clock, slow, [5, 7]), &[0, 1]);
        assert_eq!(outcomes(&run), [Ok(Ended), Ok(Ended)]);
    }
}

#[test]
fn run_may_be_made_by_hand_with_a_job_ended_before_its_release() {
    let run = with_ended(e_run(0, false, [0, 0]), &[1]);
    assert_eq!(outcomes(&run), [Ok(Open), Ok(Ended)]);
}

#[test]
fn ended_marks_from_the_count_on_change_no_outcome() {
    let run = with_ended(e_run(1, false, [0, 0]), &[2, 31]);
    assert_eq!(outcomes(&run), [Ok(Open), Ok(Open)]);
    assert_eq!(outcome(&e_plan(), &run, 2), Err(UNSOUND));
}

#[test]
fn position_at_the_count_or_far_beyond_is_21() {
    for position in [2, 32, 256, 1 << 32, u64::MAX] {
        assert_eq!(
            outcome(&e_plan(), &e_run(1, false, [0, 0]), position),
            Err(UNSOUND)
        );
    }
}

#[test]
fn unsound_run_is_21() {
    assert_eq!(outcomes(&e_run(11, false, [0, 0])), [Err(UNSOUND); 2]);
    assert_eq!(outcomes(&e_run(1, false, [7, 0])), [Err(UNSOUND); 2]);
    assert_eq!(outcomes(&e_run(1, false, [0, 9])), [Err(UNSOUND); 2]);
}

#[test]
fn rules_of_numbers_are_21_for_an_outcome_and_rules_of_names_are_not() {
    for (rule, plan) in broken_plans() {
        let answer = outcome(&plan, &e_run(1, false, [0, 0]), 0);
        let expected = if rule == NAME_BYTE || rule == NAME_TWICE {
            Ok(Open)
        } else {
            Err(UNSOUND)
        };
        assert_eq!(answer, expected, "rule {}", rule);
    }
}
