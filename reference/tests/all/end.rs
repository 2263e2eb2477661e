//! The host's word that a job has ended: refusals and their order, the mark, and what stays as it was.

use crate::common::{broken_plans, e_plan, e_run, e_table, hi, lo, plan_of, table_of, with_ended};
use reference::refusal::{CANNOT_END, DONE, NAME_BYTE, NAME_TWICE, NO_SUCH_POSITION, UNSOUND};
use reference::run::Outcome::{Discarded, Ended, Met, Missed, Open};
use reference::run::{end, outcome, start, step, Run};

/// Asserts that a word on a job of plan E is refused and leaves the run alone.
fn assert_refused(run: &Run, position: u64, number: u8) {
    let mut after = run.clone();
    assert_eq!(end(&e_plan(), &mut after, position), number);
    assert_eq!(after, *run);
}

/// Asserts that a word on a job of plan E sets its mark and changes nothing else.
fn assert_ends(run: &Run, position: usize) {
    let mut after = run.clone();
    assert!(!after.ended[position]);
    assert_eq!(end(&e_plan(), &mut after, position as u64), DONE);
    assert_eq!(after, with_ended(run.clone(), &[position]));
    assert_eq!(outcome(&e_plan(), &after, position as u64), Ok(Ended));
}

#[test]
fn word_sets_the_mark_of_its_job_and_nothing_else() {
    assert_ends(&e_run(3, false, [2, 4]), 0);
    assert_ends(&e_run(3, false, [2, 4]), 1);
    assert_ends(&with_ended(e_run(3, false, [2, 4]), &[0]), 1);
    let mut run = with_ended(e_run(9, true, [2, 4]), &[2, 31]);
    run.below_floor = true;
    run.carried[2] = u32::MAX;
    assert_ends(&run, 1);
}

#[test]
fn job_with_nothing_carried_can_end() {
    assert_ends(&e_run(4, false, [0, 0]), 0);
    assert_ends(&e_run(4, false, [0, 0]), 1);
}

#[test]
fn job_can_end_from_its_release_on() {
    assert_refused(&e_run(0, false, [0, 0]), 1, CANNOT_END);
    assert_ends(&e_run(1, false, [0, 0]), 1);
    assert_ends(&e_run(0, false, [0, 0]), 0);
}

#[test]
fn job_can_end_in_the_slot_before_its_deadline_and_at_the_deadline_is_missed() {
    assert_ends(&e_run(4, false, [5, 7]), 0);
    assert_ends(&e_run(9, false, [5, 7]), 1);
    for (clock, position) in [(5, 0), (6, 0), (10, 0), (10, 1)] {
        let run = e_run(clock, false, [5, 7]);
        assert_eq!(outcome(&e_plan(), &run, position), Ok(Missed));
        assert_refused(&run, position, CANNOT_END);
    }
}

#[test]
fn met_job_cannot_end() {
    let run = e_run(4, false, [6, 8]);
    for position in [0, 1] {
        assert_eq!(outcome(&e_plan(), &run, position), Ok(Met));
        assert_refused(&run, position, CANNOT_END);
    }
    assert_ends(&e_run(4, false, [5, 8]), 0);
    assert_ends(&e_run(4, false, [6, 7]), 1);
}

#[test]
fn ended_job_cannot_end_again() {
    let mut run = e_run(3, false, [2, 4]);
    assert_eq!(end(&e_plan(), &mut run, 0), DONE);
    assert_refused(&run, 0, CANNOT_END);
    assert_ends(&run, 1);
}

#[test]
fn discarded_job_cannot_end_and_an_essential_one_can() {
    let run = e_run(3, true, [2, 4]);
    assert_eq!(outcome(&e_plan(), &run, 0), Ok(Discarded));
    assert_refused(&run, 0, CANNOT_END);
    assert_ends(&run, 1);
}

#[test]
fn job_finished_by_hand_before_its_release_cannot_end() {
    assert_refused(&e_run(0, false, [0, 8]), 1, CANNOT_END);
    assert_refused(&with_ended(e_run(0, false, [0, 0]), &[1]), 1, CANNOT_END);
}

#[test]
fn other_job_not_released_yet_cannot_end_with_or_without_the_slow_mark() {
    let plan = plan_of(&[hi(b"early-jb", 0, 1, 2), lo(b"later-jb", 1, 1, 2)]);
    for slow in [false, true] {
        let mut run = e_run(0, slow, [0, 0]);
        assert_eq!(end(&plan, &mut run, 1), CANNOT_END);
        assert_eq!(run, e_run(0, slow, [0, 0]));
    }
}

#[test]
fn position_at_the_count_or_far_beyond_is_25() {
    for position in [2, 3, 31, 32, 256, 1 << 32, u64::MAX] {
        assert_refused(&e_run(1, false, [0, 0]), position, NO_SUCH_POSITION);
    }
}

#[test]
fn unsound_run_is_21() {
    for run in [
        e_run(11, false, [0, 0]),
        e_run(1, false, [7, 0]),
        e_run(1, false, [0, 9]),
    ] {
        assert_refused(&run, 0, UNSOUND);
        assert_refused(&run, 1, UNSOUND);
    }
}

#[test]
fn clock_before_the_first_release_is_21_and_at_the_last_deadline_is_not() {
    let plan = plan_of(&[lo(b"only-job", 3, 1, 5)]);
    for (clock, expected) in [
        (2, UNSOUND),
        (3, DONE),
        (4, DONE),
        (5, CANNOT_END),
        (6, UNSOUND),
    ] {
        let mut run = e_run(clock, false, [0, 0]);
        assert_eq!(end(&plan, &mut run, 0), expected, "{}", clock);
    }
}

#[test]
fn rules_of_numbers_are_21_for_a_word_and_rules_of_names_are_not() {
    for (rule, plan) in broken_plans() {
        let mut run = e_run(1, false, [0, 0]);
        let answer = end(&plan, &mut run, 0);
        if rule == NAME_BYTE || rule == NAME_TWICE {
            assert_eq!(answer, DONE, "rule {}", rule);
            assert_eq!(run, with_ended(e_run(1, false, [0, 0]), &[0]));
        } else {
            assert_eq!(answer, UNSOUND, "rule {}", rule);
            assert_eq!(run, e_run(1, false, [0, 0]));
        }
    }
}

#[test]
fn unsound_run_comes_before_a_position_of_no_job_and_before_26() {
    // Position 2 has no job, and position 1 is met, ended and too late besides.
    let run = with_ended(e_run(11, false, [0, 8]), &[1]);
    assert_refused(&run, 2, UNSOUND);
    assert_refused(&run, 1, UNSOUND);
    let run = with_ended(e_run(10, false, [0, 8]), &[1]);
    assert_refused(&run, 2, NO_SUCH_POSITION);
    assert_refused(&run, 1, CANNOT_END);
}

#[test]
fn position_of_no_job_comes_before_26() {
    // The record at the count would be released later, and the one behind it has ended.
    let mut plan = e_plan();
    plan.jobs[2] = hi(b"later-jb", 5, 1, 8);
    plan.jobs[3] = hi(b"ended-jb", 0, 1, 8);
    let run = with_ended(e_run(1, false, [0, 0]), &[3]);
    for position in [2, 3] {
        let mut after = run.clone();
        assert_eq!(end(&plan, &mut after, position), NO_SUCH_POSITION);
        assert_eq!(after, run);
    }
}

#[test]
fn carried_and_marks_from_the_count_on_do_not_hinder_a_word() {
    let mut run = with_ended(e_run(1, false, [0, 0]), &[2, 31]);
    run.carried[2] = u32::MAX;
    assert_ends(&run, 0);
    assert_ends(&run, 1);
}

#[test]
fn ended_job_of_lower_grade_stays_ended_when_the_slow_mark_comes() {
    let mut run = e_run(1, false, [2, 0]);
    assert_eq!(end(&e_plan(), &mut run, 0), DONE);
    assert_eq!(step(&e_plan(), &e_table(), &mut run, 1, &mut [0; 2]), DONE);
    assert!(run.slow);
    assert_eq!(outcome(&e_plan(), &run, 0), Ok(Ended));
    assert_refused(&run, 0, CANNOT_END);
}

#[test]
fn ended_job_stays_ended_after_its_deadline() {
    let mut run = e_run(9, false, [6, 7]);
    assert_eq!(end(&e_plan(), &mut run, 1), DONE);
    assert_eq!(step(&e_plan(), &e_table(), &mut run, 2, &mut [0; 2]), DONE);
    assert_eq!(run, with_ended(e_run(10, false, [6, 7]), &[1]));
    assert_eq!(outcome(&e_plan(), &run, 1), Ok(Ended));
}

#[test]
fn end_of_one_job_lets_another_have_its_slots() {
    // The essential job ends after slot 1, and the other one is met two slots earlier than planned.
    let (plan, table) = (e_plan(), e_table());
    let mut run = start(&plan, &table).unwrap();
    let mut served = Vec::new();
    for slot in 0..5 {
        if slot == 2 {
            assert_eq!(end(&plan, &mut run, 1), DONE);
        }
        let mut grants = [9; 2];
        assert_eq!(step(&plan, &table, &mut run, 2, &mut grants), DONE);
        served.push(grants);
    }
    assert_eq!(served, [[2, 0], [0, 2], [2, 0], [2, 0], [0, 0]]);
    assert_eq!(outcome(&plan, &run, 0), Ok(Met));
    assert_eq!(outcome(&plan, &run, 1), Ok(Ended));
}

#[test]
fn end_of_an_essential_job_saves_another_at_a_speed_below_the_floor() {
    let plan = plan_of(&[hi(b"first-hi", 0, 1, 2), hi(b"laterhi-", 0, 1, 2)]);
    let table = table_of(&[&[1], &[1]]);
    for (told, expected) in [(false, Missed), (true, Met)] {
        let mut run = start(&plan, &table).unwrap();
        assert_eq!(outcome(&plan, &run, 0), Ok(Open));
        if told {
            assert_eq!(end(&plan, &mut run, 0), DONE);
        }
        assert_eq!(step(&plan, &table, &mut run, 0, &mut [0; 2]), DONE);
        assert_eq!(step(&plan, &table, &mut run, 1, &mut [0; 2]), DONE);
        assert_eq!(outcome(&plan, &run, 1), Ok(expected));
    }
}
