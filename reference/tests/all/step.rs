//! Start and one slot: refusals and their order, marks, turns, dues, and what stays as it was.

use crate::common::{broken_plans, e_plan, e_run, e_table, hi, lo, plan_of, table_of, with_ended};
use reference::plan::{Job, Plan};
use reference::refusal::{
    Refusal, ABOVE_RATE, AT_LAST_DEADLINE, DONE, FLOOR_RULE, NAME_BYTE, NAME_TWICE, NOT_THE_SIZE,
    OUTSIDE_WINDOW, SPEED, TOO_SHORT, UNSOUND,
};
use reference::run::{start, step, Run};

/// One slot of plan E with two grant places.
fn e_step(run: &mut Run, speed: u16) -> (u8, [u32; 2]) {
    let mut grants = [99; 2];
    let answer = step(&e_plan(), &e_table(), run, speed, &mut grants);
    (answer, grants)
}

/// Asserts a refusal of plan E that leaves run and grants alone.
fn assert_refused(run: &Run, speed: u16, number: u8) {
    let mut after = run.clone();
    assert_eq!(e_step(&mut after, speed), (number, [99; 2]));
    assert_eq!(after, *run);
}

fn run_at(clock: u32) -> Run {
    e_run(clock, false, [0, 0])
}

#[test]
fn run_starts_at_the_first_release_with_nothing_carried() {
    let plan = plan_of(&[lo(b"later-jb", 7, 1, 9), hi(b"early-jb", 5, 1, 8)]);
    let run = start(&plan, &table_of(&[&[0, 1, 0], &[0, 1, 0]])).unwrap();
    assert_eq!(
        run,
        Run {
            clock: 5,
            slow: false,
            below_floor: false,
            carried: [0; 32],
            ended: [false; 32]
        }
    );
}

#[test]
fn start_is_refused_as_by_the_judge() {
    let refused = |first: &[u32], second: &[u32]| {
        let table = table_of(&[first, second]);
        start(&e_plan(), &table).unwrap_err()
    };
    let outside = Refusal::at(OUTSIDE_WINDOW, &[0, 2]);
    assert_eq!(refused(&[2, 3, 1], &[0, 4, 4]), outside);
    let short = Refusal::at(NOT_THE_SIZE, &[1]);
    assert_eq!(refused(&[2, 4, 0], &[0, 4, 3]), short);
    let over = Refusal::at(ABOVE_RATE, &[0]);
    assert_eq!(refused(&[3, 3, 0], &[0, 4, 4]), over);
    let late = Refusal::at(FLOOR_RULE, &[2, 10]);
    assert_eq!(refused(&[2, 4, 0], &[0, 2, 6]), late);
}

#[test]
fn start_is_refused_for_a_short_table_before_an_unsound_plan() {
    let refused = |plan: &Plan, table: &[u32]| start(plan, table).unwrap_err().number;
    assert_eq!(refused(&Plan::zeros(), &e_table()[..2_015]), TOO_SHORT);
    assert_eq!(refused(&Plan::zeros(), &e_table()), UNSOUND);
}

#[test]
fn rules_of_numbers_are_21_for_a_step_and_rules_of_names_are_not() {
    for (rule, plan) in broken_plans() {
        let mut run = run_at(1);
        let answer = step(&plan, &e_table(), &mut run, 2, &mut [0; 32]);
        let expected = if rule == NAME_BYTE || rule == NAME_TWICE {
            DONE
        } else {
            UNSOUND
        };
        assert_eq!(answer, expected, "rule {}", rule);
    }
}

#[test]
fn clock_outside_the_plan_is_21() {
    let plan = plan_of(&[lo(b"only-job", 3, 1, 5)]);
    for (clock, expected) in [
        (2, UNSOUND),
        (3, DONE),
        (4, DONE),
        (5, AT_LAST_DEADLINE),
        (6, UNSOUND),
    ] {
        let mut run = run_at(clock);
        assert_eq!(
            step(&plan, &table_of(&[&[1]]), &mut run, 2, &mut [0]),
            expected
        );
    }
}

#[test]
fn more_carried_than_the_size_is_21() {
    assert_refused(&e_run(1, false, [7, 0]), 2, UNSOUND);
    assert_refused(&e_run(1, false, [0, 9]), 2, UNSOUND);
    assert_eq!(e_step(&mut e_run(1, false, [6, 8]), 2), (DONE, [0, 0]));
}

#[test]
fn carried_from_the_count_on_is_ignored_and_left() {
    let mut run = run_at(0);
    run.carried[2] = u32::MAX;
    assert_eq!(e_step(&mut run, 2).0, DONE);
    assert_eq!(run.carried[2], u32::MAX);
}

#[test]
fn stray_places_and_wrong_sums_do_not_hinder_a_step() {
    let mut table = table_of(&[&[1, 0, 0], &[0, 0, 0]]);
    table[2_015] = 1;
    table[62] = 50;
    let mut grants = [9; 2];
    assert_eq!(
        step(&e_plan(), &table, &mut run_at(0), 2, &mut grants),
        DONE
    );
    assert_eq!(grants, [1, 0]);
}

#[test]
fn short_table_or_short_grants_are_22_and_nothing_changes() {
    let mut run = run_at(0);
    let mut grants = [9; 2];
    let table = e_table();
    assert_eq!(
        step(&e_plan(), &table[..2_015], &mut run, 2, &mut grants),
        TOO_SHORT
    );
    assert_eq!(
        step(&e_plan(), &table, &mut run, 2, &mut grants[..1]),
        TOO_SHORT
    );
    assert_eq!((run, grants), (run_at(0), [9; 2]));
}

#[test]
fn unsound_run_comes_before_short_buffers() {
    let mut run = run_at(11);
    assert_eq!(step(&e_plan(), &[], &mut run, 2, &mut []), UNSOUND);
}

#[test]
fn short_buffers_come_before_the_last_deadline() {
    let mut run = run_at(10);
    assert_eq!(
        step(&e_plan(), &e_table(), &mut run, 2, &mut [0]),
        TOO_SHORT
    );
}

#[test]
fn last_deadline_comes_before_the_speed() {
    assert_refused(&run_at(10), 3, AT_LAST_DEADLINE);
    assert_refused(&run_at(10), 0, AT_LAST_DEADLINE);
}

#[test]
fn speed_above_the_rate_is_20_and_sets_no_mark() {
    assert_refused(&run_at(0), 3, SPEED);
    assert_refused(&run_at(0), u16::MAX, SPEED);
}

#[test]
fn speed_at_the_rate_sets_no_mark() {
    let mut run = run_at(0);
    assert_eq!(e_step(&mut run, 2), (DONE, [2, 0]));
    assert_eq!(run, e_run(1, false, [2, 0]));
}

#[test]
fn speed_at_the_floor_and_below_the_dues_sets_the_slow_mark_only() {
    let mut run = run_at(1);
    assert_eq!(e_step(&mut run, 1), (DONE, [0, 1]));
    assert_eq!(run, e_run(2, true, [0, 1]));
}

#[test]
fn speed_below_the_floor_and_below_the_dues_sets_both_marks() {
    let mut run = run_at(1);
    assert_eq!(e_step(&mut run, 0), (DONE, [0, 0]));
    assert!(run.slow && run.below_floor);
}

#[test]
fn marks_stay_at_full_speed() {
    let mut run = e_run(1, true, [0, 0]);
    run.below_floor = true;
    assert_eq!(e_step(&mut run, 2), (DONE, [0, 2]));
    assert!(run.slow && run.below_floor);
}

#[test]
fn essential_job_goes_before_an_earlier_other_one() {
    assert_eq!(e_step(&mut e_run(1, false, [2, 0]), 2), (DONE, [0, 2]));
    assert_eq!(e_step(&mut e_run(1, false, [2, 3]), 2), (DONE, [1, 1]));
}

#[test]
fn due_holds_back_what_later_intervals_bring() {
    // In interval 1 the essential job may have 4 in all.
    assert_eq!(e_step(&mut e_run(2, false, [6, 4]), 2), (DONE, [0, 0]));
    assert_eq!(e_step(&mut e_run(5, false, [6, 4]), 2), (DONE, [0, 2]));
}

#[test]
fn due_counts_the_present_interval_from_its_first_slot_to_its_last() {
    assert_eq!(e_step(&mut e_run(4, false, [6, 0]), 2), (DONE, [0, 2]));
    assert_eq!(e_step(&mut e_run(0, false, [0, 0]), 2), (DONE, [2, 0]));
}

#[test]
fn slow_due_is_all_that_is_left() {
    assert_eq!(e_step(&mut e_run(2, true, [6, 4]), 2), (DONE, [0, 2]));
    assert_eq!(e_step(&mut e_run(2, true, [0, 7]), 2), (DONE, [0, 1]));
}

#[test]
fn jobs_outside_their_windows_get_nothing() {
    assert_eq!(e_step(&mut e_run(0, true, [0, 0]), 2), (DONE, [0, 0]));
    assert_eq!(e_step(&mut e_run(5, false, [0, 8]), 2), (DONE, [0, 0]));
}

#[test]
fn equal_deadlines_go_by_position() {
    let plan = plan_of(&[hi(b"first-hi", 0, 1, 4), hi(b"laterhi-", 0, 1, 4)]);
    let mut grants = [9; 2];
    let mut run = e_run(0, true, [0, 0]);
    assert_eq!(
        step(&plan, &table_of(&[&[1], &[1]]), &mut run, 1, &mut grants),
        DONE
    );
    assert_eq!(grants, [1, 0]);
}

#[test]
fn other_jobs_too_go_by_deadline_and_then_by_position() {
    let jobs = [
        lo(b"latest--", 0, 2, 5),
        lo(b"soon---1", 0, 2, 4),
        lo(b"soon---2", 0, 2, 4),
    ];
    let plan = Plan {
        n: 5,
        ..plan_of(&jobs)
    };
    let mut grants = [9; 3];
    let mut run = run_at(0);
    assert_eq!(
        step(
            &plan,
            &table_of(&[&[2], &[2], &[2]]),
            &mut run,
            5,
            &mut grants
        ),
        DONE
    );
    assert_eq!(grants, [1, 2, 2]);
}

#[test]
fn dues_of_a_table_never_judged_are_summed_beyond_32_bits() {
    let table = table_of(&[&[u32::MAX, 2, 0], &[u32::MAX, 1, 0]]);
    let mut grants = [9; 2];
    assert_eq!(
        step(
            &e_plan(),
            &table,
            &mut e_run(1, false, [3, 7]),
            2,
            &mut grants
        ),
        DONE
    );
    // Sums of 32 bits would be 1 and 0, and nobody would be due anything.
    assert_eq!(grants, [1, 1]);
}

#[test]
fn allotments_before_the_release_count_for_a_table_never_judged() {
    let table = table_of(&[&[0, 0, 0], &[3, 0, 0]]);
    let mut grants = [9; 2];
    assert_eq!(
        step(&e_plan(), &table, &mut run_at(2), 2, &mut grants),
        DONE
    );
    assert_eq!(grants, [0, 2]);
}

#[test]
fn grant_places_beyond_the_jobs_stay() {
    let mut grants = [9; 5];
    assert_eq!(
        step(&e_plan(), &e_table(), &mut run_at(0), 2, &mut grants),
        DONE
    );
    assert_eq!(grants, [2, 0, 9, 9, 9]);
}

#[test]
fn records_from_the_count_on_are_not_looked_at() {
    let mut plan = e_plan();
    plan.jobs[2] = Job {
        deadline: 200,
        ..plan.jobs[1]
    };
    let mut grants = [9; 3];
    assert_eq!(
        step(&plan, &e_table(), &mut run_at(10), 2, &mut grants),
        AT_LAST_DEADLINE
    );
    assert_eq!(
        step(&plan, &e_table(), &mut run_at(1), 2, &mut grants),
        DONE
    );
    assert_eq!(grants, [0, 2, 9]);
}

#[test]
fn uncovered_interval_passes_without_grants() {
    let plan = plan_of(&[hi(b"early-jb", 0, 1, 1), hi(b"later-jb", 2, 1, 3)]);
    let mut run = run_at(1);
    let mut grants = [9; 2];
    assert_eq!(
        step(
            &plan,
            &table_of(&[&[1], &[0, 0, 1]]),
            &mut run,
            2,
            &mut grants
        ),
        DONE
    );
    assert_eq!((grants, run.clock), ([0, 0], 2));
}

#[test]
fn run_may_be_made_by_hand_with_a_job_finished_before_its_release() {
    assert_eq!(e_step(&mut e_run(0, false, [0, 8]), 2), (DONE, [2, 0]));
}

#[test]
fn last_slot_brings_the_clock_to_the_last_deadline() {
    let mut run = e_run(9, true, [0, 7]);
    assert_eq!(e_step(&mut run, 1), (DONE, [0, 1]));
    assert_refused(&run, 1, AT_LAST_DEADLINE);
}

#[test]
fn ended_job_gets_nothing_and_the_others_get_what_it_leaves() {
    // Without the mark the essential job has all of the slot.
    let mut run = with_ended(e_run(1, false, [2, 0]), &[1]);
    assert_eq!(e_step(&mut run, 2), (DONE, [2, 0]));
    assert_eq!(run, with_ended(e_run(2, false, [4, 0]), &[1]));
    let mut run = with_ended(e_run(1, false, [2, 3]), &[0]);
    assert_eq!(e_step(&mut run, 2), (DONE, [0, 1]));
}

#[test]
fn ended_job_leaves_slow_slots_to_the_others_too() {
    let plan = plan_of(&[hi(b"transf-B", 0, 2, 4), hi(b"transf-A", 0, 2, 2)]);
    let table = table_of(&[&[2, 0], &[2, 0]]);
    for (speed, expected) in [(2, [2, 0]), (1, [1, 0])] {
        let mut run = with_ended(run_at(0), &[1]);
        let mut grants = [9; 2];
        assert_eq!(step(&plan, &table, &mut run, speed, &mut grants), DONE);
        assert_eq!(grants, expected);
    }
}

#[test]
fn slot_with_all_jobs_ended_grants_nothing_and_goes_on() {
    let mut run = with_ended(run_at(1), &[0, 1]);
    assert_eq!(e_step(&mut run, 2), (DONE, [0, 0]));
    assert_eq!(run, with_ended(run_at(2), &[0, 1]));
}

#[test]
fn slot_sets_and_clears_no_ended_mark() {
    // The other job is due 2 and discarded by this slot, and a finished one is not ended by it.
    let mut run = e_run(4, false, [4, 7]);
    assert_eq!(e_step(&mut run, 1), (DONE, [0, 1]));
    assert_eq!(run, e_run(5, true, [4, 8]));
    // Nothing is due to ended jobs, so no speed is slow here.
    let mut run = with_ended(e_run(4, false, [6, 8]), &[0, 1]);
    assert_eq!(e_step(&mut run, 1), (DONE, [0, 0]));
    assert_eq!(run, with_ended(e_run(5, false, [6, 8]), &[0, 1]));
}

#[test]
fn ended_marks_from_the_count_on_are_ignored_and_left() {
    let mut run = with_ended(run_at(0), &[2, 31]);
    assert_eq!(e_step(&mut run, 2), (DONE, [2, 0]));
    assert_eq!(run, with_ended(e_run(1, false, [2, 0]), &[2, 31]));
}

#[test]
fn refusals_of_a_step_leave_ended_marks() {
    assert_refused(&with_ended(run_at(11), &[0, 3]), 2, UNSOUND);
    assert_refused(&with_ended(run_at(10), &[0, 3]), 2, AT_LAST_DEADLINE);
    assert_refused(&with_ended(run_at(1), &[0, 1]), 3, SPEED);
}
