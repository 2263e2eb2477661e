//! The plans to try, P1 to P13, and the four short cases that follow them.

use crate::common::{
    answer, e_file, e_plan, e_table, e_with, hi, least, lo, p5_plan, p5_table, plan_of, table_of,
    ROW_3,
};
use reference::judge::judge;
use reference::plan::Plan;
use reference::refusal::{
    Refusal, ABOVE_RATE, CUT_OR_LENGTH, DONE, FLOOR_RULE, NOT_THE_SIZE, NO_SUCH_JOB,
    OUTSIDE_WINDOW, RATES, SPEED, VERSION,
};
use reference::run::{start, step};
use reference::slack::{slack_figure, slack_of_pair};

fn three_jobs() -> Plan {
    plan_of(&[
        lo(b"other--1", 0, 4, 2),
        hi(b"essent-1", 0, 2, 4),
        hi(b"essent-2", 2, 2, 4),
    ])
}

#[test]
fn p1_plan_e_is_accepted_with_slack_1() {
    assert_eq!(judge(&e_plan(), &e_table()), Ok(()));
    assert_eq!(slack_figure(&e_plan(), &e_table()), least(1, 1, 10));
}

#[test]
fn p2_tighter_row_is_accepted_with_slack_0() {
    let table = table_of(&[&[2, 4, 0], &[0, 3, 5]]);
    assert_eq!(judge(&e_plan(), &table), Ok(()));
    assert_eq!(slack_figure(&e_plan(), &table), least(0, 2, 10));
}

#[test]
fn p3_too_late_row_breaks_the_floor_rule() {
    let table = table_of(&[&[2, 4, 0], &[0, 2, 6]]);
    assert_eq!(
        judge(&e_plan(), &table),
        Err(Refusal::at(FLOOR_RULE, &[2, 10]))
    );
    assert_eq!(slack_figure(&e_plan(), &table), least(-1, 2, 10));
    assert_eq!(slack_of_pair(&e_plan(), &table, 2, 10), -1);
}

#[test]
fn p4_missing_unit_is_refused_at_job_1() {
    let table = table_of(&[&[2, 4, 0], &[0, 4, 3]]);
    assert_eq!(
        judge(&e_plan(), &table),
        Err(Refusal::at(NOT_THE_SIZE, &[1]))
    );
}

#[test]
fn p5_four_jobs_are_accepted_with_slack_0() {
    assert_eq!(judge(&p5_plan(), &p5_table()), Ok(()));
    assert_eq!(slack_figure(&p5_plan(), &p5_table()), least(0, 1, 10));
}

#[test]
fn p6_two_essential_jobs_in_one_interval_break_the_floor_rule() {
    let table = table_of(&[&[4, 0], &[0, 2], &[0, 2]]);
    assert_eq!(
        judge(&three_jobs(), &table),
        Err(Refusal::at(FLOOR_RULE, &[1, 4]))
    );
}

#[test]
fn p7_overfull_interval_is_refused_at_interval_0() {
    let table = table_of(&[&[4, 0], &[2, 0], &[0, 2]]);
    assert_eq!(
        judge(&three_jobs(), &table),
        Err(Refusal::at(ABOVE_RATE, &[0]))
    );
}

#[test]
fn p8_unit_after_the_deadline_is_refused_at_job_0_interval_2() {
    let table = table_of(&[&[2, 3, 1], &[0, 4, 4]]);
    assert_eq!(
        judge(&e_plan(), &table),
        Err(Refusal::at(OUTSIDE_WINDOW, &[0, 2]))
    );
}

#[test]
fn p9_earlier_deadline_is_served_before_the_lower_position() {
    let plan = plan_of(&[hi(b"transf-B", 0, 2, 4), hi(b"transf-A", 0, 2, 2)]);
    let table = table_of(&[&[2, 0], &[2, 0]]);
    let mut run = start(&plan, &table).unwrap();
    let mut grants = [9; 2];
    assert_eq!(step(&plan, &table, &mut run, 2, &mut grants), DONE);
    assert_eq!(grants, [0, 2]);
    assert_eq!(step(&plan, &table, &mut run, 1, &mut grants), DONE);
    assert_eq!(grants, [1, 0]);
}

#[test]
fn p10_second_slot_at_full_speed_serves_the_essential_job() {
    let mut run = start(&e_plan(), &e_table()).unwrap();
    let mut grants = [9; 2];
    assert_eq!(step(&e_plan(), &e_table(), &mut run, 2, &mut grants), DONE);
    assert_eq!(step(&e_plan(), &e_table(), &mut run, 2, &mut grants), DONE);
    assert_eq!(grants, [0, 2]);
}

#[test]
fn p11_slow_first_slot_grants_nothing_and_sets_the_mark() {
    let mut run = start(&e_plan(), &e_table()).unwrap();
    let mut grants = [9; 2];
    assert_eq!(step(&e_plan(), &e_table(), &mut run, 1, &mut grants), DONE);
    assert_eq!(grants, [0, 0]);
    assert!(run.slow);
}

#[test]
fn p12_speed_3_is_refused() {
    let mut run = start(&e_plan(), &e_table()).unwrap();
    assert_eq!(step(&e_plan(), &e_table(), &mut run, 3, &mut [0; 2]), SPEED);
}

#[test]
fn row_named_in_capitals_names_no_job() {
    assert_eq!(answer(&e_with(ROW_3 + 1, b"MIRROR-A")), NO_SUCH_JOB);
}

#[test]
fn equal_rates_are_refused() {
    assert_eq!(answer(&e_with(5, &[0, 2, 0, 2])), RATES);
}

#[test]
fn empty_file_has_no_version() {
    assert_eq!(answer(&[]), VERSION);
}

#[test]
fn version_byte_alone_is_cut_short() {
    assert_eq!(answer(&[1]), CUT_OR_LENGTH);
}

#[test]
fn file_of_plan_e_is_read() {
    assert_eq!(answer(&e_file()), DONE);
}
