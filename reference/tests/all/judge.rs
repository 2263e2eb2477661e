//! The judge: each refusal, their order, the first places, and sums beyond 32 bits.

use crate::common::{broken_plans, e_plan, e_table, hi, lo, plan_of, table, table_of};
use reference::judge::judge;
use reference::plan::{Job, Plan};
use reference::refusal::{
    Refusal, ABOVE_RATE, FLOOR_RULE, NOT_THE_SIZE, OUTSIDE_WINDOW, TOO_SHORT, UNSOUND,
};

fn at(number: u8, places: &[u64]) -> Result<(), Refusal> {
    Err(Refusal::at(number, places))
}

/// Plan E judged with other rows.
fn judged(first: &[u32], second: &[u32]) -> Result<(), Refusal> {
    judge(&e_plan(), &table_of(&[first, second]))
}

#[test]
fn short_table_comes_before_an_unsound_plan() {
    assert_eq!(judge(&Plan::zeros(), &vec![0; 2_015]), at(TOO_SHORT, &[]));
}

#[test]
fn each_broken_rule_is_21() {
    for (rule, plan) in broken_plans() {
        assert_eq!(judge(&plan, &e_table()), at(UNSOUND, &[]), "rule {}", rule);
    }
}

#[test]
fn stray_places_are_21_before_other_faults() {
    for place in [3, 62, 66, 126, 2_015] {
        let mut table = e_table();
        table[place] = 1;
        table[2] = 1;
        assert_eq!(
            judge(&e_plan(), &table),
            at(UNSOUND, &[]),
            "place {}",
            place
        );
    }
}

#[test]
fn places_beyond_the_table_are_not_looked_at() {
    let mut table = e_table();
    table.extend([5, 5]);
    assert_eq!(judge(&e_plan(), &table), Ok(()));
}

#[test]
fn records_from_the_count_on_are_not_looked_at() {
    let mut plan = e_plan();
    plan.jobs[2] = Job {
        grade: 9,
        deadline: 7,
        ..plan.jobs[0]
    };
    assert_eq!(judge(&plan, &e_table()), Ok(()));
}

#[test]
fn windows_of_all_jobs_come_before_any_size() {
    assert_eq!(judged(&[2, 3, 0], &[1, 4, 3]), at(OUTSIDE_WINDOW, &[1, 0]));
}

#[test]
fn first_place_outside_a_window_is_the_lower_job_then_the_lower_interval() {
    assert_eq!(judged(&[2, 3, 1], &[1, 4, 3]), at(OUTSIDE_WINDOW, &[0, 2]));
    let plan = plan_of(&[lo(b"first-jb", 1, 1, 2), lo(b"secondjb", 0, 1, 3)]);
    let table = table_of(&[&[1, 1, 1], &[1, 0, 0]]);
    assert_eq!(judge(&plan, &table), at(OUTSIDE_WINDOW, &[0, 0]));
}

#[test]
fn all_sizes_come_before_any_interval() {
    assert_eq!(judged(&[6, 0, 0], &[0, 4, 3]), at(NOT_THE_SIZE, &[1]));
}

#[test]
fn first_wrong_size_is_the_lower_job() {
    assert_eq!(judged(&[2, 3, 0], &[0, 4, 3]), at(NOT_THE_SIZE, &[0]));
}

#[test]
fn surplus_is_refused_as_shortage_is() {
    assert_eq!(judged(&[2, 5, 0], &[0, 4, 4]), at(NOT_THE_SIZE, &[0]));
    assert_eq!(judged(&[2, 3, 0], &[0, 4, 4]), at(NOT_THE_SIZE, &[0]));
}

#[test]
fn row_of_its_size_plus_2_to_the_32_is_refused() {
    assert_eq!(
        judged(&[u32::MAX, 7, 0], &[0, 4, 4]),
        at(NOT_THE_SIZE, &[0])
    );
    let half = 1 << 31;
    assert_eq!(
        judged(&[2, 4, 0], &[0, 4 + half, 4 + half]),
        at(NOT_THE_SIZE, &[1])
    );
}

#[test]
fn column_of_2_to_the_32_more_fails_at_the_sizes() {
    let half = 1 << 31;
    assert_eq!(
        judged(&[2, 4 + half, 0], &[0, 4 + half, 4]),
        at(NOT_THE_SIZE, &[0])
    );
}

#[test]
fn rows_and_columns_of_the_largest_units_are_summed_in_full() {
    let full = [u32::MAX; 3];
    assert_eq!(
        judged(&[u32::MAX, u32::MAX, 0], &[0, full[0], full[1]]),
        at(NOT_THE_SIZE, &[0])
    );
}

#[test]
fn all_intervals_come_before_the_floor_rule() {
    let plan = plan_of(&[hi(b"first-hi", 0, 2, 1), lo(b"later-lo", 1, 3, 2)]);
    assert_eq!(
        judge(&plan, &table_of(&[&[2, 0], &[0, 3]])),
        at(ABOVE_RATE, &[1])
    );
}

#[test]
fn interval_exactly_full_is_accepted_and_one_unit_more_is_not() {
    let full = plan_of(&[lo(b"only-job", 3, 14, 10)]);
    assert_eq!(judge(&full, &table_of(&[&[14]])), Ok(()));
    let over = plan_of(&[lo(b"only-job", 3, 15, 10)]);
    assert_eq!(judge(&over, &table_of(&[&[15]])), at(ABOVE_RATE, &[0]));
}

#[test]
fn floor_exactly_used_is_accepted_and_one_unit_more_is_not() {
    let full = plan_of(&[hi(b"only-job", 3, 7, 10)]);
    assert_eq!(judge(&full, &table_of(&[&[7]])), Ok(()));
    let over = plan_of(&[hi(b"only-job", 3, 8, 10)]);
    assert_eq!(judge(&over, &table_of(&[&[8]])), at(FLOOR_RULE, &[0, 10]));
}

#[test]
fn first_broken_floor_is_the_lower_interval_then_the_lower_deadline() {
    let plan = plan_of(&[hi(b"later-hi", 0, 3, 3), hi(b"early-hi", 0, 2, 1)]);
    // From interval 0 both deadlines fail, and interval 1 fails as well.
    let plan = Plan { n: 10, ..plan };
    assert_eq!(
        judge(&plan, &table_of(&[&[0, 3], &[2, 0]])),
        at(FLOOR_RULE, &[0, 1])
    );
    let other = Plan { d: 2, ..plan };
    assert_eq!(judge(&other, &table_of(&[&[0, 3], &[2, 0]])), Ok(()));
}

#[test]
fn floor_rule_may_fail_at_a_later_interval_alone() {
    let plan = plan_of(&[lo(b"early-lo", 0, 1, 8), hi(b"later-hi", 0, 3, 10)]);
    assert_eq!(
        judge(&plan, &table_of(&[&[1, 0], &[0, 3]])),
        at(FLOOR_RULE, &[1, 10])
    );
}

#[test]
fn longer_deadlines_do_not_count_towards_an_earlier_one() {
    let plan = plan_of(&[hi(b"longer--", 0, 1, 4), hi(b"shorter-", 0, 1, 1)]);
    assert_eq!(judge(&plan, &table_of(&[&[1, 0], &[1, 0]])), Ok(()));
}

#[test]
fn largest_plan_of_one_job_is_accepted() {
    let mut plan = plan_of(&[lo(b"only-job", 0, 100_000_000, 100_000)]);
    plan.n = 1_000;
    assert_eq!(judge(&plan, &table_of(&[&[100_000_000]])), Ok(()));
    plan.n = 999;
    assert_eq!(
        judge(&plan, &table_of(&[&[100_000_000]])),
        at(ABOVE_RATE, &[0])
    );
}

#[test]
fn empty_table_fails_at_the_first_size() {
    assert_eq!(judge(&e_plan(), &table()), at(NOT_THE_SIZE, &[0]));
}
