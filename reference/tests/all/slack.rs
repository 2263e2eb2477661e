//! The slack of a pair and the slack figure.

use crate::common::{broken_plans, e_plan, e_table, hi, least, lo, plan_of, table_of};
use reference::plan::Plan;
use reference::refusal::{Refusal, ABOVE_RATE, NOT_THE_SIZE, OUTSIDE_WINDOW, TOO_SHORT, UNSOUND};
use reference::slack::{slack_figure, slack_of_pair, SlackFigure};

fn refused(number: u8, places: &[u64]) -> Result<SlackFigure, Refusal> {
    Err(Refusal::at(number, places))
}

/// LO jobs alone, so that nothing is essential.
fn lo_only() -> Plan {
    plan_of(&[lo(b"first-lo", 0, 2, 1), lo(b"later-lo", 0, 2, 2)])
}

#[test]
fn slacks_of_the_pairs_of_plan_e() {
    let slack = |interval, boundary| slack_of_pair(&e_plan(), &e_table(), interval, boundary);
    assert_eq!([slack(0, 1), slack(0, 5), slack(0, 10)], [1, 5, 2]);
    assert_eq!([slack(1, 5), slack(1, 10), slack(2, 10)], [4, 1, 1]);
}

#[test]
fn slack_of_a_table_never_judged_is_exact_far_below_zero() {
    let table = table_of(&[&[0; 3], &[0, u32::MAX, u32::MAX]]);
    assert_eq!(
        slack_of_pair(&e_plan(), &table, 1, 10),
        9 - 2 * i64::from(u32::MAX)
    );
}

#[test]
fn figure_is_taken_over_essential_deadlines_only() {
    // Over all boundaries this pair would be the first of those with slack 1.
    assert_eq!(slack_of_pair(&e_plan(), &e_table(), 0, 1), 1);
    assert_eq!(slack_figure(&e_plan(), &e_table()), least(1, 1, 10));
}

#[test]
fn equal_slacks_answer_with_the_lower_interval() {
    // Intervals 1 and 2 of plan E both have 1 to spare.
    assert_eq!(slack_of_pair(&e_plan(), &e_table(), 2, 10), 1);
    assert_eq!(slack_figure(&e_plan(), &e_table()), least(1, 1, 10));
}

#[test]
fn equal_slacks_of_one_interval_answer_with_the_lower_deadline() {
    let plan = plan_of(&[hi(b"later-hi", 0, 1, 2), hi(b"early-hi", 0, 1, 1)]);
    assert_eq!(
        slack_figure(&plan, &table_of(&[&[1, 0], &[1, 0]])),
        least(0, 0, 1)
    );
}

#[test]
fn lesser_slack_of_a_later_interval_goes_before_a_greater_one() {
    let plan = plan_of(&[hi(b"later-hi", 0, 1, 4), hi(b"early-hi", 0, 1, 3)]);
    assert_eq!(
        slack_figure(&plan, &table_of(&[&[0, 1], &[1, 0]])),
        least(0, 1, 4)
    );
}

#[test]
fn plan_without_essential_jobs_has_no_figure() {
    let table = table_of(&[&[2, 0], &[0, 2]]);
    assert_eq!(
        slack_figure(&lo_only(), &table),
        Ok(SlackFigure::NoneEssential)
    );
}

#[test]
fn plan_without_essential_jobs_is_refused_all_the_same() {
    let plan = lo_only();
    assert_eq!(
        slack_figure(&plan, &table_of(&[&[2, 1], &[0, 2]])),
        refused(OUTSIDE_WINDOW, &[0, 1])
    );
    assert_eq!(
        slack_figure(&plan, &table_of(&[&[2, 0], &[0, 1]])),
        refused(NOT_THE_SIZE, &[1])
    );
    assert_eq!(
        slack_figure(&plan, &table_of(&[&[2, 0], &[2, 0]])),
        refused(ABOVE_RATE, &[0])
    );
}

#[test]
fn short_table_comes_before_an_unsound_plan() {
    assert_eq!(
        slack_figure(&Plan::zeros(), &vec![0; 2_015]),
        refused(TOO_SHORT, &[])
    );
}

#[test]
fn each_broken_rule_and_a_stray_place_are_21() {
    for (rule, plan) in broken_plans() {
        assert_eq!(
            slack_figure(&plan, &e_table()),
            refused(UNSOUND, &[]),
            "rule {}",
            rule
        );
    }
    let mut table = e_table();
    table[3] = 1;
    assert_eq!(slack_figure(&e_plan(), &table), refused(UNSOUND, &[]));
}

#[test]
fn greatest_shortfall_is_exact() {
    let mut plan = plan_of(&[hi(b"only-job", 0, 100_000_000, 100_000)]);
    plan.n = 1_000;
    assert_eq!(
        slack_figure(&plan, &table_of(&[&[100_000_000]])),
        least(-99_900_000, 0, 100_000)
    );
}
