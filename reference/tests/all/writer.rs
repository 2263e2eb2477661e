//! The writer: the exact file, each refusal, their order, and what the output holds after.

use crate::common::{broken_plans, e_file, e_plan, e_table, hi, plan_of, table, table_of};
use reference::plan::{Job, Plan};
use reference::reader::reader;
use reference::refusal::{DONE, TOO_SHORT, UNSOUND};
use reference::writer::writer;

const MARK: u8 = 0xEE;

/// The writer's answer with an output of so many bytes, and that output.
fn written(plan: &Plan, table: &[u32], bytes: usize) -> (Result<usize, u8>, Vec<u8>) {
    let mut output = vec![MARK; bytes];
    let answer = writer(plan, table, &mut output);
    (answer, output)
}

fn is_untouched(output: &[u8]) -> bool {
    output.iter().all(|&byte| byte == MARK)
}

#[test]
fn plan_e_is_written_byte_for_byte() {
    let (answer, output) = written(&e_plan(), &e_table(), 116);
    assert_eq!((answer, output), (Ok(116), e_file()));
}

#[test]
fn bytes_past_the_file_stay() {
    let (answer, output) = written(&e_plan(), &e_table(), 120);
    assert_eq!((answer, &output[116..]), (Ok(116), &[MARK; 4][..]));
}

#[test]
fn output_one_byte_short_stays_as_it_was() {
    let (answer, output) = written(&e_plan(), &e_table(), 115);
    assert_eq!(answer, Err(TOO_SHORT));
    assert!(is_untouched(&output));
}

#[test]
fn short_table_comes_before_an_unsound_plan() {
    let (answer, output) = written(&Plan::zeros(), &vec![0; 2_015], 200);
    assert_eq!(answer, Err(TOO_SHORT));
    assert!(is_untouched(&output));
}

#[test]
fn unsound_plan_comes_before_a_short_output() {
    let (answer, _) = written(&Plan::zeros(), &table(), 0);
    assert_eq!(answer, Err(UNSOUND));
}

#[test]
fn each_broken_rule_is_21_and_writes_nothing() {
    for (rule, plan) in broken_plans() {
        let (answer, output) = written(&plan, &e_table(), 200);
        assert_eq!(answer, Err(UNSOUND), "rule {}", rule);
        assert!(is_untouched(&output));
    }
}

#[test]
fn stray_places_are_21() {
    for place in [3, 62, 66, 126, 2_015] {
        let mut table = e_table();
        table[place] = 1;
        assert_eq!(
            written(&e_plan(), &table, 200).0,
            Err(UNSOUND),
            "place {}",
            place
        );
    }
}

#[test]
fn place_beyond_the_table_is_no_stray_place() {
    let mut table = e_table();
    table.extend([5, 5]);
    assert_eq!(written(&e_plan(), &table, 116), (Ok(116), e_file()));
}

#[test]
fn records_from_the_count_on_are_not_looked_at() {
    let mut plan = e_plan();
    plan.jobs[2] = Job {
        grade: 9,
        ..plan.jobs[0]
    };
    assert_eq!(written(&plan, &e_table(), 116), (Ok(116), e_file()));
}

#[test]
fn refused_plans_are_written_all_the_same() {
    let table = table_of(&[&[2, 3, 1], &[0, u32::MAX, 4]]);
    let (answer, output) = written(&e_plan(), &table, 200);
    // One row more than plan E has.
    assert_eq!(answer, Ok(131));
    assert_eq!(output[54..56], [0, 5]);
}

#[test]
fn plan_without_rows_is_written() {
    let plan = plan_of(&[hi(b"only-job", 0, 1, 1)]);
    assert_eq!(written(&plan, &table(), 200).0, Ok(34));
}

#[test]
fn written_file_reads_back_as_the_same_plan() {
    let table = table_of(&[&[2, 3, u32::MAX], &[7, 0, 4]]);
    let (answer, output) = written(&e_plan(), &table, 300);
    let mut read = vec![9; 2_016];
    let back = reader(&output[..answer.unwrap()], &mut read);
    assert_eq!((back.number, back.plan, read), (DONE, e_plan(), table));
}

#[test]
fn largest_plan_fills_the_largest_file() {
    let mut plan = Plan {
        n: 1_000,
        d: 999,
        count: 32,
        ..Plan::zeros()
    };
    for i in 0..32 {
        plan.jobs[i] = hi(b"job-no--", i as u32, 1, 63 - i as u32);
        plan.jobs[i].name[7] = b'0' + i as u8;
    }
    let table = vec![u32::MAX; 2_016];
    assert_eq!(written(&plan, &table, 30_956).0, Ok(30_956));
    assert_eq!(written(&plan, &table, 30_955).0, Err(TOO_SHORT));
}
