//! A whole shift in one call: refusals and their order, rows and numbers, refused speeds between others,
//! and what stays as it was.

use crate::common::{broken_plans, e_plan, e_run, e_table, hi, lo, plan_of, table_of, with_ended};
use reference::plan::{Job, Plan};
use reference::refusal::{
    AT_LAST_DEADLINE, DONE, NAME_BYTE, NAME_TWICE, SPEED, TOO_MANY_SPEEDS, TOO_SHORT, UNSOUND,
};
use reference::run::{start, step, Outcome, Run};
use reference::{run, shift};

/// What stands in the outputs before a shift.
const ROW_MARK: u32 = 77_777;
const NUMBER_MARK: u8 = 99;

/// The answer of a shift, and the outputs and the run after it.
#[derive(Debug, PartialEq)]
struct After {
    answer: u8,
    rows: Vec<u32>,
    numbers: Vec<u8>,
    run: Run,
}

/// A plan with its table and a run, on which shifts are tried.
struct Case {
    plan: Plan,
    table: Vec<u32>,
    run: Run,
}

impl Case {
    /// Plan E and a run of it.
    fn e(run: Run) -> Case {
        Case {
            plan: e_plan(),
            table: e_table(),
            run,
        }
    }

    /// An accepted plan at its start.
    fn started(plan: Plan, rows: &[&[u32]]) -> Case {
        let table = table_of(rows);
        let run = start(&plan, &table).unwrap();
        Case { plan, table, run }
    }

    /// A shift with outputs of these lengths.
    fn lent(&self, speeds: &[u16], rows: usize, numbers: usize) -> After {
        let mut after = self.untouched(DONE, rows, numbers);
        after.answer = shift::shift(
            &self.plan,
            &self.table,
            &mut after.run,
            speeds,
            &mut after.rows,
            &mut after.numbers,
        );
        after
    }

    /// A shift with outputs exactly as long as needed.
    fn shift(&self, speeds: &[u16]) -> After {
        self.lent(
            speeds,
            speeds.len() * self.plan.counted().len(),
            speeds.len(),
        )
    }

    /// What an answer that comes with no change leaves in outputs of these lengths.
    fn untouched(&self, answer: u8, rows: usize, numbers: usize) -> After {
        After {
            answer,
            rows: vec![ROW_MARK; rows],
            numbers: vec![NUMBER_MARK; numbers],
            run: self.run.clone(),
        }
    }

    /// The same by single calls, each with a grant row of its own.
    fn single_calls(&self, speeds: &[u16]) -> After {
        let mut after = self.untouched(DONE, 0, 0);
        for &speed in speeds {
            let mut grants = vec![ROW_MARK; self.plan.counted().len()];
            let answer = step(&self.plan, &self.table, &mut after.run, speed, &mut grants);
            after.rows.extend(grants);
            after.numbers.push(answer);
        }
        after
    }

    /// Asserts an answer, with outputs of these lengths, that comes with no change.
    fn assert_untouched(&self, speeds: &[u16], rows: usize, numbers: usize, number: u8) {
        let expected = self.untouched(number, rows, numbers);
        assert_eq!(self.lent(speeds, rows, numbers), expected);
    }

    /// Asserts that a shift is done, with these rows one after the other, these numbers and this run.
    fn assert_done(&self, speeds: &[u16], rows: &[&[u32]], numbers: &[u8], run: Run) {
        let expected = After {
            answer: DONE,
            rows: rows.concat(),
            numbers: numbers.to_vec(),
            run,
        };
        assert_eq!(self.shift(speeds), expected);
    }
}

fn e_at(clock: u32) -> Case {
    Case::e(e_run(clock, false, [0, 0]))
}

/// One job that can be sent at full speed for so many slots, and has as many slots again.
fn long_case(slots: u32) -> Case {
    let size = 2 * slots;
    let plan = plan_of(&[lo(b"only-job", 0, u64::from(size), 2 * slots)]);
    Case::started(plan, &[&[size]])
}

/// The row of a refused speed, of a plan with two jobs.
const REFUSED_ROW: &[u32] = &[ROW_MARK; 2];

#[test]
fn rows_and_numbers_follow_one_another_in_the_order_of_the_speeds() {
    e_at(0).assert_done(
        &[2, 2, 2, 1, 1, 1, 1],
        &[
            &[2, 0],
            &[0, 2],
            &[0, 2],
            &[0, 1],
            &[0, 1],
            &[0, 1],
            &[0, 1],
        ],
        &[DONE; 7],
        e_run(7, true, [2, 8]),
    );
}

#[test]
fn row_has_a_place_for_each_job_of_the_plan_and_no_more() {
    let jobs = [
        lo(b"other--1", 0, 2, 2),
        hi(b"essent-1", 0, 1, 4),
        hi(b"essent-2", 1, 1, 3),
    ];
    let one = Case::started(plan_of(&jobs[..1]), &[&[2]]);
    assert_eq!(one.shift(&[2, 2]).rows, [2, 0]);
    // Boundaries 0, 1, 2, 3, 4.
    let rows: [&[u32]; 3] = [&[1, 1], &[1, 0], &[0, 1, 0]];
    let three = Case::started(plan_of(&jobs), &rows);
    let after = three.shift(&[2, 2, 2]);
    assert_eq!(after.rows, [1, 1, 0, 1, 0, 1, 0, 0, 0]);
    assert_eq!(after.numbers, [DONE; 3]);
}

#[test]
fn rows_of_the_most_jobs_stand_at_multiples_of_32() {
    // One after the other, each job is sent in its own slot.
    let jobs: Vec<Job> = (0..32)
        .map(|i| hi(&[b'a' - i as u8; 8], i, 1, i + 1))
        .collect();
    let table: Vec<Vec<u32>> = (0..32).map(|i| [vec![0; i], vec![1]].concat()).collect();
    let rows: Vec<&[u32]> = table.iter().map(Vec::as_slice).collect();
    let after = Case::started(plan_of(&jobs), &rows).shift(&[2; 32]);
    let expected = |place: usize| u32::from(place / 32 == place % 32);
    let expected: Vec<u32> = (0..32 * 32).map(expected).collect();
    assert_eq!((after.answer, after.rows), (DONE, expected));
}

#[test]
fn refused_speed_leaves_its_row_and_the_next_one_is_tried() {
    e_at(0).assert_done(
        &[2, 3, 2],
        &[&[2, 0], REFUSED_ROW, &[0, 2]],
        &[DONE, SPEED, DONE],
        e_run(2, false, [2, 2]),
    );
    e_at(0).assert_done(
        &[u16::MAX, 3, 2, 1, 3],
        &[REFUSED_ROW, REFUSED_ROW, &[2, 0], &[0, 1], REFUSED_ROW],
        &[SPEED, SPEED, DONE, DONE, SPEED],
        e_run(2, true, [2, 1]),
    );
}

#[test]
fn speeds_after_the_last_deadline_are_19_whatever_they_are() {
    Case::e(e_run(8, false, [6, 5])).assert_done(
        &[2, 2, 2, 3, 0, 1],
        &[
            &[0, 2],
            &[0, 1],
            REFUSED_ROW,
            REFUSED_ROW,
            REFUSED_ROW,
            REFUSED_ROW,
        ],
        &[
            DONE,
            DONE,
            AT_LAST_DEADLINE,
            AT_LAST_DEADLINE,
            AT_LAST_DEADLINE,
            AT_LAST_DEADLINE,
        ],
        e_run(10, false, [6, 8]),
    );
}

#[test]
fn same_speed_above_the_rate_is_20_before_the_last_deadline_and_19_at_it() {
    Case::e(e_run(9, false, [6, 8])).assert_done(
        &[3, 2, 3],
        &[REFUSED_ROW, &[0, 0], REFUSED_ROW],
        &[SPEED, DONE, AT_LAST_DEADLINE],
        e_run(10, false, [6, 8]),
    );
}

#[test]
fn shift_with_every_speed_refused_is_done() {
    let at_end = Case::e(e_run(10, true, [2, 8]));
    at_end.assert_done(
        &[2, 0],
        &[REFUSED_ROW, REFUSED_ROW],
        &[AT_LAST_DEADLINE; 2],
        at_end.run.clone(),
    );
    e_at(1).assert_done(
        &[3, 4],
        &[REFUSED_ROW, REFUSED_ROW],
        &[SPEED; 2],
        e_run(1, false, [0, 0]),
    );
}

#[test]
fn marks_are_set_by_the_speeds_that_are_done_and_hold_for_all_after() {
    let mut both = e_run(4, true, [2, 3]);
    both.below_floor = true;
    e_at(0).assert_done(
        &[2, 3, 1, 0, 2],
        &[&[2, 0], REFUSED_ROW, &[0, 1], &[0, 0], &[0, 2]],
        &[DONE, SPEED, DONE, DONE, DONE],
        both,
    );
}

#[test]
fn as_many_speeds_as_allowed_are_done() {
    for count in [255, 256] {
        let after = long_case(300).shift(&vec![2; count]);
        assert_eq!(after.answer, DONE);
        assert_eq!(after.rows, vec![2; count]);
        assert_eq!(after.numbers, vec![DONE; count]);
        assert_eq!(after.run, e_run(count as u32, false, [2 * count as u32, 0]));
    }
}

#[test]
fn last_of_256_speeds_is_looked_at_like_any_other() {
    let speeds = [vec![2; 254], vec![3, 1]].concat();
    let after = long_case(300).shift(&speeds);
    assert_eq!(after.numbers[253..], [DONE, SPEED, DONE]);
    assert_eq!(after.rows[253..], [2, ROW_MARK, 0]);
    assert_eq!(after.run, e_run(255, true, [508, 0]));
}

#[test]
fn more_speeds_than_256_are_27_and_nothing_changes() {
    // The last three are allowed in fewer bits.
    for count in [257, 258, 300, 512, 65_536, 65_792] {
        let case = long_case(300);
        case.assert_untouched(&vec![2; count], count, count, TOO_MANY_SPEEDS);
        e_at(10).assert_untouched(&vec![3; count], 2 * count, count, TOO_MANY_SPEEDS);
    }
}

#[test]
fn rules_of_numbers_are_21_for_a_shift_and_rules_of_names_are_not() {
    for (rule, plan) in broken_plans() {
        let case = Case { plan, ..e_at(1) };
        if rule == NAME_BYTE || rule == NAME_TWICE {
            case.assert_done(&[2], &[&[0, 2]], &[DONE], e_run(2, false, [0, 2]));
        } else {
            case.assert_untouched(&[2, 3], 64, 2, UNSOUND);
            case.assert_untouched(&[], 0, 0, UNSOUND);
        }
    }
}

#[test]
fn unsound_run_is_21() {
    for run in [
        e_run(11, false, [0, 0]),
        e_run(u32::MAX, false, [0, 0]),
        e_run(1, false, [7, 0]),
        e_run(1, false, [0, 9]),
        with_ended(e_run(1, true, [0, 9]), &[1]),
    ] {
        let case = Case::e(run);
        case.assert_untouched(&[2, 3], 4, 2, UNSOUND);
        case.assert_untouched(&[], 0, 0, UNSOUND);
    }
}

#[test]
fn clock_before_the_first_release_is_21_and_at_the_last_deadline_is_not() {
    let plan = plan_of(&[lo(b"only-job", 3, 2, 5)]);
    let at = |clock| Case {
        plan: plan.clone(),
        table: table_of(&[&[2]]),
        run: e_run(clock, false, [0, 0]),
    };
    at(2).assert_untouched(&[2, 2], 2, 2, UNSOUND);
    at(6).assert_untouched(&[2, 2], 2, 2, UNSOUND);
    at(3).assert_done(&[2], &[&[2]], &[DONE], e_run(4, false, [2, 0]));
    at(5).assert_done(&[2], &[&[ROW_MARK]], &[AT_LAST_DEADLINE], at(5).run);
}

#[test]
fn what_a_judge_refuses_is_not_21_for_a_shift() {
    // A stray place, one outside its window, and sums that are not the sizes.
    let mut case = Case {
        table: table_of(&[&[1, 0, 1], &[0, 0, 0]]),
        ..e_at(0)
    };
    case.table[62] = 50;
    case.table[2_015] = 1;
    case.assert_done(
        &[2, 2],
        &[&[1, 0], &[0, 0]],
        &[DONE; 2],
        e_run(2, false, [1, 0]),
    );
}

#[test]
fn short_table_is_22_and_a_longer_one_is_not() {
    let mut case = e_at(0);
    case.table.push(9);
    assert_eq!(case.shift(&[2]).answer, DONE);
    for length in [2_015, 1, 0] {
        case.table.truncate(length);
        case.assert_untouched(&[2, 3], 4, 2, TOO_SHORT);
    }
}

#[test]
fn either_short_output_is_22_though_its_first_places_would_do() {
    let case = e_at(0);
    for (rows, numbers) in [(5, 3), (4, 3), (0, 3), (6, 2), (6, 0), (5, 2), (64, 2)] {
        case.assert_untouched(&[2, 2, 2], rows, numbers, TOO_SHORT);
    }
    assert_eq!(case.lent(&[2, 2, 2], 6, 3).answer, DONE);
}

#[test]
fn refused_speeds_need_their_places_too() {
    e_at(0).assert_untouched(&[2, 3, 3], 5, 3, TOO_SHORT);
    e_at(0).assert_untouched(&[2, 3, 3], 6, 2, TOO_SHORT);
    e_at(10).assert_untouched(&[2, 2], 0, 2, TOO_SHORT);
    e_at(10).assert_untouched(&[2, 2], 4, 0, TOO_SHORT);
}

#[test]
fn outputs_of_256_speeds_have_to_hold_the_last_one() {
    let case = long_case(300);
    case.assert_untouched(&[2; 256], 255, 256, TOO_SHORT);
    case.assert_untouched(&[2; 256], 256, 255, TOO_SHORT);
    case.assert_untouched(&[2; 256], 0, 0, TOO_SHORT);
    e_at(0).assert_untouched(&[2; 256], 511, 256, TOO_SHORT);
}

#[test]
fn unsound_run_comes_before_too_many_speeds_and_before_short_buffers() {
    let mut case = e_at(11);
    case.assert_untouched(&[2; 257], 514, 257, UNSOUND);
    case.assert_untouched(&[2; 257], 0, 0, UNSOUND);
    case.assert_untouched(&[2], 0, 0, UNSOUND);
    case.table.clear();
    case.assert_untouched(&[2; 257], 0, 0, UNSOUND);
    case.assert_untouched(&[2], 2, 1, UNSOUND);
    case.assert_untouched(&[], 0, 0, UNSOUND);
}

#[test]
fn too_many_speeds_come_before_short_buffers() {
    let mut case = e_at(0);
    for (rows, numbers) in [(514, 256), (513, 257), (512, 256), (0, 0)] {
        case.assert_untouched(&[2; 257], rows, numbers, TOO_MANY_SPEEDS);
    }
    case.table.truncate(2_015);
    case.assert_untouched(&[2; 257], 514, 257, TOO_MANY_SPEEDS);
    case.assert_untouched(&[2; 256], 512, 256, TOO_SHORT);
}

#[test]
fn empty_list_is_done_and_changes_nothing() {
    for case in [
        e_at(0),
        e_at(10),
        Case::e(with_ended(e_run(5, true, [3, 4]), &[1])),
    ] {
        for (rows, numbers) in [(0, 0), (5, 0), (0, 5), (5, 5)] {
            case.assert_untouched(&[], rows, numbers, DONE);
        }
    }
}

#[test]
fn empty_list_with_a_short_table_is_22() {
    let mut case = e_at(0);
    case.table.truncate(2_015);
    case.assert_untouched(&[], 0, 0, TOO_SHORT);
    case.assert_untouched(&[], 5, 5, TOO_SHORT);
    case.table.clear();
    case.assert_untouched(&[], 0, 0, TOO_SHORT);
}

#[test]
fn places_past_the_last_row_and_the_last_number_stay() {
    let after = e_at(0).lent(&[2, 3, 2], 9, 5);
    let (mark, numbers) = (ROW_MARK, [DONE, SPEED, DONE, NUMBER_MARK, NUMBER_MARK]);
    assert_eq!(after.answer, DONE);
    assert_eq!(after.rows, [2, 0, mark, mark, 0, 2, mark, mark, mark]);
    assert_eq!(after.numbers, numbers);
    // With ample outputs the rows stand no further apart.
    let after = e_at(0).lent(&[2, 2], 8_192, 256);
    assert_eq!(after.rows[..4], [2, 0, 0, 2]);
    assert!(after.rows[4..].iter().all(|&place| place == ROW_MARK));
    assert_eq!(after.numbers[..2], [DONE, DONE]);
    assert!(after.numbers[2..].iter().all(|&place| place == NUMBER_MARK));
}

#[test]
fn ended_job_gets_nothing_in_a_shift_and_the_others_get_what_it_leaves() {
    // The essential job has ended, and the other one is met two slots earlier than otherwise.
    let case = Case::e(with_ended(e_run(1, false, [2, 0]), &[1]));
    let last = with_ended(e_run(5, false, [6, 0]), &[1]);
    case.assert_done(
        &[2, 2, 3, 2, 2],
        &[&[2, 0], &[2, 0], REFUSED_ROW, &[0, 0], &[0, 0]],
        &[DONE, DONE, SPEED, DONE, DONE],
        last.clone(),
    );
    assert_eq!(run::outcome(&case.plan, &last, 1), Ok(Outcome::Ended));
    // In slow slots too.
    let case = Case::e(with_ended(e_run(1, true, [2, 0]), &[1]));
    let last = with_ended(e_run(3, true, [2, 0]), &[1]);
    case.assert_done(&[1, 2], &[&[0, 0], &[0, 0]], &[DONE; 2], last);
}

#[test]
fn shift_sets_no_ended_mark_for_jobs_that_are_met_discarded_or_missed() {
    let mut last = e_run(10, true, [5, 7]);
    last.below_floor = true;
    Case::e(e_run(8, false, [5, 7])).assert_done(&[0, 0], &[&[0, 0], &[0, 0]], &[DONE; 2], last);
    Case::e(e_run(4, false, [5, 8])).assert_done(
        &[2, 2],
        &[&[1, 0], &[0, 0]],
        &[DONE; 2],
        e_run(6, false, [6, 8]),
    );
}

#[test]
fn word_between_two_shifts_holds_for_the_second() {
    let mut case = e_at(0);
    case.run = case.shift(&[2, 2]).run;
    assert_eq!(run::end(&case.plan, &mut case.run, 1), DONE);
    case.assert_done(
        &[2, 2, 2],
        &[&[2, 0], &[2, 0], &[0, 0]],
        &[DONE; 3],
        with_ended(e_run(5, false, [6, 2]), &[1]),
    );
}

#[test]
fn records_and_run_places_from_the_count_on_are_ignored_and_left() {
    let mut case = e_at(0);
    case.plan.jobs[2] = hi(b"no-job--", 0, 50, 200);
    case.plan.jobs[3].grade = 9;
    case.run = with_ended(case.run, &[2, 31]);
    case.run.carried[2] = u32::MAX;
    case.run.carried[31] = 5;
    let mut last = with_ended(e_run(2, false, [2, 2]), &[2, 31]);
    last.carried[2] = u32::MAX;
    last.carried[31] = 5;
    case.assert_done(&[2, 2], &[&[2, 0], &[0, 2]], &[DONE; 2], last);
    // The last deadline is that of a job.
    case.run.clock = 10;
    assert_eq!(case.shift(&[2]).numbers, [AT_LAST_DEADLINE]);
}

#[test]
fn every_short_list_on_plan_e_is_what_single_calls_give() {
    let runs = [
        e_run(0, false, [0, 0]),
        e_run(1, false, [2, 0]),
        e_run(4, false, [3, 4]),
        e_run(8, true, [2, 5]),
        e_run(9, false, [6, 6]),
        e_run(10, false, [6, 8]),
        with_ended(e_run(2, false, [2, 1]), &[0]),
        with_ended(e_run(2, false, [2, 1]), &[1]),
    ];
    for case in runs.map(Case::e) {
        for choice in 0..256_u16 {
            let speeds = [choice % 4, choice / 4 % 4, choice / 16 % 4, choice / 64];
            for count in 0..=speeds.len() {
                let speeds = &speeds[..count];
                assert_eq!(case.shift(speeds), case.single_calls(speeds));
            }
        }
    }
}

#[test]
fn two_shifts_are_one() {
    let speeds = [2, 3, 2, 2, 1, 2, 0, 2, 2, 2, 2, 3, 2];
    let whole = e_at(0).shift(&speeds);
    for cut in 0..=speeds.len() {
        let first = e_at(0).shift(&speeds[..cut]);
        let second = Case::e(first.run).shift(&speeds[cut..]);
        let parts = After {
            answer: DONE,
            rows: [first.rows, second.rows].concat(),
            numbers: [first.numbers, second.numbers].concat(),
            run: second.run,
        };
        assert_eq!(parts, whole, "cut after {}", cut);
    }
}
