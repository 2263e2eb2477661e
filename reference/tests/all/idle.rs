//! Slow slots and idle ones: the slow mark is set only by a speed below the lesser of n and the sum of
//! the live jobs' dues, and the slot that sets it is served as a slow one.

use crate::common::{e_plan, e_run, e_table, hi, lo, plan_of, table, table_of, with_ended};
use reference::edition::{HI, LO};
use reference::plan::{Job, Plan};
use reference::program::runplan;
use reference::refusal::{DONE, SPEED};
use reference::run::Outcome::{Discarded, Met, Open};
use reference::run::{outcome, start, step, Outcome, Run};
use reference::shift::shift;
use reference::writer::writer;

/// The marks after a slot: slow, below floor.
type Marks = (bool, bool);
const CLEAR: Marks = (false, false);
const SLOW: Marks = (true, false);
const BELOW: Marks = (false, true);
const BOTH: Marks = (true, true);

/// A plan of two jobs with its table and a run.
struct Case {
    plan: Plan,
    table: Vec<u32>,
    run: Run,
}

impl Case {
    /// Asserts the grants of a slot and the marks after it, and that all else of the run is as it has
    /// to be.
    fn assert_slot(&self, speed: u16, grants: [u32; 2], marks: Marks) {
        let mut run = self.run.clone();
        let mut given = [99; 2];
        let answer = step(&self.plan, &self.table, &mut run, speed, &mut given);
        let mut expected = self.run.clone();
        expected.clock += 1;
        expected.carried[0] += grants[0];
        expected.carried[1] += grants[1];
        (expected.slow, expected.below_floor) = marks;
        assert_eq!((answer, given), (DONE, grants), "speed {}", speed);
        assert_eq!(run, expected, "speed {}", speed);
    }

    fn outcome(&self, position: u64) -> Outcome {
        outcome(&self.plan, &self.run, position).unwrap()
    }
}

/// The case of idle slots: boundaries 0, 2, 4, 6, and nothing to send from slot 1 to slot 3.
fn reports() -> Case {
    let plan = plan_of(&[lo(b"report-1", 0, 2, 2), lo(b"report-2", 4, 2, 6)]);
    let table = table_of(&[&[2, 0, 0], &[0, 0, 2]]);
    let run = start(&plan, &table).unwrap();
    Case { plan, table, run }
}

/// Rates 5 and 2; an other job of size 4, all of it allotted in interval 0, and an essential job of
/// size 6, half of it allotted there. The clock is in interval 0.
fn mixed(carried: [u32; 2]) -> Case {
    let jobs = [lo(b"other--1", 0, 4, 4), hi(b"essent-1", 0, 6, 8)];
    let plan = Plan {
        n: 5,
        d: 2,
        ..plan_of(&jobs)
    };
    let table = table_of(&[&[4, 0], &[3, 3]]);
    start(&plan, &table).unwrap();
    let run = e_run(1, false, carried);
    Case { plan, table, run }
}

/// The same with some jobs ended.
fn mixed_ended(carried: [u32; 2], ended: &[usize]) -> Case {
    let case = mixed(carried);
    let run = with_ended(case.run, ended);
    Case { run, ..case }
}

/// Plan E and a run of it.
fn e_case(run: Run) -> Case {
    Case {
        plan: e_plan(),
        table: e_table(),
        run,
    }
}

#[test]
fn reports_on_both_sides_of_idle_slow_slots_are_met() {
    let mut case = reports();
    assert_eq!(case.run, e_run(0, false, [0, 0]));
    for (speed, expected, after) in [
        (2, [2, 0], e_run(1, false, [2, 0])),
        (1, [0, 0], e_run(2, false, [2, 0])),
        (1, [0, 0], e_run(3, false, [2, 0])),
        (1, [0, 0], e_run(4, false, [2, 0])),
        (2, [0, 2], e_run(5, false, [2, 2])),
    ] {
        let mut grants = [99; 2];
        let answer = step(&case.plan, &case.table, &mut case.run, speed, &mut grants);
        assert_eq!((answer, grants), (DONE, expected));
        assert_eq!(case.run, after);
    }
    assert_eq!((case.outcome(0), case.outcome(1)), (Met, Met));
}

#[test]
fn reports_are_met_when_the_idle_slots_are_below_the_floor() {
    let mut case = reports();
    let answer = shift(
        &case.plan,
        &case.table,
        &mut case.run,
        &[2, 0, 0, 0, 2],
        &mut [0; 10],
        &mut [0; 5],
    );
    let mut expected = e_run(5, false, [2, 2]);
    expected.below_floor = true;
    assert_eq!((answer, &case.run), (DONE, &expected));
    assert_eq!((case.outcome(0), case.outcome(1)), (Met, Met));
}

#[test]
fn reports_in_one_shift_are_met_too() {
    let mut case = reports();
    let (mut rows, mut numbers) = ([99; 10], [99; 5]);
    let answer = shift(
        &case.plan,
        &case.table,
        &mut case.run,
        &[2, 1, 1, 1, 2],
        &mut rows,
        &mut numbers,
    );
    assert_eq!((answer, numbers), (DONE, [DONE; 5]));
    assert_eq!(rows, [2, 0, 0, 0, 0, 0, 0, 0, 0, 2]);
    assert_eq!(case.run, e_run(5, false, [2, 2]));
}

#[test]
fn report_that_is_due_makes_a_slot_at_the_floor_slow() {
    // At once, and after slots that were idle.
    let mut case = reports();
    case.assert_slot(1, [0, 0], SLOW);
    case.run = e_run(1, true, [0, 0]);
    assert_eq!((case.outcome(0), case.outcome(1)), (Discarded, Discarded));
    case.run = e_run(4, false, [2, 0]);
    assert_eq!((case.outcome(0), case.outcome(1)), (Met, Open));
    case.assert_slot(1, [0, 0], SLOW);
    case.run = e_run(5, true, [2, 0]);
    assert_eq!((case.outcome(0), case.outcome(1)), (Met, Discarded));
}

/// What the program prints for the case of idle slots.
fn printed(speeds: &[u16]) -> String {
    let Case { plan, table, .. } = reports();
    let mut input = vec![0; 200];
    let length = writer(&plan, &table, &mut input).unwrap();
    input.truncate(length);
    input.extend(speeds.iter().flat_map(|speed| speed.to_be_bytes()));
    String::from_utf8(runplan(&input)).unwrap()
}

#[test]
fn program_prints_idle_slow_slots_as_normal_ones() {
    let expected = "slot speed mode grants\n\
        0 2 N report-1=2\n\
        1 1 N -\n\
        2 1 N -\n\
        3 1 N -\n\
        4 2 N report-2=2\n\
        job outcome carried\n\
        report-1 met 2\n\
        report-2 met 2\n";
    assert_eq!(printed(&[2, 1, 1, 1, 2]), expected);
}

#[test]
fn program_prints_d_from_the_slot_on_that_sets_the_mark() {
    let expected = "slot speed mode grants\n\
        0 2 N report-1=2\n\
        1 0 N -\n\
        2 1 N -\n\
        3 2 N -\n\
        4 1 D -\n\
        5 2 D -\n\
        job outcome carried\n\
        report-1 met 2\n\
        report-2 discarded 0\n";
    assert_eq!(printed(&[2, 0, 1, 2, 1, 2]), expected);
}

#[test]
fn dues_equal_to_the_speed_leave_the_mark_clear_and_are_granted() {
    // Dues 2 and 1, and 1 and 3.
    mixed([2, 2]).assert_slot(3, [2, 1], CLEAR);
    mixed([3, 0]).assert_slot(4, [1, 3], CLEAR);
    // One job's due alone.
    mixed([0, 3]).assert_slot(4, [4, 0], CLEAR);
    mixed([4, 0]).assert_slot(3, [0, 3], CLEAR);
    e_case(e_run(4, false, [5, 8])).assert_slot(1, [1, 0], CLEAR);
}

#[test]
fn dues_below_the_speed_leave_the_mark_clear_and_no_more_is_granted() {
    mixed([2, 2]).assert_slot(4, [2, 1], CLEAR);
    mixed([4, 2]).assert_slot(3, [0, 1], CLEAR);
    mixed([3, 3]).assert_slot(2, [1, 0], CLEAR);
}

#[test]
fn dues_one_above_the_speed_set_the_mark_and_the_slot_is_served_as_a_slow_one() {
    // Dues 2 and 2: the essential job gets more than its due, and the other one nothing.
    mixed([2, 1]).assert_slot(3, [0, 3], SLOW);
    // Dues 3 and 2.
    mixed([1, 1]).assert_slot(4, [0, 4], SLOW);
    // Dues 2 and 1.
    mixed([2, 2]).assert_slot(2, [0, 2], SLOW);
    // Dues 0 and 3, where serving by dues would give 2 as well.
    mixed([4, 0]).assert_slot(2, [0, 2], SLOW);
}

#[test]
fn slot_that_sets_the_mark_gives_an_essential_job_no_more_than_its_size() {
    // One unit is left of it, and none of that is due; the other job is due 4.
    mixed([0, 5]).assert_slot(3, [0, 1], SLOW);
    mixed([0, 6]).assert_slot(3, [0, 0], SLOW);
}

#[test]
fn due_of_an_other_job_alone_sets_the_mark() {
    // The essential job has what is allotted to it, and gets from its later allotment.
    mixed([0, 3]).assert_slot(3, [0, 3], SLOW);
    mixed([1, 3]).assert_slot(2, [0, 2], SLOW);
    // Without an essential job.
    reports().assert_slot(1, [0, 0], SLOW);
    // With one that has ended.
    mixed_ended([0, 3], &[1]).assert_slot(3, [0, 0], SLOW);
}

#[test]
fn due_of_an_essential_job_alone_sets_the_mark() {
    mixed([4, 0]).assert_slot(2, [0, 2], SLOW);
    mixed_ended([0, 0], &[0]).assert_slot(2, [0, 2], SLOW);
}

#[test]
fn dues_that_fit_one_by_one_set_the_mark_when_their_sum_does_not() {
    // Dues 4 and 3, 3 and 3, 2 and 3.
    mixed([0, 0]).assert_slot(4, [0, 4], SLOW);
    mixed([1, 0]).assert_slot(4, [0, 4], SLOW);
    mixed([2, 0]).assert_slot(4, [0, 4], SLOW);
    mixed([3, 0]).assert_slot(4, [1, 3], CLEAR);
}

#[test]
fn full_speed_is_never_slow_though_dues_are_above_it() {
    // Dues 4 and 3, then 3 and 3, then 2 and 3.
    mixed([0, 0]).assert_slot(5, [2, 3], CLEAR);
    mixed([1, 0]).assert_slot(5, [2, 3], CLEAR);
    mixed([2, 0]).assert_slot(5, [2, 3], CLEAR);
    e_case(e_run(1, false, [0, 0])).assert_slot(2, [0, 2], CLEAR);
}

#[test]
fn speed_above_n_is_refused_and_sets_no_mark_with_or_without_dues() {
    for case in [mixed([0, 0]), mixed([4, 3])] {
        let mut run = case.run.clone();
        let answer = step(&case.plan, &case.table, &mut run, 6, &mut [0; 2]);
        assert_eq!((answer, run), (SPEED, case.run));
    }
}

#[test]
fn due_of_an_ended_job_does_not_count() {
    // Dues 4 and 3, one of which has ended.
    mixed_ended([0, 0], &[1]).assert_slot(4, [4, 0], CLEAR);
    mixed_ended([0, 0], &[0]).assert_slot(3, [0, 3], CLEAR);
    mixed_ended([0, 0], &[0]).assert_slot(2, [0, 2], SLOW);
    mixed_ended([0, 0], &[0, 1]).assert_slot(2, [0, 0], CLEAR);
    mixed_ended([0, 0], &[0, 1]).assert_slot(0, [0, 0], BELOW);
}

#[test]
fn job_after_its_deadline_does_not_count() {
    // The other job of plan E lacks 2 units: in its last slot they are due, and then no more.
    e_case(e_run(4, false, [4, 8])).assert_slot(1, [0, 0], SLOW);
    e_case(e_run(5, false, [4, 8])).assert_slot(1, [0, 0], CLEAR);
    e_case(e_run(5, false, [4, 7])).assert_slot(1, [0, 1], CLEAR);
}

#[test]
fn job_before_its_release_does_not_count() {
    // A table that no judge took gives the essential job of plan E units before its release at 1.
    let with_units = |run| Case {
        table: table_of(&[&[2, 4, 0], &[3, 0, 0]]),
        ..e_case(run)
    };
    with_units(e_run(0, false, [2, 0])).assert_slot(1, [0, 0], CLEAR);
    with_units(e_run(0, false, [1, 0])).assert_slot(1, [1, 0], CLEAR);
    with_units(e_run(1, false, [6, 0])).assert_slot(1, [0, 1], SLOW);
}

#[test]
fn record_from_the_count_on_does_not_count() {
    let mut case = mixed([4, 3]);
    case.plan.jobs[2] = lo(b"no-job--", 0, 9, 8);
    case.table[63 * 2] = 9;
    case.assert_slot(3, [0, 0], CLEAR);
    case.plan.jobs[2].grade = HI;
    case.assert_slot(3, [0, 0], CLEAR);
}

#[test]
fn units_left_that_are_not_yet_due_do_not_count() {
    // In interval 0 the essential job has 3 of its 6 units, or more than that.
    mixed([4, 3]).assert_slot(2, [0, 0], CLEAR);
    mixed([4, 5]).assert_slot(2, [0, 0], CLEAR);
    mixed([2, 3]).assert_slot(2, [2, 0], CLEAR);
    e_case(e_run(2, false, [6, 4])).assert_slot(1, [0, 0], CLEAR);
    // In the next interval they are.
    e_case(e_run(5, false, [6, 4])).assert_slot(1, [0, 1], SLOW);
}

#[test]
fn job_that_is_ahead_makes_no_due_of_another_smaller() {
    // It has 6 where 3 are allotted by now; the other one is due 2.
    mixed([2, 6]).assert_slot(1, [0, 0], BOTH);
    mixed([1, 6]).assert_slot(2, [0, 0], SLOW);
}

#[test]
fn units_lacking_from_an_earlier_interval_count() {
    // In interval 2 of plan E the essential job lacks 1 of the first 4, or has 1 more than these.
    let run = |carried| e_run(5, false, [6, carried]);
    let late = |carried| Case {
        table: table_of(&[&[2, 4, 0], &[0, 4, 0]]),
        ..e_case(run(carried))
    };
    late(2).assert_slot(1, [0, 1], SLOW);
    late(3).assert_slot(1, [0, 1], CLEAR);
    late(5).assert_slot(1, [0, 0], CLEAR);
}

#[test]
fn due_is_no_more_than_the_size_though_more_is_allotted() {
    // A table that no judge took: 1 unit is left of each size.
    let case = |carried| Case {
        table: table_of(&[&[u32::MAX, 0], &[u32::MAX, u32::MAX]]),
        ..mixed(carried)
    };
    case([3, 5]).assert_slot(2, [1, 1], CLEAR);
    case([3, 5]).assert_slot(1, [0, 1], BOTH);
    case([4, 6]).assert_slot(2, [0, 0], CLEAR);
}

#[test]
fn speed_below_the_floor_with_nothing_due_sets_the_below_floor_mark_alone() {
    for speed in [0, 1] {
        mixed([4, 3]).assert_slot(speed, [0, 0], BELOW);
    }
    mixed([4, 3]).assert_slot(2, [0, 0], CLEAR);
    // A slot that no job covers, and one after the job has its size.
    let reports = reports();
    for (clock, carried) in [(1, [2, 0]), (2, [2, 0]), (3, [2, 0]), (5, [2, 2])] {
        let run = e_run(clock, false, carried);
        let case = Case {
            plan: reports.plan.clone(),
            table: reports.table.clone(),
            run,
        };
        case.assert_slot(0, [0, 0], BELOW);
    }
}

#[test]
fn speed_below_the_floor_that_covers_the_dues_sets_the_below_floor_mark_alone() {
    mixed([3, 3]).assert_slot(1, [1, 0], BELOW);
    mixed([4, 2]).assert_slot(1, [0, 1], BELOW);
}

#[test]
fn speed_below_the_floor_and_below_the_dues_sets_both_marks() {
    mixed([3, 3]).assert_slot(0, [0, 0], BOTH);
    mixed([2, 3]).assert_slot(1, [0, 1], BOTH);
    mixed([4, 1]).assert_slot(1, [0, 1], BOTH);
}

#[test]
fn other_jobs_are_served_after_an_idle_slot_below_the_floor() {
    let mut case = reports();
    case.run = e_run(4, false, [2, 0]);
    case.run.below_floor = true;
    case.assert_slot(2, [0, 2], BELOW);
    assert_eq!(case.outcome(1), Open);
}

#[test]
fn idle_slots_clear_no_mark() {
    let mut case = mixed([4, 3]);
    case.run.slow = true;
    case.run.below_floor = true;
    // The essential job gets what is left of it, though nothing is due by the table.
    for (speed, grant) in [(0, 0), (1, 1), (2, 2), (5, 3)] {
        case.assert_slot(speed, [0, grant], BOTH);
    }
    case.run.below_floor = false;
    case.assert_slot(2, [0, 2], SLOW);
    // Nothing left at all, nothing live, and a slot at full speed.
    let mut case = reports();
    for (clock, carried) in [(1, [2, 0]), (2, [2, 0]), (4, [2, 2]), (4, [2, 0])] {
        case.run = e_run(clock, true, carried);
        for speed in [1, 2] {
            case.assert_slot(speed, [0, 0], SLOW);
        }
    }
}

#[test]
fn mark_set_once_stays_for_the_rest_of_the_run() {
    let mut case = reports();
    for (speed, slow) in [(1, true), (1, true), (2, true), (1, true), (2, true)] {
        let answer = step(&case.plan, &case.table, &mut case.run, speed, &mut [0; 2]);
        assert_eq!((answer, case.run.slow), (DONE, slow));
    }
    assert_eq!(case.run, e_run(5, true, [0, 0]));
}

#[test]
fn every_slot_of_the_mixed_plan_sets_the_marks_of_its_dues() {
    for choice in 0..5 * 7 * 6 * 4 {
        let carried = [choice % 5, choice / 5 % 7];
        let speed = choice / 35 % 6;
        let ended = [choice / 210 % 2 == 1, choice / 420 == 1];
        let mut case = mixed(carried);
        case.run.ended[..2].copy_from_slice(&ended);
        // What is allotted in interval 0, less what is carried.
        let other = if ended[0] { 0 } else { 4 - carried[0] };
        let essential = if ended[1] { 0 } else { 3 - carried[1].min(3) };
        let left = if ended[1] { 0 } else { 6 - carried[1] };
        let slow = speed < 5 && speed < other + essential;
        let grants = if slow {
            [0, left.min(speed)]
        } else {
            [other.min(speed - essential), essential]
        };
        case.assert_slot(speed as u16, grants, (slow, speed < 2));
    }
}

/// One job for each size, all live at 0, with all of its size due.
fn due_at_once(grade: u8, sizes: &[u32]) -> (Plan, Vec<u32>) {
    let job = |(i, &size): (usize, &u32)| Job {
        grade,
        ..lo(&[b'!' + i as u8; 8], 0, u64::from(size), 100_000)
    };
    let jobs: Vec<Job> = sizes.iter().enumerate().map(job).collect();
    let mut table = table();
    for (i, &size) in sizes.iter().enumerate() {
        table[63 * i] = size;
    }
    (plan_of(&jobs), table)
}

#[test]
fn dues_are_not_cut_to_fewer_bits() {
    // 2^16 and one more, 2^16 and 2^8 in two halves, 2^31, and the most that there can be.
    let heavy = [vec![100_000_000; 21], vec![47_483_648]].concat();
    let all: [&[u32]; 6] = [
        &[65_536],
        &[65_537],
        &[32_768, 32_768],
        &[128, 128],
        &heavy,
        &[100_000_000; 32],
    ];
    for sizes in all {
        for (grade, served) in [(LO, 0), (HI, 1)] {
            let (plan, table) = due_at_once(grade, sizes);
            let mut run = e_run(0, false, [0, 0]);
            let mut grants = [99; 32];
            assert_eq!(step(&plan, &table, &mut run, 1, &mut grants), DONE);
            assert_eq!((run.slow, grants[0]), (true, served), "{:?}", sizes);
            // The same at full speed.
            let mut run = e_run(0, false, [0, 0]);
            assert_eq!(step(&plan, &table, &mut run, 2, &mut grants), DONE);
            assert_eq!((run.slow, grants[0]), (false, 2), "{:?}", sizes);
        }
    }
}
