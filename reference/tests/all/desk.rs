//! The desk: rows by hand, ties, one job and the most jobs, refusals with their order and what they leave
//! in the table, and the pair that a planner is told of.

use crate::common::{broken_plans, e_plan, hi, lo, p5_plan, p5_table, plan_of, table_of};
use reference::desk::{draw_up, shortage, Pair, Shortage};
use reference::judge::judge;
use reference::plan::{Job, Plan};
use reference::refusal::{DONE, NO_TIMETABLE, RELEASES_DIFFER, TOO_SHORT, UNSOUND};

/// What stands in a table before it is lent.
const MARK: u32 = 77_777;
/// Places lent beyond the table's own.
const SPARE: [usize; 3] = [0, 1, 24];

/// The desk's answer, and a table of so many places after it.
fn drawn_up(plan: &Plan, places: usize) -> (u8, Vec<u32>) {
    let mut table = vec![MARK; places];
    (draw_up(plan, &mut table), table)
}

/// Asserts an answer that leaves this in the table's own places and nothing beyond.
fn assert_leaves(plan: &Plan, number: u8, own: &[u32]) {
    for spare in SPARE {
        let (answer, table) = drawn_up(plan, 2_016 + spare);
        assert_eq!(answer, number, "{:?}", plan.counted());
        assert!(table[..2_016] == *own, "{:?}", plan.counted());
        assert_eq!(table[2_016..], vec![MARK; spare]);
    }
}

/// Asserts the rows that are drawn up, and that the judge accepts them.
fn assert_rows(plan: &Plan, rows: &[&[u32]]) {
    assert_leaves(plan, DONE, &table_of(rows));
    assert_eq!(judge(plan, &table_of(rows)), Ok(()));
    assert_eq!(shortage(plan), Shortage::TimetableExists);
}

/// Asserts a refusal that comes before the table is touched.
fn assert_untouched(plan: &Plan, places: usize, number: u8) {
    let (answer, table) = drawn_up(plan, places);
    assert_eq!(answer, number);
    assert!(table == vec![MARK; places]);
}

/// Asserts that the releases differ.
fn assert_parted(plan: &Plan) {
    assert_leaves(plan, RELEASES_DIFFER, &[0; 2_016]);
    assert_eq!(shortage(plan), Shortage::Refused(RELEASES_DIFFER));
}

/// Asserts that there is no timetable, and the pair: times, what is asked, what the link carries.
fn assert_short(plan: &Plan, essential: u32, other: u32, asked: u64, carries: u64) {
    assert_leaves(plan, NO_TIMETABLE, &[0; 2_016]);
    let pair = Pair {
        essential,
        other,
        asked,
        carries,
    };
    assert_eq!(shortage(plan), Shortage::At(pair));
}

/// The plan with other rates.
fn at_rates(n: u16, d: u16, plan: Plan) -> Plan {
    Plan { n, d, ..plan }
}

/// The plan with all jobs so many slots later.
fn later(mut plan: Plan, slots: u32) -> Plan {
    for job in &mut plan.jobs[..plan.count as usize] {
        job.release += slots;
        job.deadline += slots;
    }
    plan
}

/// The jobs of P5 with one of another size.
fn p5_with_size(position: usize, size: u64) -> Plan {
    let mut plan = p5_plan();
    plan.jobs[position].size = size;
    plan
}

/// A legal name for each of the most jobs.
fn name(position: u32) -> [u8; 8] {
    [b'A' + position as u8; 8]
}

/// What a job gets in the intervals of P5 if it is sent at full speed in these slots.
fn sent_in(spans: &[(u32, u32)]) -> Vec<u32> {
    let intervals = [(0, 4), (4, 10), (10, 12), (12, 16)];
    let slots = |interval: (u32, u32)| -> u32 {
        let shared = |span: &(u32, u32)| {
            interval
                .1
                .min(span.1)
                .saturating_sub(interval.0.max(span.0))
        };
        spans.iter().map(shared).sum()
    };
    intervals.map(|interval| 2 * slots(interval)).to_vec()
}

#[test]
fn jobs_of_p5_give_its_rows() {
    assert_leaves(&p5_plan(), DONE, &p5_table());
    assert_rows(
        &p5_plan(),
        &[&[2, 6, 0, 0], &[0, 0, 0, 4], &[6, 0, 0, 0], &[0, 6, 4, 0]],
    );
}

#[test]
fn jobs_of_p5_are_sent_when_example_2_sends_them() {
    let rows = [
        sent_in(&[(0, 1), (4, 7)]),
        sent_in(&[(12, 14)]),
        sent_in(&[(1, 4)]),
        sent_in(&[(7, 12)]),
    ];
    let rows: Vec<&[u32]> = rows.iter().map(Vec::as_slice).collect();
    assert_rows(&p5_plan(), &rows);
}

#[test]
fn rows_grow_with_rates_and_sizes() {
    for times in [2, 7, 500] {
        let mut plan = at_rates(2 * times, times, p5_plan());
        for job in &mut plan.jobs[..4] {
            job.size *= u64::from(times);
        }
        let table: Vec<u32> = p5_table()
            .iter()
            .map(|units| units * u32::from(times))
            .collect();
        assert_leaves(&plan, DONE, &table);
    }
}

#[test]
fn rows_do_not_depend_on_the_release() {
    for slots in [1, 50, 99_984] {
        assert_leaves(&later(p5_plan(), slots), DONE, &p5_table());
    }
}

#[test]
fn rows_follow_the_jobs_into_any_order() {
    let (jobs, rows) = (p5_plan().jobs, p5_table());
    for order in 0..256 {
        // Each number spells four positions; those that differ are an order.
        let positions = [order % 4, order / 4 % 4, order / 16 % 4, order / 64];
        if (0..4).all(|i| positions.contains(&i)) {
            let plan = plan_of(&positions.map(|i| jobs[i]));
            let expected = positions.map(|i| &rows[63 * i..63 * i + 4]);
            assert_rows(&plan, &expected);
        }
    }
}

#[test]
fn latest_deadline_among_lo_jobs_comes_first() {
    // Boundaries 0, 1, 2, 3. The middle job finds one unit of the slot before its deadline taken.
    let plan = plan_of(&[
        lo(b"middle--", 0, 2, 2),
        lo(b"latest--", 0, 3, 3),
        hi(b"earliest", 0, 1, 1),
    ]);
    assert_rows(&plan, &[&[1, 1, 0], &[0, 1, 2], &[1, 0, 0]]);
}

#[test]
fn lo_job_goes_back_over_full_intervals() {
    // Boundaries 0, 1, 3, 4, 5; the slots from 1 to 4 are full before the second job has its turn.
    let plan = plan_of(&[
        lo(b"latest--", 0, 6, 4),
        lo(b"before--", 0, 1, 3),
        hi(b"earliest", 0, 1, 1),
        hi(b"last-hi-", 0, 1, 5),
    ]);
    assert_rows(&plan, &[&[0, 4, 2, 0], &[1], &[1], &[0, 0, 0, 1]]);
}

#[test]
fn lo_job_never_goes_past_its_deadline() {
    let plan = plan_of(&[lo(b"early-lo", 0, 2, 1), hi(b"later-hi", 0, 2, 9)]);
    assert_rows(&plan, &[&[2, 0], &[0, 2]]);
}

#[test]
fn equal_deadlines_among_lo_jobs_go_by_the_later_position() {
    let early = hi(b"early-hi", 0, 1, 1);
    let two = [lo(b"lo-no--1", 0, 3, 2), lo(b"lo-no--2", 0, 2, 2)];
    let plan = at_rates(3, 1, plan_of(&[two[0], two[1], early]));
    assert_rows(&plan, &[&[2, 1], &[0, 2], &[1, 0]]);
    let plan = at_rates(3, 1, plan_of(&[two[1], early, two[0]]));
    assert_rows(&plan, &[&[2, 0], &[1, 0], &[0, 3]]);
}

#[test]
fn three_equal_deadlines_among_lo_jobs_go_from_the_last_position_to_the_first() {
    // Boundaries 0, 1, 2, 3, 4.
    let plan = plan_of(&[
        lo(b"lo-no--1", 0, 3, 3),
        lo(b"lo-no--2", 0, 2, 3),
        lo(b"early-lo", 0, 1, 1),
        lo(b"lo-no--3", 0, 2, 3),
        lo(b"secondlo", 0, 1, 2),
        hi(b"last-hi-", 0, 1, 4),
    ]);
    assert_rows(
        &at_rates(3, 1, plan),
        &[
            &[1, 2, 0],
            &[0, 1, 1],
            &[1],
            &[0, 0, 2],
            &[1],
            &[0, 0, 0, 1],
        ],
    );
}

#[test]
fn equal_deadlines_among_hi_jobs_go_by_position() {
    let early = lo(b"early-lo", 0, 1, 1);
    let two = [hi(b"hi-no--1", 0, 2, 4), hi(b"hi-no--2", 0, 2, 4)];
    assert_rows(
        &plan_of(&[early, two[0], two[1]]),
        &[&[1, 0], &[1, 1], &[0, 2]],
    );
    assert_rows(
        &plan_of(&[two[1], early, two[0]]),
        &[&[1, 1], &[1, 0], &[0, 2]],
    );
}

#[test]
fn earliest_deadline_among_hi_jobs_comes_first_wherever_it_stands() {
    let plan = plan_of(&[
        hi(b"later-hi", 0, 2, 4),
        lo(b"early-lo", 0, 1, 1),
        hi(b"early-hi", 0, 1, 1),
    ]);
    assert_rows(&plan, &[&[0, 2], &[1, 0], &[1, 0]]);
}

#[test]
fn hi_job_takes_the_earliest_room_on_both_sides_of_a_lo_job() {
    // Boundaries 0, 2, 4, 8; the slots from 2 to 4 are full.
    let plan = plan_of(&[
        lo(b"first-lo", 0, 1, 2),
        hi(b"only--hi", 0, 5, 8),
        lo(b"secondlo", 0, 4, 4),
    ]);
    assert_rows(&plan, &[&[1, 0, 0], &[3, 0, 2], &[0, 4, 0]]);
}

#[test]
fn hi_job_is_sent_early_even_if_it_has_time() {
    let plan = plan_of(&[hi(b"only--hi", 0, 3, 9), lo(b"only--lo", 0, 3, 7)]);
    assert_rows(&plan, &[&[3, 0], &[3, 0]]);
}

#[test]
fn one_lo_job_has_the_normal_rate_and_not_a_unit_more() {
    assert_rows(&plan_of(&[lo(b"only-job", 3, 14, 10)]), &[&[14]]);
    assert_rows(&plan_of(&[lo(b"only-job", 3, 1, 4)]), &[&[1]]);
    assert_short(&plan_of(&[lo(b"only-job", 3, 15, 10)]), 3, 10, 15, 14);
}

#[test]
fn one_hi_job_has_the_floor_and_not_a_unit_more() {
    assert_rows(&plan_of(&[hi(b"only-job", 3, 7, 10)]), &[&[7]]);
    assert_rows(&plan_of(&[hi(b"only-job", 3, 1, 4)]), &[&[1]]);
    assert_short(&plan_of(&[hi(b"only-job", 3, 8, 10)]), 10, 3, 8, 7);
}

#[test]
fn largest_numbers_are_drawn_up() {
    let largest = plan_of(&[lo(b"only-job", 0, 100_000_000, 100_000)]);
    assert_rows(&at_rates(1_000, 1, largest.clone()), &[&[100_000_000]]);
    assert_short(
        &at_rates(999, 1, largest),
        0,
        100_000,
        100_000_000,
        99_900_000,
    );
    let largest = plan_of(&[hi(b"only-job", 0, 99_900_000, 100_000)]);
    assert_rows(&at_rates(1_000, 999, largest.clone()), &[&[99_900_000]]);
    assert_short(
        &at_rates(1_000, 998, largest),
        100_000,
        0,
        99_900_000,
        99_800_000,
    );
}

#[test]
fn largest_sizes_of_the_most_jobs_are_summed_in_full() {
    let others: Vec<Job> = (0..32)
        .map(|i| lo(&name(i), 0, 100_000_000, 100_000))
        .collect();
    let plan = at_rates(1_000, 999, plan_of(&others));
    assert_short(&plan, 0, 100_000, 3_200_000_000, 100_000_000);
    let essential: Vec<Job> = (0..32)
        .map(|i| hi(&name(i), 0, 100_000_000, 100_000))
        .collect();
    let plan = at_rates(1_000, 999, plan_of(&essential));
    assert_short(&plan, 100_000, 0, 3_200_000_000, 99_900_000);
}

#[test]
fn most_lo_jobs_stand_each_in_the_slot_before_its_deadline() {
    let jobs: Vec<Job> = (0..32).map(|i| lo(&name(i), 5, 2, 6 + i)).collect();
    let rows: Vec<Vec<u32>> = (0..32).map(|i| [vec![0; i], vec![2]].concat()).collect();
    let rows: Vec<&[u32]> = rows.iter().map(Vec::as_slice).collect();
    assert_rows(&plan_of(&jobs), &rows);
}

#[test]
fn most_hi_jobs_stand_two_to_a_slot_from_the_release_on() {
    // The last position is due first.
    let jobs: Vec<Job> = (0..32).map(|i| hi(&name(i), 5, 1, 37 - i)).collect();
    let rows: Vec<Vec<u32>> = (0..32)
        .map(|i| [vec![0; (31 - i) / 2], vec![1]].concat())
        .collect();
    let rows: Vec<&[u32]> = rows.iter().map(Vec::as_slice).collect();
    assert_rows(&plan_of(&jobs), &rows);
}

#[test]
fn most_jobs_of_one_deadline_share_one_interval() {
    let jobs: Vec<Job> = (0..32)
        .map(|i| Job {
            grade: (i % 2) as u8,
            ..lo(&name(i), 9, 1, 25)
        })
        .collect();
    assert_rows(&plan_of(&jobs), &[&[1][..]; 32]);
}

#[test]
fn short_table_is_22_before_all_else_and_stays() {
    for places in [0, 1, 63, 4 * 63, 2_015] {
        assert_untouched(&p5_plan(), places, TOO_SHORT);
        assert_untouched(&e_plan(), places, TOO_SHORT);
        assert_untouched(&p5_with_size(0, 9), places, TOO_SHORT);
        assert_untouched(&Plan::zeros(), places, TOO_SHORT);
        for (_, plan) in broken_plans() {
            assert_untouched(&plan, places, TOO_SHORT);
        }
    }
}

#[test]
fn each_broken_rule_is_21_and_the_table_stays() {
    for (rule, parted) in broken_plans() {
        let mut plan = parted.clone();
        plan.jobs[1].release = 0;
        for plan in [parted, plan] {
            for spare in SPARE {
                assert_untouched(&plan, 2_016 + spare, UNSOUND);
            }
            assert_eq!(shortage(&plan), Shortage::Refused(UNSOUND), "rule {}", rule);
        }
    }
    assert_untouched(&Plan::zeros(), 2_016, UNSOUND);
}

#[test]
fn broken_rule_comes_before_the_want_of_a_timetable() {
    let mut plan = p5_with_size(0, 100_000_000);
    plan.jobs[3].name = plan.jobs[2].name;
    assert_untouched(&plan, 2_040, UNSOUND);
    assert_untouched(&p5_with_size(0, 100_000_001), 2_040, UNSOUND);
}

#[test]
fn one_other_release_anywhere_is_28_and_leaves_zeros() {
    assert_parted(&e_plan());
    for position in 0..4 {
        let mut plan = later(p5_plan(), 1);
        plan.jobs[position].release = 0;
        assert_parted(&plan);
        plan.jobs[position].release = 2;
        assert_parted(&plan);
    }
}

#[test]
fn other_release_of_the_last_of_the_most_jobs_is_28() {
    let mut jobs: Vec<Job> = (0..32).map(|i| lo(&name(i), 5, 1, 40)).collect();
    jobs[31].release = 6;
    assert_parted(&plan_of(&jobs));
}

#[test]
fn other_release_comes_before_the_want_of_a_timetable() {
    let mut plan = p5_with_size(0, 9);
    plan.jobs[3].release = 1;
    assert_parted(&plan);
}

#[test]
fn records_from_the_count_on_are_not_looked_at() {
    let mut plan = p5_plan();
    plan.jobs[4] = Job {
        grade: 9,
        release: 1,
        size: 100_000_001,
        ..plan.jobs[0]
    };
    plan.jobs[5] = hi(b"too-much", 0, 1_000, 1);
    plan.jobs[31] = lo(b"boundary", 0, 1, 7);
    assert_leaves(&plan, DONE, &p5_table());
    plan.jobs[0].size = 9;
    assert_short(&plan, 10, 4, 15, 14);
    plan.count = 2;
    assert_rows(&plan, &[&[9, 0], &[4, 0]]);
}

#[test]
fn one_unit_more_than_the_floor_leaves_room_for_is_29() {
    assert_short(&p5_with_size(0, 9), 10, 4, 15, 14);
    assert_short(&p5_with_size(2, 7), 10, 4, 15, 14);
    assert_short(&later(p5_with_size(0, 9), 50), 60, 54, 15, 14);
    assert_short(&p5_with_size(1, 5), 16, 12, 29, 28);
}

#[test]
fn one_unit_more_than_the_normal_rate_carries_is_29() {
    assert_short(&p5_with_size(3, 11), 10, 12, 25, 24);
    assert_short(&later(p5_with_size(3, 11), 99_984), 99_994, 99_996, 25, 24);
}

#[test]
fn neither_rate_alone_need_fall_short() {
    // All jobs fit at the normal rate, and the HI job at the floor; at time 1 too little of it is sent.
    let plan = plan_of(&[lo(b"early-lo", 0, 2, 1), hi(b"later-hi", 0, 4, 4)]);
    assert_short(&plan, 4, 1, 6, 5);
    let plan = plan_of(&[lo(b"early-lo", 0, 1, 1), hi(b"later-hi", 0, 4, 4)]);
    assert_rows(&plan, &[&[1, 0], &[1, 3]]);
}

#[test]
fn first_pair_is_that_of_the_lower_essential_time() {
    let heavy = hi(b"heavy-hi", 0, 9, 4);
    let plan = plan_of(&[heavy, hi(b"early-hi", 0, 3, 2)]);
    assert_short(&plan, 2, 0, 3, 2);
    // The release is the lowest of all.
    let plan = plan_of(&[heavy, lo(b"heavy-lo", 0, 20, 8)]);
    assert_short(&plan, 0, 8, 20, 16);
    // A late other time with the early essential one comes before an early one with the late.
    let plan = plan_of(&[heavy, hi(b"early-hi", 0, 1, 1), lo(b"heavy-lo", 0, 16, 8)]);
    assert_short(&plan, 1, 8, 17, 16);
}

#[test]
fn first_pair_of_an_essential_time_is_that_of_the_lower_other_time() {
    let others = [lo(b"lo-no--1", 0, 2, 2), lo(b"lo-no--2", 0, 2, 1)];
    let plan = plan_of(&[hi(b"heavy-hi", 0, 9, 4), others[0], others[1]]);
    assert_short(&plan, 4, 0, 9, 4);
    let plan = plan_of(&[hi(b"light-hi", 0, 4, 4), others[0], others[1]]);
    assert_short(&plan, 4, 1, 6, 5);
}

#[test]
fn what_stood_in_the_table_does_not_matter() {
    for before in [0, 1, u32::MAX] {
        let mut table = vec![before; 2_017];
        assert_eq!(draw_up(&p5_plan(), &mut table), DONE);
        assert_eq!(table, [p5_table(), vec![before]].concat());
        // The same call again, now with a timetable in the table.
        assert_eq!(draw_up(&p5_plan(), &mut table), DONE);
        assert_eq!(table, [p5_table(), vec![before]].concat());
        assert_eq!(draw_up(&p5_with_size(0, 9), &mut table), NO_TIMETABLE);
        assert_eq!(table, [vec![0; 2_016], vec![before]].concat());
    }
}
