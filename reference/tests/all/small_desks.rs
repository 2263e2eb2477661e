//! The desk on all small instances, beside a search over all tables and a placing unit by unit.

use crate::common::{hi, lo, plan_of, table};
use crate::desk_by_units::laid_down;
use reference::desk::{draw_up, shortage, Shortage};
use reference::judge::judge;
use reference::plan::{intervals, place_of, Interval, Job, Plan};
use reference::refusal::{DONE, NO_TIMETABLE};

/// All rates with a normal rate of up to 3.
const RATES: [(u16, u16); 3] = [(2, 1), (3, 1), (3, 2)];
/// The release of all jobs.
const RELEASE: u32 = 7;
const NAMES: [&[u8; 8]; 4] = [b"first--0", b"second-1", b"third--2", b"fourth-3"];

/// All jobs of up to so many slots and up to one unit more than the link carries by their deadline.
fn small_jobs(n: u16, most_slots: u32) -> Vec<Job> {
    let mut jobs = Vec::new();
    for slots in 1..=most_slots {
        let deadline = RELEASE + slots;
        for size in 1..=u64::from(n) * u64::from(slots) + 1 {
            jobs.push(hi(NAMES[0], RELEASE, size, deadline));
            jobs.push(lo(NAMES[0], RELEASE, size, deadline));
        }
    }
    jobs
}

/// All plans of so many small jobs: in every order, or each choice of jobs in one order alone.
struct Plans {
    n: u16,
    d: u16,
    jobs: Vec<Job>,
    count: usize,
    every_order: bool,
}

impl Plans {
    /// Goes on with each plan that begins with the chosen jobs and takes no other before `first`.
    fn each(&self, chosen: &mut Vec<Job>, first: usize, call: &mut dyn FnMut(&Plan)) {
        if chosen.len() == self.count {
            return call(&Plan {
                n: self.n,
                d: self.d,
                ..plan_of(chosen)
            });
        }
        for k in first..self.jobs.len() {
            chosen.push(Job {
                name: *NAMES[chosen.len()],
                ..self.jobs[k]
            });
            self.each(chosen, if self.every_order { 0 } else { k }, call);
            chosen.pop();
        }
    }
}

/// Calls with each plan of so many small jobs of up to so many slots.
fn for_each_plan(count: usize, slots: u32, every_order: bool, call: &mut dyn FnMut(&Plan)) {
    for (n, d) in RATES {
        let plans = Plans {
            n,
            d,
            jobs: small_jobs(n, slots),
            count,
            every_order,
        };
        plans.each(&mut Vec::new(), 0, call);
    }
}

/// A search over tables, some places of which are decided.
struct Search<'a> {
    plan: &'a Plan,
    intervals: Vec<Interval>,
    rooms: Vec<u64>,
    table: Vec<u32>,
}

/// Whether the judge accepts any table. Left out are only tables with units outside a window, with
/// more or fewer units than a size, or with an interval above the rate: none of these is accepted.
fn some_table_is_accepted(plan: &Plan) -> bool {
    let intervals = intervals(plan.counted());
    let units = |interval: &Interval| u64::from(plan.n) * interval.length();
    let mut search = Search {
        plan,
        rooms: intervals.iter().map(units).collect(),
        intervals,
        table: table(),
    };
    search.try_job(0)
}

impl Search<'_> {
    /// Tries all that is left for the jobs from this position on.
    fn try_job(&mut self, i: usize) -> bool {
        match self.plan.counted().get(i) {
            Some(job) => self.try_place(i, 0, job.size),
            None => judge(self.plan, &self.table).is_ok(),
        }
    }

    /// Tries all that is left for a job from an interval on, and then the jobs after it.
    fn try_place(&mut self, i: usize, j: usize, rest: u64) -> bool {
        if j == self.intervals.len() {
            return rest == 0 && self.try_job(i + 1);
        }
        let most = if self.plan.jobs[i].covers(&self.intervals[j]) {
            rest.min(self.rooms[j])
        } else {
            0
        };
        (0..=most).any(|units| {
            self.table[place_of(i, j)] = units as u32;
            self.rooms[j] -= units;
            let found = self.try_place(i, j + 1, rest - units);
            self.rooms[j] += units;
            self.table[place_of(i, j)] = 0;
            found
        })
    }
}

/// Asserts that the desk answers what the search finds; whether there is a table.
fn assert_as_searched(plan: &Plan) -> bool {
    let mut table = table();
    let number = draw_up(plan, &mut table);
    let found = some_table_is_accepted(plan);
    if found {
        assert_eq!(number, DONE, "{:?}", plan);
        assert_eq!(judge(plan, &table), Ok(()), "{:?}", plan);
        assert_eq!(shortage(plan), Shortage::TimetableExists);
    } else {
        assert_eq!(number, NO_TIMETABLE, "{:?}", plan);
        assert!(matches!(shortage(plan), Shortage::At(_)), "{:?}", plan);
    }
    found
}

/// Asserts it for all plans of so many jobs of up to so many slots, and that both answers are frequent.
fn assert_all_as_searched(count: usize, slots: u32, least: u64) {
    let mut answers = [0, 0];
    for_each_plan(count, slots, false, &mut |plan| {
        answers[usize::from(assert_as_searched(plan))] += 1;
    });
    assert!(answers.iter().all(|&times| times >= least), "{:?}", answers);
}

#[test]
fn desk_refuses_one_or_two_jobs_exactly_when_no_table_is_accepted() {
    assert_all_as_searched(1, 4, 10);
    assert_all_as_searched(2, 4, 1_000);
}

#[test]
fn desk_refuses_three_jobs_exactly_when_no_table_is_accepted() {
    assert_all_as_searched(3, 4, 10_000);
}

#[test]
fn desk_refuses_four_jobs_exactly_when_no_table_is_accepted() {
    assert_all_as_searched(4, 3, 5_000);
}

#[test]
fn placing_unit_by_unit_gives_the_same_table_or_none_that_is_accepted() {
    let mut drawn_up = 0;
    for count in 1..=3 {
        for_each_plan(count, 4, true, &mut |plan| {
            let mut table = table();
            let number = draw_up(plan, &mut table);
            let accepted = laid_down(plan, 1).filter(|table| judge(plan, table).is_ok());
            assert_eq!((number == DONE).then_some(table), accepted, "{:?}", plan);
            drawn_up += u64::from(number == DONE);
        });
    }
    assert!(drawn_up > 50_000, "{}", drawn_up);
}
