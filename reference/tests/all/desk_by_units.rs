//! A second way to lay down jobs, one unit after the other, with no test beforehand whether they fit.

use crate::common::table;
use reference::edition::{HI, LO};
use reference::plan::{intervals, place_of, Interval, Job, Plan};

/// A plan half laid down.
struct Placing<'a> {
    jobs: &'a [Job],
    intervals: Vec<Interval>,
    /// What is left of each interval.
    rooms: Vec<u64>,
    /// What is left of each job.
    rests: Vec<u64>,
    table: Vec<u32>,
}

impl Placing<'_> {
    fn new(plan: &Plan) -> Placing<'_> {
        let intervals = intervals(plan.counted());
        let units = |interval: &Interval| u64::from(plan.n) * interval.length();
        Placing {
            jobs: plan.counted(),
            rooms: intervals.iter().map(units).collect(),
            rests: plan.counted().iter().map(|job| job.size).collect(),
            table: table(),
            intervals,
        }
    }

    /// The positions of a grade's jobs that are not laid down yet.
    fn open(&self, grade: u8) -> impl Iterator<Item = usize> + '_ {
        let open = move |&i: &usize| self.jobs[i].grade == grade && self.rests[i] > 0;
        (0..self.jobs.len()).filter(open)
    }

    /// The LO job whose turn it is.
    fn next_other(&self) -> Option<usize> {
        self.open(LO).max_by_key(|&i| (self.jobs[i].deadline, i))
    }

    /// The HI job whose turn it is.
    fn next_essential(&self) -> Option<usize> {
        self.open(HI).min_by_key(|&i| (self.jobs[i].deadline, i))
    }

    /// The latest interval with room before a deadline.
    fn latest(&self, deadline: u32) -> Option<usize> {
        let before = |&j: &usize| self.intervals[j].end <= deadline && self.rooms[j] > 0;
        (0..self.intervals.len()).rfind(before)
    }

    /// The earliest interval with room.
    fn earliest(&self) -> Option<usize> {
        self.rooms.iter().position(|&room| room > 0)
    }

    /// Puts a few units of a job into an interval, as many as are left and go there.
    fn put(&mut self, i: usize, j: usize, few: u64) {
        let units = few.min(self.rests[i]).min(self.rooms[j]);
        self.rests[i] -= units;
        self.rooms[j] -= units;
        self.table[place_of(i, j)] += units as u32;
    }
}

/// The table for jobs with one release, laid down a few units at a time, in the plainest case one.
/// None if some unit finds no room; a table may still be one that no judge accepts.
pub fn laid_down(plan: &Plan, few: u64) -> Option<Vec<u32>> {
    let mut placing = Placing::new(plan);
    while let Some(i) = placing.next_other() {
        let j = placing.latest(placing.jobs[i].deadline)?;
        placing.put(i, j, few);
    }
    while let Some(i) = placing.next_essential() {
        let j = placing.earliest()?;
        placing.put(i, j, few);
    }
    Some(placing.table)
}
