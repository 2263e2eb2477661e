//! Makes plans that the judge accepts: units are laid down only where every rule leaves room.

use super::draft::{Draft, Limits};
use super::prng::Prng;
use crate::edition::{HI, LO, MOST_DEADLINE, MOST_JOBS, MOST_RATE, NAME_BYTES};
use crate::plan::{place_of, Job};

/// Attempts after which the rates are drawn so high that every window has room.
const ATTEMPTS_AT_ANY_RATE: usize = 10;

/// What is left of each interval's units and of each floor sum.
pub struct Rooms {
    boundaries: Vec<u32>,
    intervals: Vec<u64>,
    /// By interval and by boundary; what the floor rule still allows for the pair.
    floors: Vec<Vec<u64>>,
}

impl Rooms {
    /// The rooms of a plan before anything is laid down.
    fn empty(draft: &Draft) -> Rooms {
        let boundaries = draft.boundaries();
        let (n, d) = (u64::from(draft.plan.n), u64::from(draft.plan.d));
        let intervals = draft.intervals();
        let floor = |t: u32| -> Vec<u64> {
            boundaries
                .iter()
                .map(|&end| d * u64::from(end.saturating_sub(t)))
                .collect()
        };
        Rooms {
            floors: intervals
                .iter()
                .map(|interval| floor(interval.start))
                .collect(),
            intervals: intervals
                .iter()
                .map(|interval| n * interval.length())
                .collect(),
            boundaries,
        }
    }

    /// The rooms that an accepted draft leaves.
    pub fn of(draft: &Draft) -> Rooms {
        let mut rooms = Rooms::empty(draft);
        for (i, job) in draft.plan.counted().iter().enumerate() {
            for j in 0..draft.intervals().len() {
                rooms.take(job, j, u64::from(draft.table[place_of(i, j)]));
            }
        }
        rooms
    }

    pub fn of_interval(&self, interval: usize) -> u64 {
        self.intervals[interval]
    }

    /// The least room among the floor sums that an allotment would enter.
    pub fn of_floor(&self, job: &Job, interval: usize) -> u64 {
        let mut least = u64::MAX;
        for floor in &self.floors[..=interval] {
            for (x, &boundary) in self.boundaries.iter().enumerate() {
                if boundary >= job.deadline {
                    least = least.min(floor[x]);
                }
            }
        }
        least
    }

    /// The most units that a job can still get in an interval.
    fn most(&self, job: &Job, interval: usize) -> u64 {
        let room = self.intervals[interval];
        if job.grade == HI {
            room.min(self.of_floor(job, interval))
        } else {
            room
        }
    }

    fn take(&mut self, job: &Job, interval: usize, units: u64) {
        self.intervals[interval] -= units;
        if job.grade == HI {
            for floor in &mut self.floors[..=interval] {
                for (x, &boundary) in self.boundaries.iter().enumerate() {
                    if boundary >= job.deadline {
                        floor[x] -= units;
                    }
                }
            }
        }
    }
}

/// An accepted plan of any shape within limits; small ones are the most frequent.
pub fn accepted(prng: &mut Prng, limits: &Limits) -> Draft {
    let jobs: usize = match prng.below(16) {
        0 => 1,
        1 => MOST_JOBS,
        2 => prng.between(9, MOST_JOBS as u64) as usize,
        3..=8 => prng.between(2, 4) as usize,
        _ => prng.between(3, 8) as usize,
    };
    let jobs = jobs.min(limits.jobs);
    let boundaries = match prng.below(4) {
        0 => 2 * jobs,
        _ => prng.between(2, 2 * jobs as u64) as usize,
    };
    accepted_of(prng, limits, jobs, boundaries)
}

/// An accepted plan of this many jobs, with this many boundaries or a few more.
pub fn accepted_of(prng: &mut Prng, limits: &Limits, jobs: usize, boundaries: usize) -> Draft {
    let mut attempts = 0;
    loop {
        let high = attempts >= ATTEMPTS_AT_ANY_RATE;
        let draft = empty_draft(prng, limits, jobs, boundaries, high);
        if let Some(draft) = lay_down(prng, draft) {
            return draft;
        }
        attempts += 1;
    }
}

/// Jobs with windows, grades and names; no units yet.
fn empty_draft(
    prng: &mut Prng,
    limits: &Limits,
    jobs: usize,
    boundaries: usize,
    high: bool,
) -> Draft {
    let (n, d) = rates(prng, high);
    let windows = windows(prng, jobs, boundaries);
    let last = windows.iter().map(|window| window.1).max().unwrap_or(0);
    let times = times(prng, limits, last + 1);
    let grades = grades(prng, jobs);
    let names = names(prng, jobs);
    let records: Vec<Job> = (0..jobs)
        .map(|i| Job {
            name: names[i],
            grade: grades[i],
            release: times[windows[i].0],
            size: 0,
            deadline: times[windows[i].1],
        })
        .collect();
    Draft::new(n, d, &records)
}

/// Normal rate and floor. High ones leave room for one unit of every job in any slot.
pub fn rates(prng: &mut Prng, high: bool) -> (u16, u16) {
    let most = u64::from(MOST_RATE);
    let n = match prng.below(8) {
        _ if high => prng.between(most / 2, most),
        0 => 2,
        1 => most,
        2 => prng.between(2, most),
        _ => prng.between(2, 12),
    };
    let d = match prng.below(4) {
        _ if high => prng.between(most / 4, n - 1),
        0 => 1,
        1 => n - 1,
        _ => prng.between(1, n - 1),
    };
    (n as u16, d as u16)
}

/// Windows as pairs of boundary numbers; now and then with a gap that no job covers.
fn windows(prng: &mut Prng, jobs: usize, boundaries: usize) -> Vec<(usize, usize)> {
    if jobs < 2 || boundaries < 4 || !prng.once_in(6) {
        return joined_windows(prng, jobs, boundaries);
    }
    let early_jobs = jobs / 2;
    let early = (boundaries / 2).min(2 * early_jobs);
    let mut windows = joined_windows(prng, early_jobs, early);
    // The later part begins one boundary after the earlier part ended.
    for window in joined_windows(prng, jobs - early_jobs, boundaries - boundaries / 2) {
        windows.push((window.0 + early, window.1 + early));
    }
    prng.shuffle(&mut windows);
    windows
}

/// Windows such that every boundary number is the end of one of them.
fn joined_windows(prng: &mut Prng, jobs: usize, boundaries: usize) -> Vec<(usize, usize)> {
    let mut ends: Vec<usize> = (0..boundaries).collect();
    prng.shuffle(&mut ends);
    if boundaries % 2 == 1 {
        ends.push(ends[0]);
    }
    while ends.len() < 2 * jobs {
        let end = prng.index(boundaries);
        let other = (end + 1 + prng.index(boundaries - 1)) % boundaries;
        ends.push(end);
        ends.push(other);
    }
    let pairs = ends.chunks_exact(2);
    let mut windows: Vec<(usize, usize)> = pairs
        .map(|pair| (pair[0].min(pair[1]), pair[0].max(pair[1])))
        .collect();
    prng.shuffle(&mut windows);
    windows
}

/// So many rising times, the last of them now and then the latest allowed.
pub fn times(prng: &mut Prng, limits: &Limits, count: usize) -> Vec<u32> {
    let longest: u64 = match prng.below(12) {
        0 => 1_500,
        1 | 2 => 12,
        3 | 4 => 1,
        _ => 3,
    };
    let longest = longest.min(u64::from(limits.slots) / (count as u64 - 1));
    let mut times = vec![0];
    for earlier in 0..count - 1 {
        times.push(times[earlier] + prng.between(1, longest) as u32);
    }
    let latest_start = MOST_DEADLINE - times[count - 1];
    let start = match prng.below(8) {
        0 => latest_start,
        1 => prng.between(0, u64::from(latest_start)) as u32,
        2 => prng.between(1, 5) as u32,
        _ => 0,
    };
    times
        .iter()
        .map(|time| start.min(latest_start) + time)
        .collect()
}

pub fn grades(prng: &mut Prng, jobs: usize) -> Vec<u8> {
    match prng.below(8) {
        0 => vec![LO; jobs],
        1 => vec![HI; jobs],
        _ => (0..jobs).map(|_| prng.pick(&[LO, HI])).collect(),
    }
}

/// Distinct names; most styles make them differ in as little as they can.
pub fn names(prng: &mut Prng, jobs: usize) -> Vec<[u8; NAME_BYTES]> {
    let style = prng.below(4);
    let start = prng.between(0x21, 0x7E - MOST_JOBS as u64) as u8;
    (0..jobs)
        .map(|i| match style {
            0 => name_by_case(i),
            1 => [b'=', b'-', b'=', b'!', b'~', b'-', b'-', start + i as u8],
            2 => [start + i as u8, b'~', b'~', b'~', b'!', b'!', b'!', b'!'],
            _ => random_name(prng, start + i as u8),
        })
        .collect()
}

/// The same letters for every position; their cases spell the position.
fn name_by_case(position: usize) -> [u8; NAME_BYTES] {
    let mut name = *b"Mirror-A";
    for (bit, byte) in name.iter_mut().take(5).enumerate() {
        if position >> bit & 1 == 1 {
            *byte ^= 0x20;
        }
    }
    name
}

/// A name that holds the given byte in the middle and anything allowed around it.
fn random_name(prng: &mut Prng, own: u8) -> [u8; NAME_BYTES] {
    let mut name = [own; NAME_BYTES];
    for place in [0, 1, 2, 4, 5, 6, 7] {
        name[place] = prng.between(0x21, 0x7E) as u8;
    }
    name
}

/// One unit for every job, then more here and there; none if a job finds no room.
fn lay_down(prng: &mut Prng, mut draft: Draft) -> Option<Draft> {
    let mut rooms = Rooms::empty(&draft);
    let mut order: Vec<usize> = (0..draft.jobs()).collect();
    prng.shuffle(&mut order);
    for &i in &order {
        let free = covered(&draft, i).into_iter();
        let free: Vec<usize> = free
            .filter(|&j| rooms.most(&draft.plan.jobs[i], j) > 0)
            .collect();
        if free.is_empty() {
            return None;
        }
        let j = prng.pick(&free);
        add(&mut draft, &mut rooms, i, j, 1);
    }
    let extra = prng.below(2 * draft.jobs() as u64 + 2);
    for _ in 0..extra {
        lay_down_more(prng, &mut draft, &mut rooms);
    }
    Some(draft)
}

/// Gives some job more, often all that the rules allow in the interval.
fn lay_down_more(prng: &mut Prng, draft: &mut Draft, rooms: &mut Rooms) {
    let i = prng.index(draft.jobs());
    let j = prng.pick(&covered(draft, i));
    let most = rooms.most(&draft.plan.jobs[i], j);
    if most > 0 {
        let units = if prng.once_in(3) {
            most
        } else {
            prng.between(1, most)
        };
        add(draft, rooms, i, j, units);
    }
}

/// The intervals inside a job's window.
pub fn covered(draft: &Draft, position: usize) -> Vec<usize> {
    let intervals = draft.intervals();
    (0..intervals.len())
        .filter(|&j| draft.plan.jobs[position].covers(&intervals[j]))
        .collect()
}

fn add(draft: &mut Draft, rooms: &mut Rooms, position: usize, interval: usize, units: u64) {
    let job = draft.plan.jobs[position];
    rooms.take(&job, interval, units);
    draft.plan.jobs[position].size += units;
    draft.table[place_of(position, interval)] += units as u32;
}
