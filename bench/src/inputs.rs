//! Fixed inputs for measuring: plans by formula, runs at their busiest slot, slots, nights and desks of
//! all kinds, and meter logs.
//!
//! Ends of windows do not come in order, so that no sort finds its work done.

use crate::plan::{Job, Plan, Run, HI, LO, MOST_INTERVALS, MOST_JOBS, MOST_SPEEDS, PLACES};
use crate::{draw_up, step, write, Reading};

/// Bytes of the largest file.
pub const LARGEST_FILE: usize = 30_956;

/// The rates of all plans.
const NORMAL: u16 = 1_000;
const FLOOR: u16 = 600;

/// What a plan looks like.
#[derive(Clone, Copy, PartialEq, Eq)]
pub enum Shape {
    /// Two windows share each end, and each job has four rows if its window has four intervals.
    Usual,
    /// No two ends coincide, and each interval of each window has a row: no accepted plan has more.
    Fullest,
    /// As the fullest, but with a row for every place, which only reader and writer take.
    LargestFile,
}

/// A plan with its table, its file, and a run in which all jobs are live.
pub struct Input {
    pub plan: Plan,
    pub table: Vec<u32>,
    pub file: Vec<u8>,
    pub run: Run,
    pub intervals: usize,
    pub rows: usize,
}

impl Input {
    /// The input of so many jobs: a power of two, at most 32.
    pub fn new(jobs: usize, shape: Shape) -> Input {
        let releases = match shape {
            Shape::Usual => jobs / 2 + jobs % 2,
            _ => jobs,
        };
        let intervals = 2 * releases - 1;
        let mut plan = Plan {
            n: NORMAL,
            d: FLOOR,
            count: jobs,
            ..Plan::default()
        };
        let mut table = vec![0; PLACES];
        for i in 0..jobs {
            let window = window(i, jobs, releases);
            let row = &mut table[MOST_INTERVALS * i..][..intervals];
            lay_down(row, i, window, shape);
            plan.jobs[i] = job(i, window, row);
        }
        Input::of(plan, table, intervals, time(releases - 1))
    }

    /// With the run up to a clock.
    fn of(plan: Plan, table: Vec<u32>, intervals: usize, clock: u32) -> Input {
        Input {
            file: file_of(&plan, &table),
            run: run_of(&plan, &table, clock),
            intervals,
            rows: table.iter().filter(|&&units| units != 0).count(),
            plan,
            table,
        }
    }
}

/// All that a slot's call gets.
pub struct Slot {
    pub name: &'static str,
    pub plan: Plan,
    pub table: Vec<u32>,
    pub run: Run,
    pub speed: u16,
}

impl Input {
    /// The slots that a step is measured in: with one change each, and some with two.
    pub fn slots(&self) -> Vec<Slot> {
        let jobs = self.plan.count;
        let (_, last) = ends_of(&self.plan);
        let at_fault = |i: usize| move |slot: &mut Slot| slot.plan.jobs[i].size = 0;
        let crowded = |slot: &mut Slot| enlarge(&mut slot.plan, &mut slot.table, CROWDED);
        let slow = |slot: &mut Slot| {
            slot.run.slow = true;
            slot.speed /= 2;
        };
        let due = self.granted();
        vec![
            // What is due fits the speed.
            self.slot("quiet", |_| ()),
            self.slot("just-over", |slot| {
                enlarge(&mut slot.plan, &mut slot.table, 3)
            }),
            // The first few jobs use the speed up.
            self.slot("crowded", crowded),
            // What is due fits a speed below the normal rate, and uses it up.
            self.slot("idle", |slot| slot.speed = due),
            self.slot("sets-the-mark", |slot| slot.speed = due - 1),
            // The slow mark is set before.
            self.slot("slow", slow),
            self.slot("slow-and-crowded", |slot| (crowded(slot), slow(slot)).1),
            self.slot("standing", |slot| slot.speed = 0),
            self.slot("late", |slot| slot.run.clock = last - 1),
            self.slot("refused-by-19", |slot| slot.run.clock = last),
            self.slot("refused-by-20", |slot| slot.speed += 1),
            self.slot("refused-by-22", |slot| slot.table.truncate(PLACES - 1)),
            self.slot("refused-by-21-at-the-last-job", at_fault(jobs - 1)),
            self.slot("refused-by-21-at-the-first-job", at_fault(0)),
            self.slot("refused-by-21-for-no-job", |slot| slot.plan.count = 0),
        ]
    }

    /// What a slot at normal speed grants.
    fn granted(&self) -> u16 {
        let mut grants = [0; MOST_JOBS];
        let mut run = self.run;
        step(&self.plan, &self.table, &mut run, self.plan.n, &mut grants).expect("a slot");
        grants.iter().sum::<u32>() as u16
    }

    fn slot(&self, name: &'static str, change: impl Fn(&mut Slot)) -> Slot {
        let mut slot = Slot {
            name,
            plan: self.plan,
            table: self.table.clone(),
            run: self.run,
            speed: self.plan.n,
        };
        change(&mut slot);
        slot
    }
}

/// All that a shift's call gets.
pub struct Night {
    pub name: &'static str,
    pub plan: Plan,
    pub table: Vec<u32>,
    pub run: Run,
    pub speeds: [u16; MOST_SPEEDS],
}

/// The slots of a night before its speeds change, or before its plan ends.
const HALF: usize = MOST_SPEEDS / 2;

impl Input {
    /// The nights that a shift is measured in. The plan is made so many times as long that each
    /// speed has a slot; the slots are those in its middle, unless its end is meant.
    pub fn nights(&self) -> Vec<Night> {
        let (first, last) = ends_of(&self.plan);
        let times = (MOST_SPEEDS as u32 - 1) / (last - first) + 1;
        let middle = (times * (first + last) - MOST_SPEEDS as u32) / 2;
        let near_end = times * last - HALF as u32;
        let n = self.plan.n;
        let normal = [n; MOST_SPEEDS];
        let below = [n - 1; MOST_SPEEDS];
        let too_fast = [n + 1; MOST_SPEEDS];
        // In longer intervals more is due, so that the link is as crowded.
        let crowded = CROWDED * times;
        vec![
            self.night("normal", times, 1, middle, normal),
            self.night("idle", times, 1, middle, below),
            self.night("slow-half-way", times, 1, middle, normal)
                .slow_half_way(),
            self.night("crowded", times, crowded, middle, normal),
            self.night("past-the-last-deadline", times, 1, near_end, normal),
            self.night("refused-by-20", times, 1, middle, too_fast),
        ]
    }

    /// A night from a clock on, with so many times as many slots and units.
    fn night(
        &self,
        name: &'static str,
        slots: u32,
        units: u32,
        clock: u32,
        speeds: [u16; MOST_SPEEDS],
    ) -> Night {
        let (mut plan, mut table) = (self.plan, self.table.clone());
        for job in &mut plan.jobs[..self.plan.count] {
            job.release *= slots;
            job.deadline *= slots;
        }
        enlarge(&mut plan, &mut table, units);
        Night {
            name,
            run: run_of(&plan, &table, clock),
            plan,
            table,
            speeds,
        }
    }
}

impl Night {
    /// With half of the speed in its second half. In the first slot there in which something is due
    /// the link stands, so that it is a slow one.
    fn slow_half_way(mut self) -> Night {
        let (mut run, mut is_slow) = (self.run, false);
        for (slot, speed) in self.speeds.iter_mut().enumerate() {
            let mut grants = [0; MOST_JOBS];
            step(&self.plan, &self.table, &mut run, *speed, &mut grants).expect("a slot");
            if slot >= HALF {
                let sets_it = !is_slow && grants.iter().any(|&units| units != 0);
                *speed = if sets_it { 0 } else { *speed / 2 };
                is_slow |= sets_it;
            }
        }
        self
    }
}

/// All that the desk's call gets beside a table.
pub struct Desk {
    pub name: &'static str,
    pub plan: Plan,
}

impl Input {
    /// The input of so many jobs with one release: a power of two, at most 32. Its table is the
    /// timetable that the desk draws up.
    pub fn for_desk(jobs: usize) -> Input {
        let mut plan = Plan {
            n: NORMAL,
            d: FLOOR,
            count: jobs,
            ..Plan::default()
        };
        for i in 0..jobs {
            plan.jobs[i] = desk_job(i, 1 + scattered(i, jobs));
        }
        let mut table = vec![0; PLACES];
        draw_up(&plan, &mut table).expect("a timetable");
        // No two deadlines coincide.
        Input::of(plan, table, jobs, RELEASE)
    }

    /// The desks that are measured. One job alone has no other release beside its own.
    pub fn desks(&self) -> Vec<Desk> {
        let jobs = self.plan.count;
        let mut desks = vec![
            self.desk("filled", |_| ()),
            self.desk("refused-by-29", |plan| overload(&mut plan.jobs[..jobs])),
        ];
        if jobs > 1 {
            desks.push(self.desk("refused-by-28", |plan| plan.jobs[jobs - 1].release -= 1));
        }
        desks
    }

    fn desk(&self, name: &'static str, change: impl Fn(&mut Plan)) -> Desk {
        let mut plan = self.plan;
        change(&mut plan);
        Desk { name, plan }
    }
}

/// What the jobs of a desk have in common.
const RELEASE: u32 = 40;

/// A job for the desk that is due at a boundary. HI and LO jobs take turns there. A HI job has 97 of 100
/// units that the floor carries in the interval before; the LO job after it 97 of 100 of what is left
/// of that interval at the normal rate, and of the next.
fn desk_job(i: usize, due: usize) -> Job {
    let length = |boundary: usize| u64::from(time(boundary) - time(boundary - 1));
    let (n, d) = (u64::from(NORMAL), u64::from(FLOOR));
    let (grade, units) = match due % 2 {
        1 => (HI, d * length(due)),
        _ => (LO, n * length(due) + (n - d) * length(due - 1)),
    };
    Job {
        name: name(i),
        grade,
        release: RELEASE,
        size: units * 97 / 100,
        deadline: RELEASE + time(due),
    }
}

/// Makes the last HI job one unit larger than all that the floor carries before its deadline.
fn overload(jobs: &mut [Job]) {
    let essential = jobs.iter_mut().filter(|job| job.grade == HI);
    let last = essential.max_by_key(|job| job.deadline).expect("a HI job");
    last.size = u64::from(FLOOR) * u64::from(last.deadline - RELEASE) + 1;
}

/// The normal rates that the meter's calls are measured at.
pub const METERED: [u16; 3] = [2, 100, 1_000];

/// All that the log reader gets beside a list.
pub struct Log {
    pub name: &'static str,
    pub n: u16,
    pub bytes: Vec<u8>,
}

/// The readings for measuring at a normal rate: lowest rates of all sizes up to a quarter above it, in no
/// order, most of them no whole numbers.
pub fn readings(n: u16) -> Vec<Reading> {
    let reading = |k: usize| {
        let lowest =
            1.25 * f64::from(n) * ((k * 89 + 17) % MOST_SPEEDS) as f64 / MOST_SPEEDS as f64;
        Reading {
            mean: lowest + 0.5,
            lowest,
        }
    };
    (0..MOST_SPEEDS).map(reading).collect()
}

/// The logs for measuring at a normal rate: one that is read, and one whose last reading is refused.
pub fn logs(n: u16) -> [Log; 2] {
    let mut readings = readings(n);
    let read = log_of(&readings);
    readings[MOST_SPEEDS - 1].mean = -1.0;
    let logs = [("read", read), ("refused-by-31", log_of(&readings))];
    logs.map(|(name, bytes)| Log { name, n, bytes })
}

fn log_of(readings: &[Reading]) -> Vec<u8> {
    let mut log = vec![1];
    log.extend((17 * readings.len() as u32).to_be_bytes());
    for reading in readings {
        log.push(16);
        log.extend(reading.mean.to_be_bytes());
        log.extend(reading.lowest.to_be_bytes());
    }
    log
}

/// How many times as much is due where the first few jobs are to use the speed up.
const CROWDED: u32 = 60;

/// Makes all sizes and allotments so many times as large.
fn enlarge(plan: &mut Plan, table: &mut [u32], times: u32) {
    table.iter_mut().for_each(|units| *units *= times);
    let jobs = &mut plan.jobs[..plan.count];
    jobs.iter_mut().for_each(|job| job.size *= u64::from(times));
}

/// The first release and the last deadline.
fn ends_of(plan: &Plan) -> (u32, u32) {
    let jobs = &plan.jobs[..plan.count];
    let first = jobs.iter().map(|job| job.release).min();
    let last = jobs.iter().map(|job| job.deadline).max();
    first.zip(last).expect("at least one job")
}

/// A time for each boundary, rising at uneven distances.
fn time(boundary: usize) -> u32 {
    (10 * boundary + boundary * boundary % 7) as u32
}

/// The boundaries of a job's release and deadline; all releases come before all deadlines.
fn window(i: usize, jobs: usize, releases: usize) -> (usize, usize) {
    // Odd times i plus even times its square goes through all numbers below a power of two.
    let release = (i * (2 * i + 1) + 3) % jobs;
    (
        release * releases / jobs,
        releases + scattered(i, jobs) * releases / jobs,
    )
}

/// The turns of the deadlines, out of order in the same way.
fn scattered(i: usize, jobs: usize) -> usize {
    (i * (6 * i + 5) + 1) % jobs
}

/// Small allotments: those of one interval fit one slot, so that each live job gets its due.
fn lay_down(row: &mut [u32], i: usize, (first, end): (usize, usize), shape: Shape) {
    let quarter = ((end - first) / 4).max(1);
    for (interval, place) in row.iter_mut().enumerate() {
        let inside = (first..end).contains(&interval);
        let is_given = match shape {
            Shape::Usual => {
                inside && (interval - first) % quarter == 0 && interval < first + 4 * quarter
            }
            Shape::Fullest => inside,
            Shape::LargestFile => true,
        };
        if is_given {
            *place = (5 + (7 * i + 3 * interval) % 25) as u32;
        }
    }
}

fn name(i: usize) -> u64 {
    let digits = [b'0' + (i / 10) as u8, b'0' + (i % 10) as u8];
    u64::from_be_bytes([b'm', b'i', b'r', b'r', b'o', b'r', digits[0], digits[1]])
}

fn job(i: usize, (first, end): (usize, usize), row: &[u32]) -> Job {
    Job {
        name: name(i),
        grade: if i / 2 % 2 == 0 { HI } else { LO },
        release: time(first),
        size: row[first..end].iter().map(|&units| u64::from(units)).sum(),
        deadline: time(end),
    }
}

fn file_of(plan: &Plan, table: &[u32]) -> Vec<u8> {
    let mut file = vec![0; LARGEST_FILE];
    let length = write(plan, table, &mut file).expect("a sound plan");
    file.truncate(length);
    file
}

/// The run at normal speed up to a clock.
fn run_of(plan: &Plan, table: &[u32], clock: u32) -> Run {
    let mut run = Run {
        clock: ends_of(plan).0,
        ..Run::default()
    };
    while run.clock < clock {
        step(plan, table, &mut run, plan.n, &mut [0; MOST_JOBS]).expect("a slot of the run");
    }
    run
}
