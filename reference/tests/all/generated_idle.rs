//! The generated runs with slow slots: speeds around what is due come often, and every slot of every
//! run sets the slow mark and grants as the rule says.

use std::collections::{BTreeMap, BTreeSet};

use crate::common::table;
use reference::edition::{HI, LO};
use reference::generate::{file, hand, night, shift_input, words, Word};
use reference::plan::{intervals, Job, Plan};
use reference::reader::reader;
use reference::refusal::DONE;
use reference::run::{end, start, step, Run};

const SEED: u64 = 32;
const DRAWN: u64 = 6_000;
/// Runs of each drawing that are gone through slot by slot.
const CHECKED: u64 = 1_000;
/// How often each shape has to come in each drawing.
const LEAST: u64 = 10;
/// How often those have to come that tell slow slots from idle ones.
const LEAST_OF_FIRST: u64 = 60;
const FIRST: [&str; 5] = [
    "LO served after idle slots",
    "dues just fit",
    "dues miss by one",
    "LO dues alone",
    "set after idle slots",
];

/// A run with the speeds that follow, and the words of the host between them.
struct Course {
    plan: Plan,
    table: Vec<u32>,
    run: Run,
    speeds: Vec<u16>,
    words: Vec<Word>,
}

/// A slot that was done.
struct Slot {
    before: Run,
    speed: u16,
    grants: [u32; 32],
    after: Run,
}

impl Course {
    /// The slots that are done, one after the other.
    fn slots(&self) -> Vec<Slot> {
        let mut slots = Vec::new();
        let mut run = self.run.clone();
        for (k, &speed) in self.speeds.iter().enumerate() {
            for word in self.words.iter().filter(|word| word.after == k) {
                end(&self.plan, &mut run, word.position);
            }
            let before = run.clone();
            let mut grants = [0; 32];
            if step(&self.plan, &self.table, &mut run, speed, &mut grants) == DONE {
                let after = run.clone();
                slots.push(Slot {
                    before,
                    speed,
                    grants,
                    after,
                });
            }
        }
        slots
    }

    /// What one slot from a run makes of it, and its grants.
    fn slot_from(&self, run: &Run, speed: u16) -> ([u32; 32], Run) {
        let (mut grants, mut run) = ([0; 32], run.clone());
        let answer = step(&self.plan, &self.table, &mut run, speed, &mut grants);
        assert_eq!(answer, DONE);
        (grants, run)
    }

    /// The units that the table gives a job by now, but no more than its size, and that it lacks.
    fn lacks(&self, run: &Run, position: usize) -> u64 {
        let intervals = intervals(self.plan.counted());
        let begun = (0..intervals.len()).filter(|&j| intervals[j].start <= run.clock);
        let allotted: u64 = begun
            .map(|j| u64::from(self.table[63 * position + j]))
            .sum();
        let wanted = allotted.min(self.plan.jobs[position].size);
        wanted.saturating_sub(u64::from(run.carried[position]))
    }

    /// The sum of such units over the jobs for which something holds.
    fn sum(&self, run: &Run, counts: impl Fn(&Job, usize) -> bool) -> u64 {
        let jobs = self.plan.counted();
        let counted = (0..jobs.len()).filter(|&i| counts(&jobs[i], i));
        counted.map(|i| self.lacks(run, i)).sum()
    }

    /// The sum of the live jobs' dues.
    fn dues(&self, run: &Run) -> u64 {
        self.sum(run, |job, i| in_window(job, run) && !run.ended[i])
    }
}

fn in_window(job: &Job, run: &Run) -> bool {
    job.release <= run.clock && run.clock < job.deadline
}

/// The run of a plan file and its speeds, if the plan is accepted.
fn course_of(bytes: &[u8], speeds: Vec<u16>) -> Option<Course> {
    let mut table = table();
    let plan = reader(bytes, &mut table).plan;
    let run = start(&plan, &table).ok()?;
    Some(Course {
        plan,
        table,
        run,
        speeds,
        words: Vec::new(),
    })
}

fn of_file(number: u64) -> Option<Course> {
    let input = file(SEED, number);
    course_of(&input.file, input.speeds)
}

fn of_night(number: u64) -> Option<Course> {
    let input = night(SEED, number);
    let head = input.get(1..5)?;
    let length = u32::from_be_bytes([head[0], head[1], head[2], head[3]]);
    let file = input.get(..5 + length as usize)?;
    let pairs = input[file.len()..].chunks_exact(2);
    let speeds = pairs.map(|pair| u16::from_be_bytes([pair[0], pair[1]]));
    course_of(file, speeds.collect())
}

fn of_hand(number: u64) -> Option<Course> {
    let input = hand(SEED, number);
    Some(Course {
        plan: input.plan,
        table: input.table,
        run: input.run,
        speeds: input.speeds,
        words: Vec::new(),
    })
}

fn with_words(number: u64, course: Option<Course>) -> Option<Course> {
    let mut course = course?;
    let Course {
        plan, run, speeds, ..
    } = &course;
    course.words = words(SEED, number, plan, run, speeds);
    Some(course)
}

fn in_shift(number: u64, course: Option<Course>) -> Option<Course> {
    let mut course = course?;
    course.speeds = shift_input(SEED, number, &course.plan, &course.run).speeds;
    course.speeds.truncate(256);
    Some(course)
}

/// A way in which runs are drawn.
struct Drawing {
    name: &'static str,
    draw: fn(u64) -> Option<Course>,
    /// How many shapes there are.
    shapes: usize,
}

const SHAPES: usize = 17;
/// In a started run, as long as the mark is clear, no job lacks anything outside its window.
const SHAPES_WITH_WORDS: usize = SHAPES - 1;
/// Without words no job has ended either.
const SHAPES_OF_STARTED: usize = SHAPES - 2;

const DRAWINGS: [Drawing; 7] = [
    Drawing {
        name: "file",
        draw: of_file,
        shapes: SHAPES_OF_STARTED,
    },
    Drawing {
        name: "file with words",
        draw: |number| with_words(number, of_file(number)),
        shapes: SHAPES_WITH_WORDS,
    },
    Drawing {
        name: "night",
        draw: of_night,
        shapes: SHAPES_OF_STARTED,
    },
    Drawing {
        name: "hand",
        draw: of_hand,
        shapes: SHAPES,
    },
    Drawing {
        name: "hand with words",
        draw: |number| with_words(number, of_hand(number)),
        shapes: SHAPES,
    },
    Drawing {
        name: "shift from a start",
        draw: |number| in_shift(number, of_file(number)),
        shapes: SHAPES_OF_STARTED,
    },
    Drawing {
        name: "shift in hand",
        draw: |number| in_shift(number, of_hand(number)),
        shapes: SHAPES,
    },
];

/// What a slot shows that finds the slow mark clear.
fn shapes_of_slot(course: &Course, slot: &Slot) -> Vec<(&'static str, bool)> {
    let Slot { before, after, .. } = slot;
    let v = u64::from(slot.speed);
    let (n, d) = (u64::from(course.plan.n), u64::from(course.plan.d));
    let live = |job: &Job, i: usize| in_window(job, before) && !before.ended[i];
    let dues = course.dues(before);
    let hi = course.sum(before, |job, i| live(job, i) && job.grade == HI);
    let ended = course.sum(before, |job, i| in_window(job, before) && before.ended[i]);
    let away = course.sum(before, |job, i| !in_window(job, before) && !before.ended[i]);
    let jobs = course.plan.counted().iter().enumerate();
    let essential = jobs.filter(|&(i, job)| live(job, i) && job.grade == HI);
    let left = |(i, job): (usize, &Job)| job.size - u64::from(before.carried[i]);
    let left: u64 = essential.map(left).sum();
    let set = after.slow;
    let slow_and_clear = v < n && !set;
    vec![
        ("idle below n", slow_and_clear && dues == 0),
        ("dues just fit", slow_and_clear && dues == v && v > 0),
        ("dues leave room", slow_and_clear && 0 < dues && dues < v),
        ("dues miss by one", set && dues == v + 1),
        ("dues miss by more", set && dues > v + 1),
        ("LO dues alone", set && hi == 0),
        (
            "LO dues alone, HI served",
            set && hi == 0 && left > 0 && v > 0,
        ),
        ("HI dues alone", set && hi == dues),
        ("only both grades", set && hi <= v && dues - hi <= v),
        ("full speed, dues above it", v == n && dues > n),
        ("below the floor, clear", v < d && !set),
        ("below the floor, clear, dues", v < d && !set && dues > 0),
        ("ended job would set it", slow_and_clear && dues + ended > v),
        (
            "job not live would set it",
            slow_and_clear && dues + away > v,
        ),
        ("sizes left would set it", slow_and_clear && left > v),
    ]
}

/// What a run shows, each thing once.
fn shapes(course: &Course) -> BTreeSet<&'static str> {
    let mut seen = BTreeSet::new();
    for slot in course.slots() {
        if slot.before.slow {
            break;
        }
        if seen.contains("idle below n") {
            let of_grade = |i: usize| course.plan.jobs[i].grade == LO && slot.grants[i] > 0;
            if slot.after.slow {
                seen.insert("set after idle slots");
            } else if (0..32).any(of_grade) {
                seen.insert("LO served after idle slots");
            }
        }
        let shapes = shapes_of_slot(course, &slot).into_iter();
        seen.extend(shapes.filter(|shape| shape.1).map(|shape| shape.0));
    }
    seen
}

/// How many runs of a drawing show each shape.
fn counts(drawing: &Drawing, drawn: u64) -> BTreeMap<&'static str, u64> {
    let mut counts = BTreeMap::new();
    for course in (0..drawn).filter_map(drawing.draw) {
        for shape in shapes(&course) {
            *counts.entry(shape).or_insert(0) += 1;
        }
    }
    counts
}

#[test]
fn each_shape_comes_often_in_each_drawing() {
    for drawing in &DRAWINGS {
        let (name, counts) = (drawing.name, counts(drawing, DRAWN));
        assert_eq!(counts.len(), drawing.shapes, "{}: {:?}", name, counts);
        let often = counts.values().all(|&count| count >= LEAST);
        assert!(often, "{}: {:?}", name, counts);
        for shape in FIRST {
            assert!(counts[shape] >= LEAST_OF_FIRST, "{}: {:?}", name, counts);
        }
    }
}

/// Goes through the slots of all drawings.
fn for_each_slot(mut see: impl FnMut(&Course, &Slot)) {
    for drawing in &DRAWINGS {
        for course in (0..CHECKED).filter_map(drawing.draw) {
            for slot in course.slots() {
                see(&course, &slot);
            }
        }
    }
}

#[test]
fn mark_is_set_exactly_by_a_speed_below_the_lesser_of_n_and_the_dues() {
    for_each_slot(|course, slot| {
        let lesser = course.dues(&slot.before).min(u64::from(course.plan.n));
        let set = u64::from(slot.speed) < lesser;
        assert_eq!(slot.after.slow, slot.before.slow || set);
    });
}

#[test]
fn mark_is_set_exactly_when_full_speed_would_grant_more_than_the_speed() {
    for_each_slot(|course, slot| {
        if !slot.before.slow {
            let (grants, _) = course.slot_from(&slot.before, course.plan.n);
            let all: u64 = grants.iter().map(|&grant| u64::from(grant)).sum();
            assert_eq!(slot.after.slow, all > u64::from(slot.speed));
        }
    });
}

#[test]
fn slot_that_leaves_the_mark_clear_grants_what_full_speed_would() {
    for_each_slot(|course, slot| {
        if !slot.after.slow {
            let (grants, mut run) = course.slot_from(&slot.before, course.plan.n);
            run.below_floor = slot.after.below_floor;
            assert_eq!((slot.grants, &slot.after), (grants, &run));
        }
    });
}

#[test]
fn slot_that_sets_the_mark_is_served_as_if_it_had_been_set_before() {
    for_each_slot(|course, slot| {
        if slot.after.slow {
            let mut slow = slot.before.clone();
            slow.slow = true;
            let (grants, run) = course.slot_from(&slow, slot.speed);
            assert_eq!((slot.grants, &slot.after), (grants, &run));
            for (i, job) in course.plan.counted().iter().enumerate() {
                assert!(job.grade == HI || slot.grants[i] == 0);
            }
        }
    });
}

#[test]
fn below_floor_mark_is_set_by_the_speed_alone() {
    for_each_slot(|course, slot| {
        let set = slot.speed < course.plan.d;
        assert_eq!(slot.after.below_floor, slot.before.below_floor || set);
    });
}

#[test]
fn run_of_an_accepted_plan_with_its_mark_clear_meets_every_job_by_its_deadline() {
    let mut met = BTreeMap::new();
    for course in (0..DRAWN).filter_map(of_file) {
        let mut slower = false;
        for slot in course.slots().iter().take_while(|slot| !slot.after.slow) {
            slower |= slot.speed < course.plan.n;
            for (i, job) in course.plan.counted().iter().enumerate() {
                if job.deadline == slot.after.clock {
                    assert_eq!(u64::from(slot.after.carried[i]), job.size);
                    *met.entry((job.grade, slower)).or_insert(0_u64) += 1;
                }
            }
        }
    }
    assert_eq!(met.len(), 4, "{:?}", met);
    assert!(met.values().all(|&count| count >= 1_000), "{:?}", met);
}
