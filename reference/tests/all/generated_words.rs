//! The generated words of the host and ended marks: the same for the same seed, every answer often,
//! and what a night with words has to keep.

use std::collections::BTreeMap;

use crate::common::table;
use reference::edition::{HI, LO};
use reference::generate::{file, hand, words, HandInput, Word};
use reference::plan::Plan;
use reference::reader::reader;
use reference::refusal::{CANNOT_END, DONE, NO_SUCH_POSITION, UNSOUND};
use reference::run::{end, outcome, start, step, Outcome, Run};

const SEED: u64 = 11;
const DRAWN: u64 = 6_000;
/// How often each shape has to come.
const LEAST: u64 = 50;

/// A run at its beginning, with its speeds and words.
struct Night {
    plan: Plan,
    table: Vec<u32>,
    run: Run,
    speeds: Vec<u16>,
    words: Vec<Word>,
}

/// What comes next in a night.
#[derive(Clone, Copy)]
enum Event {
    Word(u64),
    Speed(u16),
}

impl Night {
    /// The words and speeds in the order in which they come.
    fn events(&self) -> Vec<Event> {
        let mut events = Vec::new();
        for k in 0..=self.speeds.len() {
            let here = self.words.iter().filter(|word| word.after == k);
            events.extend(here.map(|word| Event::Word(word.position)));
            events.extend(self.speeds.get(k).map(|&speed| Event::Speed(speed)));
        }
        events
    }

    /// Goes through the night: for each event the run before it, the answer, the grants and the run after.
    fn walk(&self, mut see: impl FnMut(Event, &Run, u8, &[u32], &Run)) -> Run {
        let mut run = self.run.clone();
        for event in self.events() {
            let before = run.clone();
            let mut grants = [0; 32];
            let answer = match event {
                Event::Word(position) => end(&self.plan, &mut run, position),
                Event::Speed(speed) => step(&self.plan, &self.table, &mut run, speed, &mut grants),
            };
            see(event, &before, answer, &grants, &run);
        }
        run
    }

    fn lowest_speed(&self) -> u16 {
        self.speeds.iter().copied().min().unwrap_or(self.plan.n)
    }
}

/// The night of a file whose plan is accepted.
fn night_of(number: u64) -> Option<Night> {
    let input = file(SEED, number);
    let mut table = table();
    let plan = reader(&input.file, &mut table).plan;
    let run = start(&plan, &table).ok()?;
    Some(Night {
        words: words(SEED, number, &plan, &run, &input.speeds),
        plan,
        table,
        run,
        speeds: input.speeds,
    })
}

fn nights() -> Vec<Night> {
    (0..DRAWN).filter_map(night_of).collect()
}

fn night_in_hand(number: u64) -> Night {
    let input = hand(SEED, number);
    Night {
        words: words(SEED, number, &input.plan, &input.run, &input.speeds),
        plan: input.plan,
        table: input.table,
        run: input.run,
        speeds: input.speeds,
    }
}

#[test]
fn same_seed_gives_the_same_words_and_another_seed_does_not() {
    let all = |seed| -> Vec<Vec<Word>> {
        let of_input = |number| {
            let HandInput {
                plan, run, speeds, ..
            } = hand(1, number);
            words(seed, number, &plan, &run, &speeds)
        };
        (0..300).map(of_input).collect()
    };
    assert!(all(1) == all(1) && all(1) != all(2));
}

#[test]
fn words_rise_and_none_comes_after_more_speeds_than_there_are() {
    for night in nights().into_iter().chain((0..DRAWN).map(night_in_hand)) {
        assert!(night.words.windows(2).all(|w| w[0].after <= w[1].after));
        assert!(night.words.iter().all(|w| w.after <= night.speeds.len()));
    }
}

#[test]
fn third_of_the_runs_in_hand_have_marks_of_jobs_and_past_the_count() {
    let (mut some, mut of_jobs, mut past_only) = (0, 0, 0);
    for number in 0..DRAWN {
        let HandInput { plan, run, .. } = hand(SEED, number);
        let jobs = plan.count.min(32) as usize;
        let has = |marks: &[bool]| marks.contains(&true);
        some += u64::from(has(&run.ended));
        of_jobs += u64::from(has(&run.ended[..jobs]));
        past_only += u64::from(!has(&run.ended[..jobs]) && has(&run.ended[jobs..]));
    }
    assert!((DRAWN * 3 / 10..DRAWN * 4 / 10).contains(&some), "{}", some);
    assert!(of_jobs > DRAWN / 8 && past_only >= LEAST);
}

/// How the run answers a word, and the ground of a 26.
fn ground(plan: &Plan, before: &Run, position: u64, answer: u8) -> &'static str {
    match (answer, outcome(plan, before, position)) {
        (UNSOUND, _) => "unsound",
        (NO_SUCH_POSITION, _) => "no such job",
        (DONE, _) => "done",
        (CANNOT_END, Ok(Outcome::Open)) => "before release",
        (CANNOT_END, Ok(Outcome::Met)) => "met",
        (CANNOT_END, Ok(Outcome::Ended)) => "ended",
        (CANNOT_END, Ok(Outcome::Discarded)) => "discarded",
        (CANNOT_END, Ok(Outcome::Missed)) => "missed",
        _ => panic!("answer {}", answer),
    }
}

/// How often each answer and ground comes.
fn grounds(nights: &[Night]) -> BTreeMap<&'static str, u64> {
    let mut grounds = BTreeMap::new();
    for night in nights {
        night.walk(|event, before, answer, _, _| {
            if let Event::Word(position) = event {
                let ground = ground(&night.plan, before, position, answer);
                *grounds.entry(ground).or_insert(0) += 1;
            }
        });
    }
    grounds
}

#[test]
fn each_answer_and_each_ground_comes_often() {
    let in_hand: Vec<Night> = (0..DRAWN).map(night_in_hand).collect();
    let hands = grounds(&in_hand);
    assert!(hands.values().all(|&count| count >= LEAST), "{:?}", hands);
    assert_eq!(hands.len(), 8, "{:?}", hands);
    // A started run is sound, and only speeds below the floor make it miss a job, which is seldom.
    let started = grounds(&nights());
    assert_eq!(started.get("unsound"), None);
    for ground in [
        "no such job",
        "done",
        "before release",
        "met",
        "ended",
        "discarded",
    ] {
        assert!(started[ground] >= LEAST, "{:?}", started);
    }
}

#[test]
fn words_are_taken_at_the_release_and_in_the_last_slot_of_each_grade() {
    let mut taken = BTreeMap::new();
    for night in nights() {
        night.walk(|event, before, answer, _, _| {
            if let (Event::Word(position), DONE) = (event, answer) {
                let job = night.plan.jobs[position as usize];
                let first = before.clock == job.release;
                let last = before.clock + 1 == job.deadline;
                *taken.entry((job.grade, first, last)).or_insert(0) += 1;
            }
        });
    }
    assert_eq!(taken.len(), 8);
    assert!(taken.values().all(|&count| count >= LEAST), "{:?}", taken);
}

#[test]
fn word_sets_one_mark_or_changes_nothing() {
    for night in nights().into_iter().chain((0..DRAWN).map(night_in_hand)) {
        night.walk(|event, before, answer, _, after| {
            if let Event::Word(position) = event {
                let mut expected = before.clone();
                if answer == DONE {
                    expected.ended[position as usize] = true;
                }
                assert_eq!(*after, expected);
            }
        });
    }
}

#[test]
fn ended_job_is_never_granted_anything_after() {
    let mut slots_after = 0;
    for night in nights().into_iter().chain((0..DRAWN).map(night_in_hand)) {
        night.walk(|event, before, _, grants, after| {
            if let Event::Speed(_) = event {
                assert_eq!(after.ended, before.ended);
                for i in (0..32).filter(|&i| before.ended[i]) {
                    assert_eq!((grants[i], after.carried[i]), (0, before.carried[i]));
                    slots_after += 1;
                }
            }
        });
    }
    assert!(slots_after > 10_000, "{}", slots_after);
}

#[test]
fn word_taken_makes_a_job_ended_for_the_rest_of_the_night() {
    let mut slowed_later = 0;
    for night in nights() {
        let mut taken = Vec::new();
        let last = night.walk(|event, before, answer, _, after| {
            if let (Event::Word(position), DONE) = (event, answer) {
                taken.push((position, before.slow));
            }
            for &(position, _) in &taken {
                let now = outcome(&night.plan, after, position);
                assert_eq!(now, Ok(Outcome::Ended));
            }
        });
        let of_lower_grade = |position: u64| night.plan.jobs[position as usize].grade == LO;
        let later =
            |&&(position, slow): &&(u64, bool)| of_lower_grade(position) && !slow && last.slow;
        slowed_later += taken.iter().filter(later).count() as u64;
    }
    assert!(slowed_later >= LEAST, "{}", slowed_later);
}

#[test]
fn transfers_of_accepted_plans_are_ended_or_met_at_their_deadlines() {
    let mut kept = BTreeMap::new();
    for night in nights() {
        // Below the floor nothing is promised, and from a slow slot on only to essential jobs.
        if night.lowest_speed() < night.plan.d {
            continue;
        }
        let last = night.walk(|_, _, _, _, _| ());
        for (i, job) in night.plan.counted().iter().enumerate() {
            let promised = job.grade == HI || !last.slow;
            if promised && job.deadline <= last.clock {
                let others_ended = last.ended.contains(&true);
                let kept_by = match outcome(&night.plan, &last, i as u64) {
                    Ok(Outcome::Met) => "met",
                    Ok(Outcome::Ended) => "ended",
                    other => panic!("{:?}", other),
                };
                let kind = (job.grade, last.slow, others_ended, kept_by);
                *kept.entry(kind).or_insert(0_u64) += 1;
            }
        }
    }
    assert!(kept.values().all(|&count| count >= LEAST), "{:?}", kept);
}
