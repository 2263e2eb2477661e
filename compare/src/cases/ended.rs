//! The word that a job has ended, on plan E and others, and what slots and outcomes make of it.

use reference::edition::MOST_JOBS;

use super::judged::{P9, P9_ROWS};
use super::plan_e::{memory_of, HI, JOBS, LO, ROWS};
use super::slots::{e_with, refused_step, step, Run, AT_THE_END, PAST_THE_END, STARTED};
use super::Cases;
use crate::memory::Memory;
use crate::model::{DISCARDED, ENDED, MET, MISSED, OPEN};
use crate::words::{
    job_at, marks as all_marks, BELOW_FLOOR, CARRIED, DEADLINE, ENDED as ENDED_MARKS, FLOOR, GRADE,
    JOB_COUNT, NAME, NORMAL_RATE, PLAN_WORDS, RELEASE, RUN_WORDS, SIZE, SLOW,
};

/// The words of a run before it had ended marks.
pub const WORDS_BEFORE: usize = 35;

/// Both jobs of plan E are running.
pub const IN_THE_MIDDLE: Run = [3, 0, 0, 2, 4];

/// The word itself: done, and refused for each ground.
pub fn words(cases: &mut Cases) -> Result<(), String> {
    done(cases)?;
    all_jobs(cases)?;
    cannot_end(cases)?;
    no_such_job(cases)?;
    unsound_plans(cases)?;
    unsound_runs(cases)?;
    order(cases)?;
    shorts(cases)
}

/// Runs with ended marks.
pub fn runs(cases: &mut Cases) -> Result<(), String> {
    wrong_marks(cases)?;
    places_past_the_count(cases)?;
    outcomes(cases)?;
    slots(cases)?;
    stays(cases)?;
    started(cases)
}

/// Plan E with a run in which the jobs at these places have ended.
pub fn e_with_ended(run: Run, ended: &[usize]) -> Memory {
    let mut memory = e_with(run);
    for place in ended {
        memory.run.put(ENDED_MARKS + place, &[1]);
    }
    memory
}

/// Holds a word to its number. If it is done the job's mark is set; nothing else changes.
fn hold(
    cases: &mut Cases,
    case: &str,
    memory: &mut Memory,
    position: usize,
    number: u32,
) -> Result<(), String> {
    let (plan, mut run) = (memory.plan.contents().to_vec(), memory.run.contents().to_vec());
    let got = cases.both.end(memory, position);
    cases.expect(case, got, number)?;
    if number == 0 {
        run[ENDED_MARKS + position] = 1;
    }
    cases.expect(case, Ok(memory.run.contents()), &run)?;
    cases.expect(case, Ok(memory.plan.contents()), &plan)
}

/// A case, a run of plan E, the places of its ended jobs, and the position that is told of.
type Word = (&'static str, Run, &'static [usize], usize);

fn hold_all(cases: &mut Cases, words: &[Word], number: u32) -> Result<(), String> {
    for &(case, run, ended, position) in words {
        hold(cases, case, &mut e_with_ended(run, ended), position, number)?;
    }
    Ok(())
}

/// Words on jobs that are running.
fn done(cases: &mut Cases) -> Result<(), String> {
    let words: [Word; 12] = [
        ("LO job at its release", STARTED, &[], 0),
        ("HI job at its release", [1, 0, 0, 2, 0], &[], 1),
        ("LO job in its window", IN_THE_MIDDLE, &[], 0),
        ("HI job in its window", IN_THE_MIDDLE, &[], 1),
        ("LO job in its last slot, a unit left", [4, 0, 0, 5, 7], &[], 0),
        ("HI job in its last slot, a unit left", [9, 0, 0, 6, 7], &[], 1),
        ("HI job past the other's deadline", [5, 0, 0, 5, 4], &[], 1),
        ("HI job under the slow mark", [3, 1, 0, 2, 4], &[], 1),
        ("HI job under both marks", [9, 1, 1, 0, 1], &[], 1),
        ("LO job under the below-floor mark alone", [3, 0, 1, 2, 4], &[], 0),
        ("the other job has ended", IN_THE_MIDDLE, &[0], 1),
        ("ended marks from the count on", IN_THE_MIDDLE, &[2, 31], 0),
    ];
    hold_all(cases, &words, 0)?;
    let memory = &mut e_with(IN_THE_MIDDLE);
    memory.run.put(CARRIED + JOBS.len(), &[u32::MAX; MOST_JOBS - JOBS.len()]);
    hold(cases, "rubbish carried from the count on", memory, 0, 0)?;
    hold(cases, "both jobs, one after the other", memory, 1, 0)
}

/// Words on each of 32 jobs in turn, and on the position after the last.
fn all_jobs(cases: &mut Cases) -> Result<(), String> {
    let memory = &mut memory_of(&[(b"same-job", LO, 0, 1, 2); MOST_JOBS], &[]);
    memory.run.put(0, &[0; RUN_WORDS]);
    for position in 0..MOST_JOBS {
        hold(cases, "one of 32 jobs", memory, position, 0)?;
    }
    hold(cases, "position 32 of 32 jobs", memory, MOST_JOBS, 25)
}

/// Words on jobs that are not yet released, or over already.
fn cannot_end(cases: &mut Cases) -> Result<(), String> {
    let words: [Word; 17] = [
        ("before its release", STARTED, &[], 1),
        ("before its release, under the slow mark", [0, 1, 0, 0, 0], &[], 1),
        ("LO job met", [3, 0, 0, 6, 4], &[], 0),
        ("HI job met", [8, 1, 0, 2, 8], &[], 1),
        ("LO job met, at the last deadline", AT_THE_END, &[], 0),
        ("HI job met, at the last deadline", AT_THE_END, &[], 1),
        ("LO job ended", IN_THE_MIDDLE, &[0], 0),
        ("HI job ended", IN_THE_MIDDLE, &[0, 1], 1),
        ("discarded", [3, 1, 0, 2, 4], &[], 0),
        ("discarded, its deadline passed", [7, 1, 0, 2, 4], &[], 0),
        ("LO job missed, at its deadline", [5, 0, 0, 5, 4], &[], 0),
        ("LO job missed, later", [9, 0, 0, 0, 4], &[], 0),
        ("HI job missed", [10, 1, 0, 2, 7], &[], 1),
        ("met before its release", [0, 0, 0, 0, 8], &[], 1),
        ("ended before its release", STARTED, &[1], 1),
        ("met and ended", [3, 0, 0, 6, 4], &[0], 0),
        ("ended, discarded and missed", [7, 1, 0, 2, 4], &[0], 0),
    ];
    hold_all(cases, &words, 26)
}

/// Words on positions that no job has, some of them those of a job in fewer bits.
fn no_such_job(cases: &mut Cases) -> Result<(), String> {
    let near = [2, 3, 31, 32, 33, 63, 64, 66, 67];
    let powers = [8, 16, 31, 32, 63].map(|bits| 1 << bits);
    let far = powers.iter().flat_map(|&power| [power - 1, power, power + 1]);
    for position in near.into_iter().chain(far).chain([usize::MAX - 1, usize::MAX]) {
        let case = format!("position {}", position);
        hold(cases, &case, &mut e_with(IN_THE_MIDDLE), position, 25)?;
    }
    let memory = &mut memory_of(&JOBS[..1], &ROWS[..1]);
    memory.run.put(0, &[0; RUN_WORDS]);
    hold(cases, "second position of one job", memory, 1, 25)?;
    hold(cases, "first position of one job", memory, 0, 0)
}

/// Words of plan E that break a rule, each with the place where it stands.
pub fn broken_words() -> [(&'static str, usize, u64); 14] {
    [
        ("rate 1001", NORMAL_RATE, 1_001),
        ("rate with a bit too many", NORMAL_RATE, 2 + (1 << 16)),
        ("floor 0", FLOOR, 0),
        ("floor at the rate", FLOOR, 2),
        ("count 0", JOB_COUNT, 0),
        ("count 33", JOB_COUNT, 33),
        ("count with a bit too many", JOB_COUNT, 2 + (1 << 8)),
        ("grade 2", job_at(1) + GRADE, 2),
        ("release at the deadline", job_at(1) + RELEASE, 10),
        ("size 0", job_at(1) + SIZE, 0),
        ("size 100000001", job_at(1) + SIZE, 100_000_001),
        ("size with a bit too many", job_at(1) + SIZE, 8 + (1 << 32)),
        ("deadline 100001", job_at(1) + DEADLINE, 100_001),
        ("deadline with a bit too many", job_at(1) + DEADLINE, 10 + (1 << 32)),
    ]
}

/// Names of the second job that a plan file cannot have.
pub fn broken_names() -> [(&'static str, u64); 2] {
    let name = u64::from_be_bytes(*b"Mirror-A");
    [("name of the job before", name), ("name with a space", 0x20)]
}

/// Plans that are refused by 21, and names, which no word looks at.
fn unsound_plans(cases: &mut Cases) -> Result<(), String> {
    for (case, at, word) in broken_words() {
        let memory = &mut e_with(IN_THE_MIDDLE);
        memory.plan.put(at, &[word]);
        hold(cases, case, memory, 0, 21)?;
    }
    for (case, word) in broken_names() {
        let memory = &mut e_with(IN_THE_MIDDLE);
        memory.plan.put(job_at(1) + NAME, &[word]);
        hold(cases, case, memory, 1, 0)?;
    }
    Ok(())
}

/// Runs that are refused by 21, and the clock from before the first release to past the last
/// deadline.
fn unsound_runs(cases: &mut Cases) -> Result<(), String> {
    let runs: [Word; 5] = [
        ("past the end", PAST_THE_END, &[], 0),
        ("clock 2^32 - 1", [u32::MAX, 0, 0, 2, 4], &[], 1),
        ("more carried than the first size", [3, 0, 0, 7, 4], &[], 1),
        ("more carried than the second size", [3, 0, 0, 2, 9], &[], 0),
        ("more carried for an ended job", [3, 0, 0, 7, 4], &[0], 1),
    ];
    hold_all(cases, &runs, 21)?;
    for (clock, number) in [(2, 21), (3, 0), (4, 0), (5, 26), (6, 21)] {
        let memory = &mut memory_of(&[(b"only-job", LO, 3, 1, 5)], &[&[1]]);
        memory.run.put(0, &[0; RUN_WORDS]);
        memory.run.put(0, &[clock]);
        let case = format!("window from 3 to 5, clock {}", clock);
        hold(cases, &case, memory, 0, number)?;
    }
    Ok(())
}

/// A mark other than 0 and 1 at each place where a mark stands, past the count too.
fn wrong_marks(cases: &mut Cases) -> Result<(), String> {
    for at in all_marks() {
        for mark in [2, 3, 256, 257, 1 << 16, 1 << 31, u32::MAX] {
            let case = format!("mark {} at {}", mark, at);
            let memory = &mut e_with(IN_THE_MIDDLE);
            memory.run.put(at, &[mark]);
            hold(cases, &case, memory, 0, 21)?;
            refused_step(cases, &case, memory, 2, 21)?;
            let got = cases.both.outcome(memory, 0);
            cases.expect(&case, got, 21)?;
        }
    }
    Ok(())
}

/// A set mark and any units at a place from the count on change nothing.
fn places_past_the_count(cases: &mut Cases) -> Result<(), String> {
    for place in JOBS.len()..MOST_JOBS {
        let case = format!("mark and units of place {}", place);
        let memory = &mut e_with_ended(IN_THE_MIDDLE, &[place]);
        memory.run.put(CARRIED + place, &[u32::MAX]);
        let got = cases.both.outcome(memory, 0);
        cases.expect(&case, got, OPEN)?;
        let got = step(&mut cases.both, memory, 2);
        cases.expect(&case, got, (0, [2, 0], [4, 0, 0, 4, 4]))?;
    }
    Ok(())
}

/// 22, 21, 25, 26: the first that holds.
fn order(cases: &mut Cases) -> Result<(), String> {
    let unsound: [Word; 4] = [
        ("21 comes before 25, for the clock", PAST_THE_END, &[], 2),
        ("21 comes before 25, for the units", [3, 0, 0, 7, 4], &[], usize::MAX),
        ("21 comes before 26, of a job met", PAST_THE_END, &[], 1),
        ("21 comes before 26, of a job ended", [3, 0, 0, 2, 9], &[0], 0),
    ];
    hold_all(cases, &unsound, 21)?;
    for (at, position) in [(SLOW, 2), (BELOW_FLOOR, usize::MAX), (ENDED_MARKS + 31, 0)] {
        let memory = &mut e_with_ended(IN_THE_MIDDLE, &[0]);
        memory.run.put(at, &[2]);
        hold(cases, "a mark of 2 comes before 25 and 26", memory, position, 21)?;
    }
    // The record at the count is not released yet, and the one behind it has ended.
    let [first, second] = JOBS;
    let later = (b"later--A", HI, 5, 1, 8);
    let memory = &mut memory_of(&[first, second, later, later], &ROWS);
    memory.plan.put(JOB_COUNT, &[2]);
    memory.run.put(0, &[0; RUN_WORDS]);
    memory.run.put(ENDED_MARKS + 3, &[1]);
    hold(cases, "25 comes before 26, before a release", memory, 2, 25)?;
    hold(cases, "25 comes before 26, of a job ended", memory, 3, 25)
}

/// A plan or a run that is too short comes before everything.
fn shorts(cases: &mut Cases) -> Result<(), String> {
    for (run, position) in [(IN_THE_MIDDLE, 0), (IN_THE_MIDDLE, 2), (PAST_THE_END, 0)] {
        for length in [0, 1, WORDS_BEFORE, RUN_WORDS - 1] {
            let memory = &mut e_with(run);
            memory.run.lend(length);
            hold(cases, "end, run too short", memory, position, 22)?;
            refused_step(cases, "step, run too short", memory, 2, 22)?;
            let got = cases.both.outcome(memory, position);
            cases.expect("outcome, run too short", got, 22)?;
        }
        for length in [0, 1, PLAN_WORDS - 1] {
            let memory = &mut e_with(run);
            memory.plan.lend(length);
            hold(cases, "end, plan too short", memory, position, 22)?;
        }
    }
    let memory = &mut e_with(IN_THE_MIDDLE);
    memory.run.put(ENDED_MARKS, &[2]);
    memory.plan.lend(PLAN_WORDS - 1);
    hold(cases, "end, plan too short and a mark of 2", memory, 0, 22)
}

/// Met comes before ended, ended before all others.
fn outcomes(cases: &mut Cases) -> Result<(), String> {
    let outcomes: [(Word, u32); 9] = [
        (("LO job ended", IN_THE_MIDDLE, &[0], 0), ENDED),
        (("HI job ended", IN_THE_MIDDLE, &[1], 1), ENDED),
        (("the other job ended", IN_THE_MIDDLE, &[0], 1), OPEN),
        (("met and ended", AT_THE_END, &[0, 1], 1), MET),
        (("ended under the slow mark", [3, 1, 0, 2, 4], &[0], 0), ENDED),
        (("ended past its deadline", [10, 1, 0, 2, 7], &[1], 1), ENDED),
        (("ended before its release", STARTED, &[1], 1), ENDED),
        (("the other job ended, discarded", [3, 1, 0, 2, 4], &[1], 0), DISCARDED),
        (("the other job ended, missed", [10, 0, 0, 5, 7], &[0], 1), MISSED),
    ];
    for ((case, run, ended, position), number) in outcomes {
        let got = cases.both.outcome(&mut e_with_ended(run, ended), position);
        cases.expect(case, got, number)?;
    }
    let got = cases.both.outcome(&mut e_with_ended(IN_THE_MIDDLE, &[2]), 2);
    cases.expect("ended mark at the count", got, 21)
}

/// Slots of runs in which a job has ended: it gets nothing, and what it leaves goes to the other.
fn slots(cases: &mut Cases) -> Result<(), String> {
    // The essential job ends after two slots. The other one then has its units two slots earlier.
    let memory = &mut e_with([2, 0, 0, 2, 2]);
    hold(cases, "essential job ends after two slots", memory, 1, 0)?;
    for (grants, after) in [
        ([2, 0], [3, 0, 0, 4, 2]),
        ([2, 0], [4, 0, 0, 6, 2]),
        ([0, 0], [5, 0, 0, 6, 2]),
    ] {
        let got = step(&mut cases.both, memory, 2);
        cases.expect("slot after the essential job", got, (0, grants, after))?;
    }
    // Nothing is due any more, so the slot is not slow.
    let got = step(&mut cases.both, memory, 1);
    cases.expect("idle slot after it", got, (0, [0, 0], [6, 0, 0, 6, 2]))?;
    // A slow slot, the other job being due two: the essential job alone would be served, and it has
    // ended.
    let got = step(&mut cases.both, &mut e_with_ended([3, 0, 0, 4, 2], &[1]), 1);
    cases.expect("slow slot after it", got, (0, [0, 0], [4, 1, 0, 4, 2]))?;
    let memory = &mut e_with_ended(STARTED, &[0]);
    let got = step(&mut cases.both, memory, 2);
    cases.expect("P10 without the first job", got, (0, [0, 0], [1, 0, 0, 0, 0]))?;
    let memory = &mut memory_of(&P9, &P9_ROWS);
    memory.run.put(0, &[0; RUN_WORDS]);
    hold(cases, "P9, the earlier deadline ends", memory, 1, 0)?;
    let got = step(&mut cases.both, memory, 2);
    cases.expect("P9 without it", got, (0, [2, 0], [1, 0, 0, 2, 0]))?;
    cases.expect("P9 without it, mark", Ok(memory.run.contents()[ENDED_MARKS + 1]), 1)
}

/// A LO job that has ended stays so when the slow mark comes, and a HI job when its deadline does.
fn stays(cases: &mut Cases) -> Result<(), String> {
    let nights: [(&str, Run, usize, u16, [u32; 2], Run); 2] = [
        ("slow slot", [1, 0, 0, 2, 0], 0, 1, [0, 1], [2, 1, 0, 2, 1]),
        ("last slot", [9, 0, 0, 6, 7], 1, 2, [0, 0], [10, 0, 0, 6, 7]),
    ];
    for (case, run, position, speed, grants, after) in nights {
        let memory = &mut e_with(run);
        hold(cases, case, memory, position, 0)?;
        let got = step(&mut cases.both, memory, speed);
        cases.expect(case, got, (0, grants, after))?;
        let got = cases.both.outcome(memory, position);
        cases.expect(case, got, ENDED)?;
        hold(cases, case, memory, position, 26)?;
    }
    Ok(())
}

/// A start clears every word of the run but the clock; a start that is refused leaves all of them.
fn started(cases: &mut Cases) -> Result<(), String> {
    for word in [1, u32::MAX] {
        let memory = &mut memory_of(&[(b"only-job", HI, 3, 1, 5)], &[&[1]]);
        memory.run.put(0, &[word; RUN_WORDS]);
        let got = cases.both.start(memory);
        cases.expect("start over a run", got, 0)?;
        let mut expected = vec![0; RUN_WORDS];
        expected[0] = 3;
        cases.expect("start over a run", Ok(&memory.run.contents()[..RUN_WORDS]), &expected)?;
        memory.table.put(0, &[2]);
        memory.run.put(0, &[word; RUN_WORDS]);
        let got = cases.both.start(memory);
        cases.expect("refused start over a run", got, 16)?;
        let left = &memory.run.contents()[..RUN_WORDS];
        cases.expect("refused start over a run", Ok(left), &[word; RUN_WORDS])?;
    }
    Ok(())
}
