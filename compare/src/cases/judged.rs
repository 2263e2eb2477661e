//! Write, judge, slack and start on plans in hand.

use reference::edition::TABLE_PLACES;

use super::plan_e::{memory_of, Job, END, HI, JOBS, LO, ROWS};
use super::Cases;
use crate::both::{Both, Difference};
use crate::memory::Memory;
use crate::words::{
    job_at, DEADLINE, FLOOR, GRADE, JOB_COUNT, NAME, NORMAL_RATE, LOCATION_WORDS, PLAN_WORDS, RELEASE,
    RUN_WORDS, SIZE,
};

/// The words of a location, and those where nothing is named.
type Location = [u64; 2];
const NOWHERE: Location = [0, 0];

/// What the four calls have to answer: each its number, and then what it hands out.
#[derive(Clone, Copy)]
pub struct Answers {
    /// With the length of the file.
    pub write: (u32, usize),
    /// With the location; start answers the same.
    pub judge: (u32, Location),
    /// With the figure and its location.
    pub slack: (u32, i64, Location),
}

struct PlanCase {
    name: &'static str,
    jobs: &'static [Job],
    rows: &'static [&'static [u32]],
    answers: Answers,
}

pub const P5: [Job; 4] = [
    (b"job----A", HI, 0, 8, 10),
    (b"job----B", HI, 0, 4, 16),
    (b"job----C", LO, 0, 6, 4),
    (b"job----D", LO, 0, 10, 12),
];
pub const P5_ROWS: [&[u32]; 4] = [&[2, 6, 0, 0], &[0, 0, 0, 4], &[6, 0, 0, 0], &[0, 6, 4, 0]];
const P6: [Job; 3] = [
    (b"job----A", LO, 0, 4, 2),
    (b"job----B", HI, 0, 2, 4),
    (b"job----C", HI, 2, 2, 4),
];
pub const P9: [Job; 2] = [(b"job----B", HI, 0, 2, 4), (b"job----A", HI, 0, 2, 2)];
pub const P9_ROWS: [&[u32]; 2] = [&[2, 0], &[2, 0]];
pub const P13: [Job; 2] = [(b"job----A", LO, 0, 2, 2), (b"job----B", LO, 4, 2, 6)];
pub const P13_ROWS: [&[u32]; 2] = [&[2, 0, 0], &[0, 0, 2]];

const PLANS: [PlanCase; 13] = [
    PlanCase {
        name: "P1",
        jobs: &JOBS,
        rows: &ROWS,
        answers: answers((0, END), (0, NOWHERE), (0, 1, [1, 10])),
    },
    PlanCase {
        name: "P2",
        jobs: &JOBS,
        rows: &[&[2, 4, 0], &[0, 3, 5]],
        answers: answers((0, END), (0, NOWHERE), (0, 0, [2, 10])),
    },
    PlanCase {
        name: "P3",
        jobs: &JOBS,
        rows: &[&[2, 4, 0], &[0, 2, 6]],
        answers: answers((0, END), (18, [2, 10]), (0, -1, [2, 10])),
    },
    PlanCase {
        name: "P4",
        jobs: &JOBS,
        rows: &[&[2, 4, 0], &[0, 4, 3]],
        answers: answers((0, END), (16, [1, 0]), (16, 0, [1, 0])),
    },
    PlanCase {
        name: "P5",
        jobs: &P5,
        rows: &P5_ROWS,
        answers: answers((0, 190), (0, NOWHERE), (0, 0, [1, 10])),
    },
    PlanCase {
        name: "P6",
        jobs: &P6,
        rows: &[&[4, 0], &[0, 2], &[0, 2]],
        answers: answers((0, 123), (18, [1, 4]), (0, -2, [1, 4])),
    },
    PlanCase {
        name: "P7",
        jobs: &P6,
        rows: &[&[4, 0], &[2, 0], &[0, 2]],
        answers: answers((0, 123), (17, NOWHERE), (17, 0, NOWHERE)),
    },
    PlanCase {
        name: "P8",
        jobs: &JOBS,
        rows: &[&[2, 3, 1], &[0, 4, 4]],
        answers: answers((0, 131), (15, [0, 2]), (15, 0, [0, 2])),
    },
    PlanCase {
        name: "P9",
        jobs: &P9,
        rows: &P9_ROWS,
        answers: answers((0, 86), (0, NOWHERE), (0, 0, [0, 2])),
    },
    PlanCase {
        name: "P13",
        jobs: &P13,
        rows: &P13_ROWS,
        answers: answers((0, 86), (0, NOWHERE), (256, 0, NOWHERE)),
    },
    PlanCase {
        name: "no job is HI",
        jobs: &[JOBS[0], (b"mirror-A", LO, 1, 8, 10)],
        rows: &ROWS,
        answers: answers((0, END), (0, NOWHERE), (256, 0, NOWHERE)),
    },
    PlanCase {
        name: "last interval too short for the rate",
        jobs: &[JOBS[0], (b"mirror-A", HI, 1, 8, 6)],
        rows: &ROWS,
        answers: answers((0, END), (17, [2, 0]), (17, 0, [2, 0])),
    },
    PlanCase {
        name: "deadline too early for the floor",
        jobs: &[JOBS[0], (b"mirror-A", HI, 1, 8, 7)],
        rows: &ROWS,
        answers: answers((0, END), (18, [0, 7]), (0, -2, [1, 7])),
    },
];

/// What plan E is answered.
const OF_E: Answers = PLANS[0].answers;
/// What is answered before any unit is looked at.
const UNSOUND: Answers = answers((21, 0), (21, NOWHERE), (21, 0, NOWHERE));
const TOO_SHORT: Answers = answers((22, 0), (22, NOWHERE), (22, 0, NOWHERE));

pub const fn answers(
    write: (u32, usize),
    judge: (u32, Location),
    slack: (u32, i64, Location),
) -> Answers {
    Answers {
        write,
        judge,
        slack,
    }
}

fn location(memory: &Memory) -> Location {
    [memory.location.contents()[0], memory.location.contents()[1]]
}

fn write(both: &mut Both, memory: &mut Memory) -> Result<(u32, usize), Difference> {
    Ok((both.write(memory)?, memory.written.contents()[0]))
}

fn judge(both: &mut Both, memory: &mut Memory) -> Result<(u32, Location), Difference> {
    Ok((both.judge(memory)?, location(memory)))
}

fn slack(both: &mut Both, memory: &mut Memory) -> Result<(u32, i64, Location), Difference> {
    let number = both.slack(memory)?;
    Ok((number, memory.slack.contents()[0], location(memory)))
}

fn start(both: &mut Both, memory: &mut Memory) -> Result<(u32, Location), Difference> {
    Ok((both.start(memory)?, location(memory)))
}

/// Makes the four calls and holds each to its answer.
pub fn hold(
    cases: &mut Cases,
    name: &str,
    memory: &mut Memory,
    answers: Answers,
) -> Result<(), String> {
    let got = write(&mut cases.both, memory);
    cases.expect(name, got, answers.write)?;
    let got = judge(&mut cases.both, memory);
    cases.expect(name, got, answers.judge)?;
    let got = slack(&mut cases.both, memory);
    cases.expect(name, got, answers.slack)?;
    let got = start(&mut cases.both, memory);
    cases.expect(name, got, answers.judge)
}

/// The plans of the rules' cases, and others with one fault.
pub fn plans(cases: &mut Cases) -> Result<(), String> {
    for case in &PLANS {
        let memory = &mut memory_of(case.jobs, case.rows);
        hold(cases, case.name, memory, case.answers)?;
    }
    let memory = &mut memory_of(&JOBS, &ROWS);
    memory.table.put(TABLE_PLACES - 1, &[1]);
    hold(cases, "stray place", memory, UNSOUND)
}

/// Plan E with a word of the plan replaced.
pub fn words(cases: &mut Cases) -> Result<(), String> {
    let name = u64::from_be_bytes(*b"Mirror-A");
    let replaced = [
        ("rate 1001", NORMAL_RATE, 1_001),
        ("rate with a bit too many", NORMAL_RATE, 2 + (1 << 16)),
        ("floor with a bit too many", FLOOR, 1 + (1 << 32)),
        ("count 0", JOB_COUNT, 0),
        ("count 33", JOB_COUNT, 33),
        ("count with a bit too many", JOB_COUNT, 2 + (1 << 32)),
        ("name of the job before", job_at(1) + NAME, name),
        ("name with a space", job_at(1) + NAME, 0x20),
        ("grade 2", job_at(1) + GRADE, 2),
        ("grade with a bit too many", job_at(1) + GRADE, 1 + (1 << 8)),
        (
            "release with a bit too many",
            job_at(1) + RELEASE,
            1 + (1 << 32),
        ),
        ("size with a bit too many", job_at(1) + SIZE, 8 + (1 << 32)),
        (
            "deadline with a bit too many",
            job_at(1) + DEADLINE,
            10 + (1 << 32),
        ),
    ];
    for (case, at, word) in replaced {
        let memory = &mut memory_of(&JOBS, &ROWS);
        memory.plan.put(at, &[word]);
        hold(cases, case, memory, UNSOUND)?;
    }
    let memory = &mut memory_of(&JOBS, &ROWS);
    memory.plan.put(job_at(2), &[u64::MAX; PLAN_WORDS - 13]);
    hold(cases, "rubbish from the count on", memory, OF_E)
}

/// A short table is found before an unsound plan; a short plan or location before everything.
pub fn shorts(cases: &mut Cases) -> Result<(), String> {
    let memory = &mut memory_of(&JOBS, &ROWS);
    memory.out.lend(END - 1);
    let got = write(&mut cases.both, memory);
    cases.expect("output too short", got, (22, 0))?;
    memory.plan.put(JOB_COUNT, &[33]);
    let got = write(&mut cases.both, memory);
    cases.expect("output too short for no plan", got, (21, 0))?;
    memory.table.lend(TABLE_PLACES - 1);
    hold(cases, "table too short", memory, TOO_SHORT)?;
    memory.plan.lend(PLAN_WORDS - 1);
    memory.written.renew();
    let untouched = memory.written.contents()[0];
    let got = write(&mut cases.both, memory);
    cases.expect("plan too short to write", got, (22, untouched))?;
    hold_untouched(cases, "plan too short", memory)?;
    memory.lend_all();
    memory.location.lend(LOCATION_WORDS - 1);
    hold_untouched(cases, "location too short", memory)?;
    memory.lend_all();
    memory.run.lend(RUN_WORDS - 1);
    let untouched = location(&memory_of(&JOBS, &ROWS));
    let got = start(&mut cases.both, memory);
    cases.expect("run too short", got, (22, untouched))
}

/// Judge, slack and start are refused by 22 and hand out nothing.
fn hold_untouched(cases: &mut Cases, name: &str, memory: &mut Memory) -> Result<(), String> {
    let fresh = memory_of(&JOBS, &ROWS);
    let (untouched, figure) = (location(&fresh), fresh.slack.contents()[0]);
    let got = judge(&mut cases.both, memory);
    cases.expect(name, got, (22, untouched))?;
    let got = slack(&mut cases.both, memory);
    cases.expect(name, got, (22, figure, untouched))?;
    let got = start(&mut cases.both, memory);
    cases.expect(name, got, (22, untouched))
}
