//! Steps and outcomes of plan E and of case P9.

use reference::edition::TABLE_PLACES;

use super::judged::{P9, P9_ROWS};
use super::plan_e::{memory_of, JOBS, ROWS};
use super::Cases;
use crate::both::{Both, Difference};
use crate::memory::Memory;
use crate::model::{DISCARDED, MET, MISSED, OPEN};
use crate::words::{CARRIED, JOB_COUNT, PLAN_WORDS, RUN_WORDS};

/// The first words of a run of two jobs: clock, both marks, units carried.
pub type Run = [u32; 5];

pub const STARTED: Run = [0, 0, 0, 0, 0];
pub const AT_THE_END: Run = [10, 0, 0, 6, 8];
pub const PAST_THE_END: Run = [11, 0, 0, 6, 8];

/// Plan E with a run; nothing is carried for other jobs, and no job has ended.
pub fn e_with(run: Run) -> Memory {
    let mut memory = memory_of(&JOBS, &ROWS);
    memory.run.put(0, &[0; RUN_WORDS]);
    memory.run.put(0, &run);
    memory
}

/// Takes a slot: the number, the grants of both jobs, and the run afterwards.
pub fn step(
    both: &mut Both,
    memory: &mut Memory,
    speed: u16,
) -> Result<(u32, [u32; 2], Run), Difference> {
    let number = both.step(memory, speed)?;
    let (grants, words) = (memory.grants.contents(), memory.run.contents());
    let mut run = STARTED;
    run.copy_from_slice(&words[..CARRIED + 2]);
    Ok((number, [grants[0], grants[1]], run))
}

/// Slots that are done, each with its speed, the grants and the run afterwards.
pub fn done(cases: &mut Cases) -> Result<(), String> {
    let slots: [(&str, Run, u16, [u32; 2], Run); 6] = [
        ("P10, first slot", STARTED, 2, [2, 0], [1, 0, 0, 2, 0]),
        (
            "P10, second slot",
            [1, 0, 0, 2, 0],
            2,
            [0, 2],
            [2, 0, 0, 2, 2],
        ),
        ("P11", STARTED, 1, [0, 0], [1, 1, 0, 0, 0]),
        ("speed 0", STARTED, 0, [0, 0], [1, 1, 1, 0, 0]),
        ("marks stay", [1, 1, 1, 0, 0], 2, [0, 2], [2, 1, 1, 0, 2]),
        ("last slot", [9, 1, 0, 0, 7], 1, [0, 1], [10, 1, 0, 0, 8]),
    ];
    for (case, run, speed, grants, after) in slots {
        let got = step(&mut cases.both, &mut e_with(run), speed);
        cases.expect(case, got, (0, grants, after))?;
    }
    let memory = &mut memory_of(&P9, &P9_ROWS);
    memory.run.put(0, &[0; RUN_WORDS]);
    let got = step(&mut cases.both, memory, 2);
    cases.expect("P9, first slot", got, (0, [0, 2], [1, 0, 0, 0, 2]))?;
    let got = step(&mut cases.both, memory, 1);
    cases.expect("P9, second slot", got, (0, [1, 0], [2, 1, 0, 1, 2]))
}

/// Holds a step to a refusal that leaves run and grants alone.
pub fn refused_step(
    cases: &mut Cases,
    case: &str,
    memory: &mut Memory,
    speed: u16,
    number: u32,
) -> Result<(), String> {
    let (run, grants) = (
        memory.run.contents().to_vec(),
        memory.grants.contents().to_vec(),
    );
    let got = cases.both.step(memory, speed);
    cases.expect(case, got, number)?;
    cases.expect(case, Ok(memory.run.contents()), &run)?;
    cases.expect(case, Ok(memory.grants.contents()), &grants)
}

/// Steps that are refused for the run, the clock or the speed.
pub fn refused(cases: &mut Cases) -> Result<(), String> {
    let steps = [
        ("P12", STARTED, 3, 20),
        ("at the last deadline", AT_THE_END, 2, 19),
        ("19 comes before 20", AT_THE_END, 3, 19),
        ("past the end", PAST_THE_END, 2, 21),
        ("more carried than the size", [1, 0, 0, 7, 0], 2, 21),
        ("slow mark 2", [1, 2, 0, 0, 0], 2, 21),
        ("below-floor mark 256", [1, 0, 256, 0, 0], 2, 21),
        ("21 comes before 20", PAST_THE_END, 3, 21),
    ];
    for (case, run, speed, number) in steps {
        refused_step(cases, case, &mut e_with(run), speed, number)?;
    }
    Ok(())
}

/// Steps with a short buffer. Table and grants are looked at after the run; the lengths of plan and
/// run come before everything.
pub fn shorts(cases: &mut Cases) -> Result<(), String> {
    for (case, run, number) in [
        ("table too short", STARTED, 22),
        ("22 comes before 19", AT_THE_END, 22),
        ("21 comes before 22", PAST_THE_END, 21),
    ] {
        let memory = &mut e_with(run);
        memory.table.lend(TABLE_PLACES - 1);
        refused_step(cases, case, memory, 2, number)?;
    }
    let memory = &mut e_with(STARTED);
    memory.grants.lend(1);
    refused_step(cases, "grants too short", memory, 2, 22)?;
    memory.plan.put(JOB_COUNT, &[33]);
    refused_step(cases, "grants too short for no plan", memory, 2, 21)?;
    memory.run.lend(RUN_WORDS - 1);
    refused_step(cases, "run too short", memory, 2, 22)?;
    memory.lend_all();
    memory.plan.lend(PLAN_WORDS - 1);
    refused_step(cases, "plan too short", memory, 2, 22)
}

/// Each outcome, and each refusal of it.
pub fn outcomes(cases: &mut Cases) -> Result<(), String> {
    let outcomes = [
        ("open", STARTED, 0, OPEN),
        ("met", AT_THE_END, 1, MET),
        ("discarded", [4, 1, 0, 2, 0], 0, DISCARDED),
        ("missed", [10, 1, 0, 2, 7], 1, MISSED),
        ("no such job", STARTED, 2, 21),
        ("position 2^32", STARTED, 1 << 32, 21),
        ("past the end", PAST_THE_END, 0, 21),
        ("slow mark 2", [1, 2, 0, 0, 0], 0, 21),
    ];
    for (case, run, position, number) in outcomes {
        let got = cases.both.outcome(&mut e_with(run), position);
        cases.expect(case, got, number)?;
    }
    let memory = &mut e_with(PAST_THE_END);
    memory.run.lend(RUN_WORDS - 1);
    let got = cases.both.outcome(memory, 0);
    cases.expect("outcome, run too short", got, 22)?;
    memory.lend_all();
    memory.plan.lend(PLAN_WORDS - 1);
    let got = cases.both.outcome(memory, 0);
    cases.expect("outcome, plan too short", got, 22)
}
