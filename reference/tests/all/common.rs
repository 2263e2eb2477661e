//! What several tests share: plan E as bytes written by hand and as a plan in hand, the jobs of P5, and
//! buffers.

use reference::edition::{HI, LO, TABLE_PLACES};
use reference::plan::{Job, Plan};
use reference::reader::reader;
use reference::refusal::{Refusal, GRADE, JOB_COUNT, NAME_BYTE, NAME_TWICE, RATES, TIMES_OR_SIZE};
use reference::run::Run;
use reference::slack::SlackFigure;

/// Where the parts of plan E's file stand.
pub const JOB_0: usize = 10;
pub const JOB_1: usize = 32;
pub const ROW_COUNT: usize = 54;
pub const ROW_0: usize = 56;
pub const ROW_1: usize = 71;
pub const ROW_2: usize = 86;
pub const ROW_3: usize = 101;

/// Plan E as a file, byte for byte.
pub fn e_file() -> Vec<u8> {
    let parts: [&[u8]; 14] = [
        &[1, 0, 0, 0, 111, 0, 2, 0, 1, 2],
        &[21],
        b"Mirror-A",
        &[0, 0, 0, 0, 0, 0, 0, 0, 6, 0, 0, 0, 5],
        &[21],
        b"mirror-A",
        &[1, 0, 0, 0, 1, 0, 0, 0, 8, 0, 0, 0, 10],
        &[0, 4],
        b"\x0EMirror-A",
        &[0, 0, 0, 0, 0, 2],
        b"\x0EMirror-A\x00\x01\x00\x00\x00\x04",
        b"\x0Emirror-A\x00\x01\x00\x00\x00\x04",
        b"\x0Emirror-A",
        &[0, 2, 0, 0, 0, 4],
    ];
    parts.concat()
}

/// Plan E's file with bytes replaced.
pub fn e_with(at: usize, bytes: &[u8]) -> Vec<u8> {
    replaced(e_file(), at, bytes)
}

pub fn replaced(mut file: Vec<u8>, at: usize, bytes: &[u8]) -> Vec<u8> {
    file[at..at + bytes.len()].copy_from_slice(bytes);
    file
}

/// The file with a length field that agrees with its bytes.
pub fn sealed(file: Vec<u8>) -> Vec<u8> {
    let length = (file.len() - 5) as u32;
    replaced(file, 1, &length.to_be_bytes())
}

/// The number that the reader answers, table and plan apart.
pub fn answer(file: &[u8]) -> u8 {
    reader(file, &mut table()).number
}

/// A table of zeros, exactly as long as needed.
pub fn table() -> Vec<u32> {
    vec![0; TABLE_PLACES]
}

/// A table with rows laid down by hand.
pub fn table_of(rows: &[&[u32]]) -> Vec<u32> {
    let mut table = table();
    for (i, row) in rows.iter().enumerate() {
        table[63 * i..63 * i + row.len()].copy_from_slice(row);
    }
    table
}

pub fn hi(name: &[u8; 8], release: u32, size: u64, deadline: u32) -> Job {
    Job {
        name: *name,
        grade: HI,
        release,
        size,
        deadline,
    }
}

pub fn lo(name: &[u8; 8], release: u32, size: u64, deadline: u32) -> Job {
    Job {
        name: *name,
        grade: LO,
        release,
        size,
        deadline,
    }
}

/// A plan with rates 2 and 1.
pub fn plan_of(jobs: &[Job]) -> Plan {
    let mut plan = Plan {
        n: 2,
        d: 1,
        count: jobs.len() as u64,
        ..Plan::zeros()
    };
    plan.jobs[..jobs.len()].copy_from_slice(jobs);
    plan
}

/// Plan E in hand.
pub fn e_plan() -> Plan {
    plan_of(&[lo(b"Mirror-A", 0, 6, 5), hi(b"mirror-A", 1, 8, 10)])
}

pub fn e_table() -> Vec<u32> {
    table_of(&[&[2, 4, 0], &[0, 4, 4]])
}

/// The jobs of P5, which have one release.
pub fn p5_plan() -> Plan {
    plan_of(&[
        hi(b"essent-1", 0, 8, 10),
        hi(b"essent-2", 0, 4, 16),
        lo(b"other--1", 0, 6, 4),
        lo(b"other--2", 0, 10, 12),
    ])
}

pub fn p5_table() -> Vec<u32> {
    table_of(&[&[2, 6, 0, 0], &[0, 0, 0, 4], &[6, 0, 0, 0], &[0, 6, 4, 0]])
}

/// The answer of a slack figure with its first pair.
pub fn least(slack: i64, interval: u64, deadline: u32) -> Result<SlackFigure, Refusal> {
    Ok(SlackFigure::Least {
        slack,
        interval,
        deadline,
    })
}

/// A run of plan E made by hand.
pub fn e_run(clock: u32, slow: bool, carried: [u32; 2]) -> Run {
    let mut run = Run {
        clock,
        slow,
        below_floor: false,
        carried: [0; 32],
        ended: [false; 32],
    };
    run.carried[..2].copy_from_slice(&carried);
    run
}

/// The run with the marks of ended jobs set at some places.
pub fn with_ended(mut run: Run, places: &[usize]) -> Run {
    for &place in places {
        run.ended[place] = true;
    }
    run
}

/// Each way to break one of the rules 4 to 9 in hand, with the rule's number.
pub fn broken_plans() -> Vec<(u8, Plan)> {
    let mut plans = Vec::new();
    let mut add = |rule: u8, change: &dyn Fn(&mut Plan)| {
        let mut plan = e_plan();
        change(&mut plan);
        plans.push((rule, plan));
    };
    add(RATES, &|plan| plan.d = 0);
    add(RATES, &|plan| plan.d = 2);
    add(RATES, &|plan| plan.n = 1_001);
    add(JOB_COUNT, &|plan| plan.count = 0);
    add(JOB_COUNT, &|plan| plan.count = 33);
    add(JOB_COUNT, &|plan| plan.count = 258);
    add(JOB_COUNT, &|plan| plan.count = (1 << 32) + 2);
    add(JOB_COUNT, &|plan| plan.count = u64::MAX);
    add(NAME_BYTE, &|plan| plan.jobs[0].name[7] = 0x20);
    add(NAME_BYTE, &|plan| plan.jobs[1].name[0] = 0x7F);
    add(NAME_TWICE, &|plan| plan.jobs[1].name = *b"Mirror-A");
    add(GRADE, &|plan| plan.jobs[0].grade = 2);
    add(GRADE, &|plan| plan.jobs[1].grade = 255);
    add(TIMES_OR_SIZE, &|plan| plan.jobs[0].release = 5);
    add(TIMES_OR_SIZE, &|plan| plan.jobs[1].deadline = 100_001);
    add(TIMES_OR_SIZE, &|plan| plan.jobs[0].size = 0);
    add(TIMES_OR_SIZE, &|plan| plan.jobs[1].size = 100_000_001);
    add(TIMES_OR_SIZE, &|plan| plan.jobs[1].size = (1 << 32) + 8);
    plans
}
