//! The desk: timetables, refusals with their pairs, what stays, and the order of the grounds.

use reference::edition::{MOST_JOBS, TABLE_PLACES};
use reference::generate::{Lent, Prng, Purpose};

use super::ended::{broken_names, broken_words};
use super::judged::{P5, P5_ROWS};
use super::plan_e::{table, words, Job, HI, JOBS, LO};
use super::Cases;
use crate::buffer::Buffer;
use crate::inputs::ENOUGH;
use crate::memory::Memory;
use crate::words::{job_at, DEADLINE, JOB_COUNT, NAME, PAIR_WORDS, PLAN_WORDS, RELEASE, SIZE};

/// Two times, what is asked by them and what the link carries; zeros where there is no such pair.
type Pair = [u64; PAIR_WORDS];
const NO_PAIR: Pair = [0; PAIR_WORDS];

/// Places beyond the table's own, and words beyond a pair.
const SPARE: usize = 5;

/// Memory with a plan and a table of known words.
fn desk_at(n: u64, d: u64, jobs: &[Job]) -> Memory {
    let lent = Lent { table: TABLE_PLACES + SPARE, ..ENOUGH };
    let mut memory = Memory::known(&mut Prng::new(1, Purpose::Lending, 0), &lent);
    memory.pair = Buffer::known("pair", PAIR_WORDS + SPARE);
    memory.plan.put(0, &words(n, d, jobs));
    memory
}

fn desk_of(jobs: &[Job]) -> Memory {
    desk_at(2, 1, jobs)
}

/// The plan of P5 with one word of one job replaced.
fn p5_with(position: usize, word: usize, value: u64) -> Memory {
    let mut memory = desk_of(&P5);
    memory.plan.put(job_at(position) + word, &[value]);
    memory
}

/// Holds both calls to a number. Without rows the table stays; places beyond its own always do.
fn hold(
    cases: &mut Cases,
    case: &str,
    memory: &mut Memory,
    number: u32,
    (rows, pair): (Option<&[&[u32]]>, Pair),
) -> Result<(), String> {
    let mut expected = memory.table.contents().to_vec();
    if let Some(rows) = rows {
        expected[..TABLE_PLACES].copy_from_slice(&table(rows));
    }
    let plan = memory.plan.contents().to_vec();
    let got = cases.both.draw(memory);
    cases.expect(case, got, number)?;
    cases.expect_list(case, memory.table.contents(), &expected)?;
    let got = cases.both.shortage(memory);
    cases.expect(case, got, number)?;
    cases.expect(case, Ok(&memory.pair.contents()[..PAIR_WORDS]), &pair)?;
    let known = &memory.pair.known_words()[PAIR_WORDS..];
    cases.expect(case, Ok(&memory.pair.contents()[PAIR_WORDS..]), known)?;
    cases.expect_list(case, memory.plan.contents(), &plan)
}

/// A timetable, which the judge accepts.
fn hold_rows(
    cases: &mut Cases,
    case: &str,
    memory: &mut Memory,
    rows: &[&[u32]],
) -> Result<(), String> {
    hold(cases, case, memory, 0, (Some(rows), NO_PAIR))?;
    let got = cases.both.judge(memory);
    cases.expect(case, got, 0)
}

fn hold_short(
    cases: &mut Cases,
    case: &str,
    memory: &mut Memory,
    pair: Pair,
) -> Result<(), String> {
    hold(cases, case, memory, 29, (Some(&[]), pair))
}

fn hold_parted(cases: &mut Cases, case: &str, memory: &mut Memory) -> Result<(), String> {
    hold(cases, case, memory, 28, (Some(&[]), NO_PAIR))
}

fn hold_unsound(cases: &mut Cases, case: &str, memory: &mut Memory) -> Result<(), String> {
    hold(cases, case, memory, 21, (None, NO_PAIR))
}

/// What is drawn up for jobs of rates 2 and 1.
type Timetable = (&'static str, &'static [Job], &'static [&'static [u32]]);

const TIMETABLES: [Timetable; 11] = [
    ("P5", &P5, &P5_ROWS),
    ("one LO job at the normal rate", &[(b"only-job", LO, 3, 14, 10)], &[&[14]]),
    ("one HI job at the floor", &[(b"only-job", HI, 3, 7, 10)], &[&[7]]),
    ("one unit in one slot", &[(b"only-job", HI, 99_999, 1, 100_000)], &[&[1]]),
    (
        "latest LO deadline first",
        &[(b"middle--", LO, 0, 2, 2), (b"latest--", LO, 0, 3, 3), (b"earliest", HI, 0, 1, 1)],
        &[&[1, 1, 0], &[0, 1, 2], &[1, 0, 0]],
    ),
    (
        "LO job behind full intervals",
        &[
            (b"latest--", LO, 0, 6, 4),
            (b"before--", LO, 0, 1, 3),
            (b"earliest", HI, 0, 1, 1),
            (b"last-hi-", HI, 0, 1, 5),
        ],
        &[&[0, 4, 2, 0], &[1], &[1], &[0, 0, 0, 1]],
    ),
    (
        "LO job before its deadline",
        &[(b"early-lo", LO, 0, 2, 1), (b"later-hi", HI, 0, 2, 9)],
        &[&[2, 0], &[0, 2]],
    ),
    (
        "equal LO deadlines",
        &[(b"lo-no--1", LO, 0, 2, 2), (b"early-hi", HI, 0, 1, 1), (b"lo-no--2", LO, 0, 1, 2)],
        &[&[1, 1], &[1, 0], &[0, 1]],
    ),
    (
        "equal HI deadlines",
        &[(b"hi-no--2", HI, 0, 2, 4), (b"early-lo", LO, 0, 1, 1), (b"hi-no--1", HI, 0, 2, 4)],
        &[&[1, 1], &[1, 0], &[0, 2]],
    ),
    (
        "earliest HI deadline first",
        &[(b"later-hi", HI, 0, 2, 4), (b"early-lo", LO, 0, 1, 1), (b"early-hi", HI, 0, 1, 1)],
        &[&[0, 2], &[1, 0], &[1, 0]],
    ),
    (
        "HI job on both sides of a LO job",
        &[(b"first-lo", LO, 0, 1, 2), (b"only--hi", HI, 0, 5, 8), (b"secondlo", LO, 0, 4, 4)],
        &[&[1, 0, 0], &[3, 0, 2], &[0, 4, 0]],
    ),
];

/// Timetables, each drawn up twice: over known words, and over itself.
pub fn timetables(cases: &mut Cases) -> Result<(), String> {
    for (case, jobs, rows) in TIMETABLES {
        let memory = &mut desk_of(jobs);
        hold_rows(cases, case, memory, rows)?;
        hold_rows(cases, case, memory, rows)?;
    }
    let memory = &mut desk_of(&P5);
    memory.table.lend(TABLE_PLACES);
    memory.plan.lend(PLAN_WORDS);
    memory.pair.lend(PAIR_WORDS);
    hold_rows(cases, "P5 in just enough places", memory, &P5_ROWS)?;
    let memory = &mut desk_of(&P5);
    memory.plan.put(job_at(4), &[u64::MAX; PLAN_WORDS - 23]);
    hold_rows(cases, "rubbish from the count on", memory, &P5_ROWS)?;
    memory.plan.put(JOB_COUNT, &[2]);
    hold_rows(cases, "the first two jobs of P5 alone", memory, &[&[8, 0], &[4, 0]])?;
    let later = P5.map(|(name, grade, _, size, due)| (name, grade, 99_984, size, due + 99_984));
    hold_rows(cases, "P5 at the end of time", &mut desk_of(&later), &P5_ROWS)?;
    let memory = &mut desk_at(1_000, 999, &[(b"only-job", LO, 0, 100_000_000, 100_000)]);
    hold_rows(cases, "greatest size of all", memory, &[&[100_000_000]])?;
    let memory = &mut desk_at(1_000, 999, &[(b"only-job", HI, 0, 99_900_000, 100_000)]);
    hold_rows(cases, "greatest size of a HI job", memory, &[&[99_900_000]])
}

/// The most jobs, of which the last is due first: two of them in a slot, or each in its own.
pub fn most_jobs(cases: &mut Cases) -> Result<(), String> {
    let mut names = [[b'-'; 8]; MOST_JOBS];
    names.iter_mut().zip(b'A'..).for_each(|(name, last)| name[7] = last);
    for (grade, size) in [(HI, 1), (LO, 2)] {
        let memory = &mut desk_of(&[]);
        memory.plan.put(JOB_COUNT, &[MOST_JOBS as u64]);
        for (i, name) in names.iter().enumerate() {
            let name = u64::from_be_bytes(*name);
            memory.plan.put(job_at(i), &[name, grade, 5, size, 37 - i as u64]);
        }
        let place = |i: usize| if grade == HI { (31 - i) / 2 } else { 31 - i };
        let row = |i: usize| [vec![0; place(i)], vec![size as u32]].concat();
        let rows: Vec<Vec<u32>> = (0..MOST_JOBS).map(row).collect();
        let rows: Vec<&[u32]> = rows.iter().map(Vec::as_slice).collect();
        hold_rows(cases, "32 jobs", memory, &rows)?;
        memory.plan.put(job_at(MOST_JOBS - 1) + RELEASE, &[4]);
        hold_parted(cases, "32 jobs, the last one released earlier", memory)?;
    }
    Ok(())
}

/// Jobs without a timetable, each with the first pair that asks for too much.
pub fn short_pairs(cases: &mut Cases) -> Result<(), String> {
    let heavy: Job = (b"heavy-hi", HI, 0, 9, 4);
    let early: Job = (b"early-hi", HI, 0, 1, 1);
    let late: Job = (b"heavy-lo", LO, 0, 16, 8);
    let others: [Job; 2] = [(b"lo-no--1", LO, 0, 2, 2), (b"lo-no--2", LO, 0, 2, 1)];
    let light: Job = (b"light-hi", HI, 0, 4, 4);
    let short: [(&str, &[Job], Pair); 9] = [
        ("LO job above the normal rate", &[(b"only-job", LO, 3, 15, 10)], [3, 10, 15, 14]),
        ("HI job above the floor", &[(b"only-job", HI, 3, 8, 10)], [10, 3, 8, 7]),
        ("either rate alone is enough", &[(b"early-lo", LO, 0, 2, 1), light], [4, 1, 6, 5]),
        ("lower HI time first", &[heavy, (b"early-hi", HI, 0, 3, 2)], [2, 0, 3, 2]),
        ("release before all HI times", &[heavy, (b"heavy-lo", LO, 0, 20, 8)], [0, 8, 20, 16]),
        ("late LO time of the lower HI time", &[heavy, early, late], [1, 8, 17, 16]),
        ("lower LO time first", &[light, others[0], others[1]], [4, 1, 6, 5]),
        ("release before all LO times", &[heavy, others[0], others[1]], [4, 0, 9, 4]),
        (
            "LO time between two HI times",
            &[(b"first-hi", HI, 0, 1, 1), (b"only--lo", LO, 0, 3, 2), (b"last--hi", HI, 0, 4, 5)],
            [5, 2, 8, 7],
        ),
    ];
    for (case, jobs, pair) in short {
        hold_short(cases, case, &mut desk_of(jobs), pair)?;
    }
    for (position, size, pair) in [
        (0, 9, [10, 4, 15, 14]),
        (1, 5, [16, 12, 29, 28]),
        (2, 7, [10, 4, 15, 14]),
        (3, 11, [10, 12, 25, 24]),
        (3, 14, [10, 12, 28, 24]),
        (3, 100_000_000, [0, 12, 100_000_006, 24]),
    ] {
        let case = format!("P5 with size {} of job {}", size, position);
        hold_short(cases, &case, &mut p5_with(position, SIZE, size), pair)?;
    }
    great_sums(cases)
}

/// As many of the greatest sizes as there may be.
fn great_sums(cases: &mut Cases) -> Result<(), String> {
    for (grade, pair) in [
        (LO, [0, 100_000, 3_200_000_000, 100_000_000]),
        (HI, [100_000, 0, 3_200_000_000, 99_900_000]),
    ] {
        let memory = &mut desk_at(1_000, 999, &[]);
        memory.plan.put(JOB_COUNT, &[MOST_JOBS as u64]);
        for i in 0..MOST_JOBS {
            let name = u64::from_be_bytes(*b"great--A") + i as u64;
            memory.plan.put(job_at(i), &[name, grade, 0, 100_000_000, 100_000]);
        }
        hold_short(cases, "32 times the greatest size", memory, pair)?;
    }
    let memory = &mut desk_at(999, 1, &[(b"only-job", LO, 0, 100_000_000, 100_000)]);
    hold_short(
        cases,
        "greatest size, too slow a link",
        memory,
        [0, 100_000, 100_000_000, 99_900_000],
    )
}

/// Releases that differ, and plans that break a rule; the earlier ground counts.
pub fn refused(cases: &mut Cases) -> Result<(), String> {
    hold_parted(cases, "plan E", &mut desk_of(&JOBS))?;
    for position in 0..P5.len() {
        let case = format!("P5, job {} released later", position);
        let memory = &mut p5_with(position, RELEASE, 1);
        hold_parted(cases, &case, memory)?;
        memory.plan.put(job_at(3) + SIZE, &[100_000_000]);
        hold_parted(cases, "28 comes before 29", memory)?;
    }
    for (case, at, word) in broken_words() {
        let memory = &mut desk_of(&JOBS);
        memory.plan.put(at, &[word]);
        hold_unsound(cases, case, memory)?;
    }
    for (case, word) in broken_names() {
        let memory = &mut desk_of(&JOBS);
        memory.plan.put(job_at(1) + NAME, &[word]);
        hold_unsound(cases, case, memory)?;
    }
    let memory = &mut p5_with(0, SIZE, 100_000_000);
    memory.plan.put(job_at(3) + DEADLINE, &[0]);
    hold_unsound(cases, "21 comes before 29", memory)?;
    let mut memory = desk_of(&[]);
    memory.plan.put(0, &[0; PLAN_WORDS]);
    hold_unsound(cases, "a plan of zeros", &mut memory)
}

/// A plan, a table or a pair that is too short comes before everything, and leaves everything.
pub fn shorts(cases: &mut Cases) -> Result<(), String> {
    let with_table = [0, 1, 63, TABLE_PLACES - 1].map(|length| (PLAN_WORDS, length));
    let with_plan = [0, 1, PLAN_WORDS - 1].map(|length| (length, TABLE_PLACES));
    for (plan, table) in with_table.into_iter().chain(with_plan) {
        for memory in &mut grounds() {
            memory.plan.lend(plan);
            memory.table.lend(table);
            let before = memory.table.known_words();
            let case = format!("draw, {} words of {} places", plan, table);
            let got = cases.both.draw(memory);
            cases.expect(&case, got, 22)?;
            cases.expect_list(&case, memory.table.contents(), &before)?;
        }
    }
    let with_pair = [0, 1, 2, 3].map(|length| (PLAN_WORDS, length));
    let with_plan = [0, 1, PLAN_WORDS - 1].map(|length| (length, PAIR_WORDS));
    for (plan, pair) in with_pair.into_iter().chain(with_plan) {
        for memory in &mut grounds() {
            memory.plan.lend(plan);
            memory.pair.lend(pair);
            let before = memory.pair.known_words();
            let case = format!("shortage, {} words of a plan and {} of a pair", plan, pair);
            let got = cases.both.shortage(memory);
            cases.expect(&case, got, 22)?;
            cases.expect(&case, Ok(memory.pair.contents()), &before)?;
        }
    }
    Ok(())
}

/// Desks that are answered 0, 29, 28 and 21 if all that they need is lent.
fn grounds() -> [Memory; 4] {
    let unsound = p5_with(1, SIZE, 0);
    [desk_of(&P5), p5_with(0, SIZE, 9), desk_of(&JOBS), unsound]
}
