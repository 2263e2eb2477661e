//! Shifts that are refused, for each ground and in the order of the grounds: they change nothing.

use reference::edition::{MOST_SHIFT_SPEEDS, TABLE_PLACES};
use reference::generate::ShiftInput;

use super::ended::{broken_names, broken_words, e_with_ended, IN_THE_MIDDLE, WORDS_BEFORE};
use super::plan_e::{memory_of, LO};
use super::shifts::{hold, Slot};
use super::slots::{e_with, Run, AT_THE_END, PAST_THE_END, STARTED};
use super::Cases;
use crate::memory::{Memory, Shift};
use crate::words::{job_at, marks, NAME, PLAN_WORDS, RUN_WORDS};

/// One speed more than a shift may have.
const ONE_TOO_MANY: usize = MOST_SHIFT_SPEEDS + 1;

/// Speeds, and how many places for rows and numbers are lent with them.
type Lent<'a> = (&'a [u16], usize, usize);

/// Holds a shift to a refusal, or to an answer of 0, with which nothing changes.
fn leave(
    cases: &mut Cases,
    case: &str,
    memory: &mut Memory,
    (speeds, rows, numbers): Lent,
    number: u32,
) -> Result<(), String> {
    let run = memory.run.contents().to_vec();
    let speeds = speeds.to_vec();
    let shift = &mut Shift::of(&ShiftInput { speeds, rows, numbers });
    let got = cases.both.shift(memory, shift);
    cases.expect(case, got, number)?;
    cases.expect_list(case, memory.run.contents(), &run)?;
    cases.expect_list(case, shift.rows.contents(), &shift.rows.known_words())?;
    cases.expect_list(case, shift.numbers.contents(), &shift.numbers.known_words())
}

/// The same of two speeds, of which the second would be refused, of none, and of too many. The
/// outputs are long enough.
fn leave_all(
    cases: &mut Cases,
    case: &str,
    memory: &mut Memory,
    number: u32,
) -> Result<(), String> {
    for speeds in [&[2, 3][..], &[], &[2; ONE_TOO_MANY]] {
        leave(cases, case, memory, (speeds, 2 * speeds.len(), speeds.len()), number)?;
    }
    Ok(())
}

/// Plans and runs that are refused by 21, and too many speeds.
pub fn grounds(cases: &mut Cases) -> Result<(), String> {
    unsound_plans(cases)?;
    unsound_runs(cases)?;
    wrong_marks(cases)?;
    too_many(cases)
}

/// Rules 4, 5, 8 and 9; names are not looked at.
fn unsound_plans(cases: &mut Cases) -> Result<(), String> {
    for (case, at, word) in broken_words() {
        let memory = &mut e_with(IN_THE_MIDDLE);
        memory.plan.put(at, &[word]);
        leave_all(cases, &format!("shift, {}", case), memory, 21)?;
    }
    let slots: [Slot; 2] = [(2, 0, &[2, 0]), (3, 20, &[])];
    for (case, word) in broken_names() {
        let memory = &mut e_with(IN_THE_MIDDLE);
        memory.plan.put(job_at(1) + NAME, &[word]);
        hold(cases, &format!("shift, {}", case), memory, &slots, &[4, 0, 0, 4, 4])?;
    }
    Ok(())
}

fn unsound_runs(cases: &mut Cases) -> Result<(), String> {
    let runs: [(&str, Run, &[usize]); 5] = [
        ("shift, past the end", PAST_THE_END, &[]),
        ("shift, clock 2^32 - 1", [u32::MAX, 0, 0, 2, 4], &[]),
        ("shift, more carried than the first size", [3, 0, 0, 7, 4], &[]),
        ("shift, more carried than the second size", [3, 1, 0, 2, 9], &[]),
        ("shift, more carried for an ended job", [3, 0, 0, 7, 4], &[0]),
    ];
    for (case, run, ended) in runs {
        leave_all(cases, case, &mut e_with_ended(run, ended), 21)?;
    }
    let at = |clock: u32| {
        let mut memory = memory_of(&[(b"only-job", LO, 3, 2, 5)], &[&[2]]);
        memory.run.put(0, &[0; RUN_WORDS]);
        memory.run.put(0, &[clock]);
        memory
    };
    leave_all(cases, "shift before the first release", &mut at(2), 21)?;
    leave_all(cases, "shift after the last deadline", &mut at(6), 21)?;
    let first: [Slot; 2] = [(2, 0, &[2]), (2, 0, &[0])];
    hold(cases, "shift at the first release", &mut at(3), &first, &[5, 0, 0, 2])?;
    let last: [Slot; 2] = [(2, 19, &[]), (3, 19, &[])];
    hold(cases, "shift at the last deadline", &mut at(5), &last, &[5, 0, 0, 0])
}

/// A mark other than 0 and 1 at each place where a mark stands, past the count too.
fn wrong_marks(cases: &mut Cases) -> Result<(), String> {
    for at in marks() {
        for mark in [2, 256, 257, 1 << 16, 1 << 31, u32::MAX] {
            let case = format!("shift, mark {} at {}", mark, at);
            let memory = &mut e_with(IN_THE_MIDDLE);
            memory.run.put(at, &[mark]);
            leave_all(cases, &case, memory, 21)?;
        }
    }
    Ok(())
}

/// More speeds than 256, some of them as many as are allowed in fewer bits.
fn too_many(cases: &mut Cases) -> Result<(), String> {
    for count in [257, 258, 300, 511, 512, 513, 65_536, 65_537, 65_792] {
        let case = format!("{} speeds", count);
        let (slow, fast) = (vec![1; count], vec![3; count]);
        for (speeds, rows, numbers) in
            [(&slow, 2 * count, count), (&slow, 0, 0), (&fast, 2 * count, 0), (&fast, 0, count)]
        {
            for run in [STARTED, AT_THE_END] {
                leave(cases, &case, &mut e_with(run), (speeds, rows, numbers), 27)?;
            }
        }
    }
    Ok(())
}

/// Buffers that are too short, empty lists, and the order of the grounds.
pub fn rooms(cases: &mut Cases) -> Result<(), String> {
    outputs(cases)?;
    tables(cases)?;
    empty(cases)?;
    order(cases)?;
    plans_and_runs(cases)
}

/// Each output alone, and both. Refused speeds need their places too.
fn outputs(cases: &mut Cases) -> Result<(), String> {
    for (rows, numbers) in
        [(5, 3), (4, 3), (0, 3), (6, 2), (6, 0), (64, 2), (5, 64), (5, 2), (0, 0)]
    {
        let case = format!("shift into {} places and {} numbers", rows, numbers);
        for run in [STARTED, IN_THE_MIDDLE, AT_THE_END] {
            leave(cases, &case, &mut e_with(run), (&[2; 3], rows, numbers), 22)?;
            leave(cases, &case, &mut e_with(run), (&[2, 3, 3], rows, numbers), 22)?;
        }
    }
    let speeds = [2; MOST_SHIFT_SPEEDS];
    for (rows, numbers) in [(511, 256), (512, 255), (256, 256), (0, 256), (512, 0)] {
        let case = format!("256 speeds into {} places and {} numbers", rows, numbers);
        leave(cases, &case, &mut e_with(STARTED), (&speeds, rows, numbers), 22)?;
    }
    Ok(())
}

fn tables(cases: &mut Cases) -> Result<(), String> {
    for length in [0, 1, TABLE_PLACES - 1] {
        let case = format!("shift, table of {} places", length);
        for run in [STARTED, AT_THE_END] {
            let memory = &mut e_with(run);
            memory.table.lend(length);
            for lent in [(&[2, 3][..], 4, 2), (&[2, 3], 3, 1), (&[], 0, 0), (&[], 5, 5)] {
                leave(cases, &case, memory, lent, 22)?;
            }
        }
    }
    Ok(())
}

/// An empty list is done, be its outputs empty or not.
fn empty(cases: &mut Cases) -> Result<(), String> {
    for run in [STARTED, IN_THE_MIDDLE, AT_THE_END, [3, 1, 1, 2, 4]] {
        for (rows, numbers) in [(0, 0), (5, 0), (0, 5), (5, 5)] {
            let lent: Lent = (&[], rows, numbers);
            leave(cases, "shift without speeds", &mut e_with(run), lent, 0)?;
        }
    }
    Ok(())
}

/// 21, 27, 22: the first that holds.
fn order(cases: &mut Cases) -> Result<(), String> {
    let many: &[u16] = &[2; ONE_TOO_MANY];
    let unsound = [
        ("21 comes before 27", (many, 2 * ONE_TOO_MANY, ONE_TOO_MANY)),
        ("21 comes before 27 and 22", (many, 0, 0)),
        ("21 comes before 22 for the rows", (&[2], 1, 1)),
        ("21 comes before 22 for the numbers", (&[2], 2, 0)),
    ];
    let unsound_runs: [Run; 3] = [PAST_THE_END, [3, 0, 0, 7, 4], [3, 2, 0, 2, 4]];
    for (case, lent) in unsound {
        for run in unsound_runs {
            for table in [TABLE_PLACES, TABLE_PLACES - 1] {
                let memory = &mut e_with(run);
                memory.table.lend(table);
                leave(cases, case, memory, lent, 21)?;
            }
        }
    }
    for table in [TABLE_PLACES - 1, 0] {
        let memory = &mut e_with(STARTED);
        memory.table.lend(table);
        let lent = (many, 2 * ONE_TOO_MANY, ONE_TOO_MANY);
        leave(cases, "27 comes before 22 for the table", memory, lent, 27)?;
        leave(cases, "27 comes before 22 for everything", memory, (many, 0, 0), 27)?;
    }
    Ok(())
}

/// A plan or a run that is too short comes before everything.
fn plans_and_runs(cases: &mut Cases) -> Result<(), String> {
    let many: &[u16] = &[2; ONE_TOO_MANY];
    for run in [STARTED, PAST_THE_END, [3, 2, 0, 2, 4]] {
        for lent in [(&[2][..], 2, 1), (&[], 0, 0), (many, 0, 0)] {
            for length in [0, 1, WORDS_BEFORE, RUN_WORDS - 1] {
                let memory = &mut e_with(run);
                memory.run.lend(length);
                leave(cases, "shift, run too short", memory, lent, 22)?;
            }
            for length in [0, 1, PLAN_WORDS - 1] {
                let memory = &mut e_with(run);
                memory.plan.lend(length);
                leave(cases, "shift, plan too short", memory, lent, 22)?;
            }
        }
    }
    Ok(())
}
