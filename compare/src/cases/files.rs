//! Reading files, and names in them.

use reference::edition::TABLE_PLACES;

use super::plan_e::{
    cut_at, memory, table, with, with_row_again, words, COUNT, DEADLINE_IN, END, FILE, GRADE_IN,
    INTERVAL_IN, JOBS, JOB_0, JOB_1, LENGTH, NAME_IN, RATES, RELEASE_IN, ROWS, ROW_0, ROW_1, ROW_2,
    ROW_3, ROW_COUNT, SIZE_IN, UNITS_IN,
};
use super::Cases;
use crate::buffer::Buffer;
use crate::words::PLAN_WORDS;

/// Reads a file and expects a number and an offset, and the plan and the table that come with them.
fn read_as(
    cases: &mut Cases,
    case: &str,
    file: &[u8],
    number: u32,
    offset: usize,
) -> Result<(), String> {
    let mut memory = memory();
    let got = cases
        .both
        .read(&mut Buffer::of("file", file, file.len()), &mut memory);
    cases.expect(case, got, number)?;
    cases.expect(case, Ok(memory.offset.contents()[0]), offset)?;
    let (plan, places) = match number {
        0 => (words(2, 1, &JOBS), table(&ROWS)),
        _ => (vec![0; PLAN_WORDS], vec![0; TABLE_PLACES]),
    };
    cases.expect(case, Ok(&memory.plan.contents()[..PLAN_WORDS]), &plan)?;
    cases.expect(case, Ok(memory.own_places()), &places)
}

/// A file, the number that the reader gives it, and where it is wrong.
type FileCase = (&'static str, Vec<u8>, u32, usize);

/// Plan E with some bytes replaced.
fn wrong(case: &'static str, at: usize, bytes: &[u8], number: u32, offset: usize) -> FileCase {
    (case, with(at, bytes), number, offset)
}

/// Plan E, and faults before the rows.
fn heads_and_jobs() -> Vec<FileCase> {
    let (first, second) = (JOB_0 + RELEASE_IN, JOB_1 + RELEASE_IN);
    vec![
        ("plan E", FILE.to_vec(), 0, 0),
        ("empty file", Vec::new(), 1, 0),
        wrong("version 2", 0, &[2], 1, 0),
        ("version byte alone", vec![1], 2, LENGTH),
        ("a byte too few", FILE[..END - 1].to_vec(), 2, LENGTH),
        wrong("length field one more", LENGTH, &[0, 0, 0, 112], 2, LENGTH),
        wrong("job length 22", JOB_0, &[22], 3, JOB_0),
        wrong("rates 2, 2", RATES, &[0, 2, 0, 2], 4, RATES),
        wrong("rates 2, 0", RATES, &[0, 2, 0, 0], 4, RATES),
        wrong("rates 1001, 1", RATES, &[3, 233], 4, RATES),
        wrong("job count 0", COUNT, &[0], 5, COUNT),
        wrong("job count 33", COUNT, &[33], 5, COUNT),
        wrong("name with a space", JOB_0 + NAME_IN + 6, b" ", 6, JOB_0 + NAME_IN),
        wrong("name twice", JOB_1 + NAME_IN, b"M", 7, JOB_1 + NAME_IN),
        wrong("grade 2", JOB_1 + GRADE_IN, &[2], 8, JOB_1 + GRADE_IN),
        wrong("release at the deadline", JOB_0 + RELEASE_IN, &[0, 0, 0, 5], 9, first),
        wrong("size 0", JOB_0 + SIZE_IN, &[0; 4], 9, first),
        wrong("deadline 0", JOB_0 + DEADLINE_IN, &[0; 4], 9, first),
        wrong("deadline too late", JOB_1 + DEADLINE_IN, &[0, 1, 134, 161], 9, second),
    ]
}

/// Faults of the rows, and bytes after them.
fn rows() -> Vec<FileCase> {
    let longer = [&with(LENGTH, &[0, 0, 0, 112])[..], &[14]].concat();
    vec![
        ("a byte too many", longer, 2, END),
        wrong("a row too many", ROW_COUNT, &[0, 3], 2, ROW_3),
        wrong("row length 13", ROW_3, &[13], 3, ROW_3),
        wrong("row count 2017", ROW_COUNT, &[7, 225], 10, ROW_COUNT),
        wrong("row of MIRROR-A", ROW_0 + NAME_IN, b"MIRROR-A", 11, ROW_0 + NAME_IN),
        wrong("row of interval 3", ROW_3 + INTERVAL_IN, &[0, 3], 12, ROW_3 + INTERVAL_IN),
        wrong("row of 0 units", ROW_1 + UNITS_IN, &[0; 4], 13, ROW_1 + UNITS_IN),
        wrong("row of the interval before", ROW_1 + INTERVAL_IN, &[0, 0], 14, ROW_1),
        wrong("row of the job before", ROW_3 + NAME_IN, b"Mirror-A", 14, ROW_3),
    ]
}

/// Files that end early with a length field that agrees: wrong is the first field that is not whole.
fn cuts() -> Vec<FileCase> {
    let cut = |case, length, offset| (case, cut_at(length), 2, offset);
    vec![
        cut("cut before the rates", RATES, RATES),
        cut("cut in the normal rate", RATES + 1, RATES),
        cut("cut before the floor", RATES + 2, RATES + 2),
        cut("cut before the job count", COUNT, COUNT),
        cut("cut before a job", JOB_1, JOB_1),
        cut("cut in a name", JOB_1 + NAME_IN + 7, JOB_1 + NAME_IN),
        cut("cut before a grade", JOB_1 + GRADE_IN, JOB_1 + GRADE_IN),
        cut("cut in a release", JOB_1 + RELEASE_IN + 3, JOB_1 + RELEASE_IN),
        cut("cut before a size", JOB_1 + SIZE_IN, JOB_1 + SIZE_IN),
        cut("cut in a deadline", JOB_1 + DEADLINE_IN + 1, JOB_1 + DEADLINE_IN),
        cut("cut in the row count", ROW_COUNT + 1, ROW_COUNT),
        cut("cut before a row", ROW_3, ROW_3),
        cut("cut in a row's name", ROW_3 + NAME_IN + 2, ROW_3 + NAME_IN),
        cut("cut in an interval", ROW_3 + INTERVAL_IN + 1, ROW_3 + INTERVAL_IN),
        cut("cut in the last units", END - 1, ROW_3 + UNITS_IN),
    ]
}

/// Each refusal of the reader but 22, at each kind of field that it is told of.
pub fn read(cases: &mut Cases) -> Result<(), String> {
    for (case, file, number, offset) in [heads_and_jobs(), rows(), cuts()].concat() {
        read_as(cases, case, &file, number, offset)?;
    }
    Ok(())
}

/// A plan that is too short stays, and so does a table; beside that the plan is all zeros. The offset
/// stays with the plan, and is 0 for a table that is too short, also where the file is wrong.
pub fn shorts(cases: &mut Cases) -> Result<(), String> {
    for file in [FILE.to_vec(), with(JOB_0, &[22])] {
        short(cases, &mut Buffer::of("file", &file, END))?;
    }
    Ok(())
}

fn short(cases: &mut Cases, file: &mut Buffer<u8>) -> Result<(), String> {
    let (mut memory, untouched) = (memory(), memory());
    memory.plan.lend(PLAN_WORDS - 1);
    let case = "read, plan too short";
    let got = cases.both.read(file, &mut memory);
    cases.expect(case, got, 22)?;
    let (plan, offset) = (memory.plan.contents(), memory.offset.contents());
    cases.expect(case, Ok(plan), untouched.plan.contents())?;
    cases.expect(case, Ok(offset), untouched.offset.contents())?;
    memory.lend_all();
    memory.table.lend(TABLE_PLACES - 1);
    let case = "read, table too short";
    let got = cases.both.read(file, &mut memory);
    cases.expect(case, got, 22)?;
    cases.expect(case, Ok(memory.own_places()), untouched.own_places())?;
    let plan = &memory.plan.contents()[..PLAN_WORDS];
    cases.expect(case, Ok(plan), &[0; PLAN_WORDS])?;
    cases.expect(case, Ok(memory.offset.contents()), &[0])
}

/// A row that stands twice is 14, unless it has another fault, which is found before. The second of
/// the two stands where row 2 stood.
pub fn rows_again(cases: &mut Cases) -> Result<(), String> {
    let again = |case, at, bytes: &[u8], number, offset| {
        (case, with_row_again(at, bytes), number, ROW_2 + offset)
    };
    let files: [FileCase; 6] = [
        again("row again", 0, &[], 14, 0),
        again("row again, other units", UNITS_IN, &[0, 0, 0, 9], 14, 0),
        again("row again, 0 units", UNITS_IN, &[0; 4], 13, UNITS_IN),
        again("row again, interval 3", INTERVAL_IN, &[0, 3], 12, INTERVAL_IN),
        again("row again, no job's name", NAME_IN, b"MIRROR-A", 11, NAME_IN),
        again("row again, length 13", 0, &[13], 3, 0),
    ];
    for (case, file, number, offset) in files {
        read_as(cases, case, &file, number, offset)?;
    }
    Ok(())
}

/// Names of plan E, and none of a file that is refused for its last byte alone.
pub fn names(cases: &mut Cases) -> Result<(), String> {
    let positions = [
        (0, JOB_0 + NAME_IN),
        (1, JOB_1 + NAME_IN),
        (2, 0),
        (1 << 32, 0),
        (usize::MAX, 0),
    ];
    for (position, begins) in positions {
        let got = cases
            .both
            .name(&mut Buffer::of("file", FILE, END), position);
        cases.expect("name", got, begins)?;
    }
    let file = with(ROW_3 + UNITS_IN, &[0; 4]);
    let got = cases
        .both
        .name(&mut Buffer::of("file", &file, file.len()), 0);
    cases.expect("name in a refused file", got, 0)
}
