//! The generated files: each refusal of the reader comes at every place at which it can come, and at no other.

use std::collections::{BTreeMap, BTreeSet};

use crate::common::table;
use reference::generate::{damaged_input, file, fixed_files, FileInput};
use reference::reader::reader;
use Which::{First, Last, Middle, Only};

const SEED: u64 = 7;
const DRAWN: u64 = 20_000;
/// How often each place has to come.
const LEAST: u64 = 10;
/// How many offsets a number has to have, if it is not bound to a single one.
const SEVERAL: usize = 20;

/// Which of the jobs or rows a field belongs to, if to any.
#[derive(Clone, Copy, Debug, PartialEq, Eq, PartialOrd, Ord)]
enum Which {
    Only,
    First,
    Middle,
    Last,
}

const EACH: &[Which] = &[First, Middle, Last];
/// The first job has no earlier one, the first row no row before it.
const LATER: &[Which] = &[Middle, Last];

/// Every number with every kind of field that it can be told of.
const PLACES: [(u8, &str, &[Which]); 30] = [
    (1, "version", &[Only]),
    (2, "length", &[Only]),
    (2, "n", &[Only]),
    (2, "d", &[Only]),
    (2, "job count", &[Only]),
    (2, "job length byte", EACH),
    (2, "job name", EACH),
    (2, "grade", EACH),
    (2, "release", EACH),
    (2, "size", EACH),
    (2, "deadline", EACH),
    (2, "row count", &[Only]),
    (2, "row length byte", EACH),
    (2, "row name", EACH),
    (2, "interval", EACH),
    (2, "units", EACH),
    (2, "leftover", &[Only]),
    (3, "job length byte", EACH),
    (3, "row length byte", EACH),
    (4, "n", &[Only]),
    (5, "job count", &[Only]),
    (6, "job name", EACH),
    (7, "job name", LATER),
    (8, "grade", EACH),
    (9, "release", EACH),
    (10, "row count", &[Only]),
    (11, "row name", EACH),
    (12, "interval", EACH),
    (13, "units", EACH),
    (14, "row length byte", LATER),
];

/// A refused file, the number and the offset.
struct Refused {
    file: Vec<u8>,
    number: u8,
    offset: usize,
}

/// All that are refused for what stands in them.
fn refused_files() -> Vec<Refused> {
    let drawn = (0..DRAWN).map(|number| file(SEED, number));
    refused_of(fixed_files().into_iter().chain(drawn))
}

fn refused_of(inputs: impl Iterator<Item = FileInput>) -> Vec<Refused> {
    let mut refused = Vec::new();
    for input in inputs {
        let answer = reader(&input.file, &mut table());
        assert_eq!(answer.number == 0, answer.offset.is_none());
        if let Some(offset) = answer.offset {
            refused.push(Refused {
                file: input.file,
                number: answer.number,
                offset,
            });
        }
    }
    refused
}

fn which(index: usize, count: usize) -> Which {
    if index == 0 {
        First
    } else if index + 1 == count {
        Last
    } else {
        Middle
    }
}

/// The field that begins at an offset.
fn field(file: &[u8], offset: usize) -> (&'static str, Which) {
    match offset {
        0 => ("version", Only),
        1 => ("length", Only),
        5 => ("n", Only),
        7 => ("d", Only),
        9 => ("job count", Only),
        _ => field_after_head(file, offset),
    }
}

/// The field of a job or a row, or the row count between them. Jobs have 22 bytes and rows 15.
fn field_after_head(file: &[u8], offset: usize) -> (&'static str, Which) {
    let jobs = usize::from(file[9]);
    let rows_at = 10 + 22 * jobs;
    if offset < rows_at {
        let kind = match (offset - 10) % 22 {
            0 => "job length byte",
            1 => "job name",
            9 => "grade",
            10 => "release",
            14 => "size",
            18 => "deadline",
            _ => panic!("no field begins at {}", offset),
        };
        return (kind, which((offset - 10) / 22, jobs));
    }
    if offset == rows_at {
        return ("row count", Only);
    }
    let rows = 256 * usize::from(file[rows_at]) + usize::from(file[rows_at + 1]);
    if offset == rows_at + 2 + 15 * rows {
        return ("leftover", Only);
    }
    let kind = match (offset - rows_at - 2) % 15 {
        0 => "row length byte",
        1 => "row name",
        9 => "interval",
        11 => "units",
        _ => panic!("no field begins at {}", offset),
    };
    (kind, which((offset - rows_at - 2) / 15, rows))
}

fn assert_all_places(files: Vec<Refused>) {
    let mut found = BTreeMap::new();
    for refused in files {
        let (kind, which) = field(&refused.file, refused.offset);
        *found.entry((refused.number, kind, which)).or_insert(0) += 1;
    }
    let mut expected = BTreeSet::new();
    for (number, kind, places) in PLACES {
        expected.extend(places.iter().map(|&which| (number, kind, which)));
    }
    let places: BTreeSet<_> = found.keys().copied().collect();
    assert_eq!(places, expected);
    assert!(found.values().all(|&count| count >= LEAST), "{:?}", found);
}

#[test]
fn each_number_comes_at_all_its_places_and_at_no_other() {
    assert_all_places(refused_files());
}

#[test]
fn damaged_inputs_are_all_refused_and_at_all_places() {
    let refused = refused_of((0..DRAWN).map(|number| damaged_input(SEED, number)));
    assert_eq!(refused.len() as u64, DRAWN);
    assert_all_places(refused);
}

#[test]
fn offsets_are_many_where_they_can_be() {
    let mut offsets = BTreeMap::new();
    for refused in refused_files() {
        let of_number: &mut BTreeSet<usize> = offsets.entry(refused.number).or_default();
        of_number.insert(refused.offset);
    }
    let numbers: Vec<u8> = offsets.keys().copied().collect();
    assert_eq!(numbers, (1..=14).collect::<Vec<u8>>());
    // Version, rates and job count stand at the same place in every file.
    for (number, only) in [(1, 0), (4, 5), (5, 9)] {
        assert_eq!(offsets.remove(&number), Some(BTreeSet::from([only])));
    }
    for (number, offsets) in offsets {
        assert!(offsets.len() >= SEVERAL, "{}: {:?}", number, offsets);
    }
}

#[test]
fn offsets_lie_in_the_file_or_at_the_end_of_one_cut_short() {
    let (mut inside, mut at_end) = (0, 0);
    for refused in refused_files() {
        let length = refused.file.len();
        if refused.offset < length {
            inside += 1;
        } else {
            assert_eq!(refused.offset, length);
            assert!(refused.number == 2 || (refused.number == 1 && length == 0));
            at_end += 1;
        }
    }
    assert!(inside >= 3_000 && at_end >= 300, "{} {}", inside, at_end);
}
