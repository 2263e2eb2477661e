//! The generated job lists and their texts: the same for the same seed, each refusal at all its places,
//! and right texts that import to the jobs they were made of.

use std::collections::{BTreeMap, BTreeSet};

use reference::generate::{fixed_lists, fixed_texts, job_list, job_text, quoted_list, ListInput};
use reference::joblist::{export, import, text_of, JobList};
use reference::plan::{
    count_holds, grade_holds, name_bytes_hold, name_is_new, times_and_size_hold,
};
use reference::reader::Fault;
use Which::{First, Last, Middle};

const SEED: u64 = 7;
const DRAWN: u64 = 20_000;
/// How often each shape has to come.
const LEAST: u64 = 10;
/// The header's line.
const HEADER: usize = 34;
const MARK: u8 = 0xEE;

/// Which of the lines a refusal is told of.
#[derive(Clone, Copy, Debug, PartialEq, Eq, PartialOrd, Ord)]
enum Which {
    First,
    Middle,
    Last,
}

fn drawn_texts() -> Vec<Vec<u8>> {
    (0..DRAWN).map(|number| job_text(SEED, number)).collect()
}

fn drawn_lists() -> Vec<ListInput> {
    (0..DRAWN).map(|number| job_list(SEED, number)).collect()
}

/// Where lines begin: after the header and after each line that is taken, up to a place.
fn line_starts(text: &[u8], last: usize) -> Vec<usize> {
    let mut starts = vec![HEADER];
    for place in HEADER + 1..=last {
        if text[..place].ends_with(b"\r\n") && import(&text[..place]).is_ok() {
            starts.push(place);
        }
    }
    starts
}

/// Of all that is refused, how often each number comes at each kind of line.
fn places(texts: &[Vec<u8>]) -> BTreeMap<(u8, Which), u64> {
    let mut places = BTreeMap::new();
    for text in texts {
        if let Err(fault) = import(text) {
            if fault.number != 24 {
                let line = line_starts(text, fault.offset).len() - 1;
                // The last of the lines is the one that no break follows.
                let offset = fault.offset.min(text.len() - 1);
                let more = text[offset..].windows(2).filter(|two| two == b"\r\n");
                let which = match (line, more.count()) {
                    (0, _) => First,
                    (_, 0 | 1) => Last,
                    _ => Middle,
                };
                *places.entry((fault.number, which)).or_insert(0) += 1;
            }
        }
    }
    places
}

fn assert_all_places(texts: &[Vec<u8>]) {
    let places = places(texts);
    let found: BTreeSet<_> = places.keys().copied().collect();
    let mut expected = BTreeSet::new();
    for number in [5, 6, 7, 8, 9, 23] {
        expected.extend([(number, First), (number, Middle), (number, Last)]);
    }
    // The first line has no earlier name.
    expected.remove(&(7, First));
    assert_eq!(found, expected);
    assert!(places.values().all(|&count| count >= LEAST), "{:?}", places);
}

#[test]
fn same_seed_gives_the_same_lists_and_another_seed_does_not() {
    let all = |seed| {
        let numbers = || 0..300;
        let texts: Vec<_> = numbers().map(|number| job_text(seed, number)).collect();
        let lists: Vec<_> = numbers().map(|number| job_list(seed, number)).collect();
        let quoted: Vec<_> = numbers().map(|number| quoted_list(seed, number)).collect();
        (texts, lists, quoted)
    };
    let (first, again, other) = (all(1), all(1), all(2));
    assert!(first == again);
    assert!(first.0 != other.0 && first.1 != other.1 && first.2 != other.2);
    assert!(fixed_texts() == fixed_texts() && fixed_lists() == fixed_lists());
}

#[test]
fn quoted_lists_import_to_the_jobs_they_were_made_of() {
    let mut lengths = [0; 33];
    let (mut longer, mut commas, mut quotes) = (0, 0, 0);
    for number in 0..DRAWN {
        let (jobs, text) = quoted_list(SEED, number);
        let list = JobList::of(&jobs);
        lengths[jobs.len()] += 1;
        longer += u64::from(text.len() > text_of(&list).unwrap().len());
        commas += u64::from(jobs.iter().any(|job| job.name.contains(&b',')));
        quotes += u64::from(jobs.iter().any(|job| job.name.contains(&b'"')));
        assert_eq!(import(&text), Ok(jobs), "{}", number);
    }
    assert!(lengths[1..].iter().all(|&count| count > 0), "{:?}", lengths);
    assert!(lengths[32] >= LEAST);
    assert!(2 * longer > DRAWN && 2 * commas > DRAWN && 2 * quotes > DRAWN);
}

#[test]
fn each_number_of_import_comes_often() {
    for texts in [drawn_texts(), fixed_texts()] {
        let mut numbers = BTreeMap::new();
        for text in texts {
            let number = import(&text).map_or_else(|fault| fault.number, |_| 0);
            *numbers.entry(number).or_insert(0_u64) += 1;
        }
        let found: Vec<u8> = numbers.keys().copied().collect();
        assert_eq!(found, [0, 5, 6, 7, 8, 9, 23, 24]);
        assert!(numbers.values().all(|&count| count >= 50), "{:?}", numbers);
    }
}

#[test]
fn drawn_texts_are_refused_at_all_places() {
    assert_all_places(&drawn_texts());
}

#[test]
fn offsets_are_those_of_lines_and_fields() {
    for text in drawn_texts() {
        let (number, offset) = match import(&text) {
            Ok(_) => continue,
            Err(Fault { number, offset }) => (number, offset),
        };
        let starts = line_starts(&text, offset);
        let line = starts[starts.len() - 1];
        match number {
            24 => assert_eq!(offset, 0),
            5 => assert!(starts.len() == 33 || (offset == HEADER && text.len() == HEADER)),
            // The line itself, which the text before goes up to.
            6 | 7 | 23 => assert_eq!(offset, line),
            // A field after a comma.
            _ => assert!(offset > line + 8 && text[offset - 1] == b','),
        }
    }
}

#[test]
fn refusals_come_in_each_kind_of_form() {
    let mut kinds = BTreeMap::new();
    for text in drawn_texts() {
        if let Err(fault) = import(&text) {
            let quoted = text.get(fault.offset) == Some(&b'"');
            *kinds.entry((fault.number, quoted)).or_insert(0_u64) += 1;
        }
    }
    // Told of a field or a line that begins with a quote, and of one that does not.
    for number in [5, 6, 7, 8, 9, 23] {
        for quoted in [false, true] {
            let count = kinds.get(&(number, quoted)).copied().unwrap_or(0);
            assert!(count >= LEAST, "{} {}: {:?}", number, quoted, kinds);
        }
    }
}

#[test]
fn lists_break_each_rule_alone() {
    let mut alone = BTreeMap::new();
    for input in drawn_lists() {
        *alone.entry(broken_rules(&input.list)).or_insert(0_u64) += 1;
    }
    for rules in [vec![], vec![5], vec![6], vec![7], vec![8], vec![9]] {
        assert!(alone[&rules] >= 100, "{:?}", alone);
    }
}

/// The rules that a list breaks; if the count is wrong, that one only.
fn broken_rules(list: &JobList) -> Vec<u8> {
    if !count_holds(list.count) {
        return vec![5];
    }
    let jobs = list.counted();
    let all = |rule: &dyn Fn(usize) -> bool| (0..jobs.len()).all(rule);
    let rules = [
        (6, all(&|k| name_bytes_hold(&jobs[k].name))),
        (7, all(&|k| name_is_new(&jobs[k].name, &jobs[..k]))),
        (8, all(&|k| grade_holds(jobs[k].grade))),
        (9, all(&|k| times_and_size_hold(&jobs[k]))),
    ];
    let broken = rules.iter().filter(|(_, holds)| !holds);
    broken.map(|(number, _)| *number).collect()
}

#[test]
fn lists_are_exported_or_refused_and_come_back_by_import() {
    for inputs in [drawn_lists(), fixed_lists()] {
        let (mut exact, mut roomy, mut one_short, mut short, mut unsound) = (0, 0, 0, 0, 0);
        for ListInput { list, output } in inputs {
            let mut bytes = vec![MARK; output];
            let answer = export(&list, &mut bytes);
            match text_of(&list) {
                Err(number) => {
                    assert_eq!((number, answer), (21, Err(21)));
                    assert!(!broken_rules(&list).is_empty());
                    unsound += 1;
                }
                Ok(text) if output < text.len() => {
                    assert_eq!(answer, Err(22));
                    one_short += u64::from(output + 1 == text.len());
                    short += 1;
                }
                Ok(text) => {
                    assert_eq!(answer, Ok(text.len()));
                    assert_eq!(import(&text), Ok(list.counted().to_vec()));
                    assert_eq!(bytes[..text.len()], text);
                    exact += u64::from(output == text.len());
                    roomy += u64::from(output > text.len());
                }
            }
            let written = answer.unwrap_or(0);
            assert!(bytes[written..].iter().all(|&byte| byte == MARK));
        }
        for count in [exact, roomy, one_short, short, unsound] {
            assert!(count >= 100);
        }
    }
}

#[test]
fn taken_texts_come_back_by_export_with_no_more_quotes() {
    let mut taken = 0;
    for text in drawn_texts().into_iter().chain(fixed_texts()) {
        if let Ok(jobs) = import(&text) {
            let least = text_of(&JobList::of(&jobs)).unwrap();
            assert!(least.len() <= text.len());
            assert_eq!(import(&least), Ok(jobs));
            taken += 1;
        }
    }
    assert!(taken >= 5_000, "{}", taken);
}
