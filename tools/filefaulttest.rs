//! What `filefault` says of damaged plan files. Number and offset come from the reference, which answers them as the library does.

use description::filefault::{field, sentence, Record};
use reference::edition::TABLE_PLACES;
use reference::generate::{damaged_input, fixed_files};
use reference::reader::reader;

const PLAN_E: &[u8] = include_bytes!("../examples/plan-e.plan");
const PAGE: &str = include_str!("../examples/README.md");
const SEED: u64 = 1;
const DRAWN: u64 = 20_000;

// Number and offset, where the reader refuses the file.
fn refusal(file: &[u8]) -> Option<(u8, usize)> {
    let answer = reader(file, &mut vec![0; TABLE_PLACES]);
    answer.offset.map(|offset| (answer.number, offset))
}

fn said(file: &[u8]) -> String {
    refusal(file).map_or("nothing is wrong".to_string(), |(number, offset)| sentence(file, number, offset))
}

fn with(at: usize, bytes: &[u8]) -> Vec<u8> {
    [&PLAN_E[..at], bytes, &PLAN_E[at + bytes.len()..]].concat()
}

// The bytes with a length field that agrees.
fn sealed(mut file: Vec<u8>) -> Vec<u8> {
    let follow = (file.len() - 5) as u32;
    file[1..5].copy_from_slice(&follow.to_be_bytes());
    file
}

fn cut(length: usize) -> Vec<u8> {
    sealed(PLAN_E[..length].to_vec())
}

#[test]
fn nothing_is_wrong_in_plan_e() {
    assert_eq!(said(PLAN_E), "nothing is wrong");
}

#[test]
fn wrong_heads() {
    assert_eq!(said(&[]), "version, byte 0: the file is empty, and a plan file begins with its version, 1");
    assert_eq!(said(&with(0, b"r")), "version, byte 0: the version is 114, and must be 1");
    let rates = |normal: u16, floor: u16| said(&with(5, &[normal.to_be_bytes(), floor.to_be_bytes()].concat()));
    assert_eq!(rates(2, 2), "normal rate, byte 5: the floor is 2 and the normal rate 2: the floor must be below the normal rate");
    assert_eq!(rates(1_001, 1), "normal rate, byte 5: the normal rate is 1,001, and must be at most 1,000");
    let both = "normal rate, byte 5: the floor is 0, and must be at least 1; the floor is 0 and the normal rate 0: the floor must be below the normal rate";
    assert_eq!(rates(0, 0), both);
    assert_eq!(said(&with(9, &[0])), "job count, byte 9: the job count is 0, and a plan has 1 to 32 jobs");
    assert_eq!(said(&with(9, &[33])), "job count, byte 9: the job count is 33, and a plan has 1 to 32 jobs");
}

#[test]
fn wrong_extents() {
    assert_eq!(said(&PLAN_E[..3]), "length, byte 1: the file ends after 2 of its 4 bytes");
    assert_eq!(said(&PLAN_E[..100]), "length, byte 1: the length is 111, and after it the file has 95 bytes");
    assert_eq!(said(&[PLAN_E, &[0, 2]].concat()), "length, byte 1: the length is 111, and after it the file has 113 bytes");
    assert_eq!(said(&[1, 0, 0, 0, 0, 7]), "length, byte 1: the length is 0, and after it the file has 1 byte");
    assert_eq!(said(&cut(5)), "normal rate, byte 5: the file ends before it");
    assert_eq!(said(&cut(32)), "job 1, length byte, byte 32: the file ends before it, and the job count is 2");
    assert_eq!(said(&cut(48)), "job 1, size, byte 46: the file ends after 2 of its 4 bytes, and the job count is 2");
    assert_eq!(said(&cut(55)), "row count, byte 54: the file ends after 1 of its 2 bytes");
    assert_eq!(said(&cut(101)), "row 3, length byte, byte 101: the file ends before it, and the row count is 4");
    assert_eq!(said(&cut(115)), "row 3, units, byte 112: the file ends after 3 of its 4 bytes, and the row count is 4");
    assert_eq!(said(&sealed([PLAN_E, &[0]].concat())), "after the last row, byte 116: 1 byte too many: the row count is 4");
    assert_eq!(said(&with(54, &[0, 2])), "after the last row, byte 86: 30 bytes too many: the row count is 2");
}

#[test]
fn wrong_jobs() {
    assert_eq!(said(&with(10, &[20])), "job 0, length byte, byte 10: the length byte is 20, and a job has 21");
    assert_eq!(said(&with(17, b" ")), "job 0, name, byte 11: the name is `Mirror A`, with 0x20: the bytes of a name are from 0x21 to 0x7E");
    let two = "job 1, name, byte 33: the name is `\\x00irror-\\xC3`, with 0x00 and 0xC3: the bytes of a name are from 0x21 to 0x7E";
    assert_eq!(said(&with(33, b"\0irror-\xc3")), two);
    assert_eq!(said(&with(33, b"M")), "job 1, name, byte 33: the name is `Mirror-A`, and job 0 has it already");
    assert_eq!(said(&with(41, &[2])), "job 1, grade, byte 41: the grade is 2, and must be 0 (LO) or 1 (HI)");
    let release = "job 1, release, byte 42: the release is 257 and the deadline 10: the release must come before the deadline";
    assert_eq!(said(&with(44, &[1])), release);
    assert_eq!(said(&with(24, &[0; 4])), "job 0, release, byte 20: the size is 0, and must be from 1 to 100,000,000");
    assert_eq!(said(&with(51, &[1, 134, 161])), "job 1, release, byte 42: the deadline is 100,001, and must be at most 100,000");
    let all = "job 0, release, byte 20: the release is 0 and the deadline 0: the release must come before the deadline; \
               the size is 4,294,967,295, and must be from 1 to 100,000,000";
    assert_eq!(said(&with(24, &[255, 255, 255, 255, 0, 0, 0, 0])), all);
}

#[test]
fn wrong_rows() {
    assert_eq!(said(&with(54, &[7, 225])), "row count, byte 54: the row count is 2,017, and a file has at most 2,016 rows");
    assert_eq!(said(&with(101, &[21])), "row 3, length byte, byte 101: the length byte is 21, and a row has 14");
    assert_eq!(said(&with(57, b"MIRROR-A")), "row 0, name, byte 57: the name is `MIRROR-A`, and no job has it");
    assert_eq!(said(&with(110, &[0, 3])), "row 3, interval, byte 110: the interval is 3, and the plan's last one is 2");
    assert_eq!(said(&with(82, &[0; 4])), "row 1, units, byte 82: the units are 0, and a row allots at least 1");
    let again = "row 1, length byte, byte 71: the row is for job 0, interval 0, and the row before it for job 0, interval 0: \
                 rows must rise by job, then by interval";
    assert_eq!(said(&with(81, &[0])), again);
    let back = "row 3, length byte, byte 101: the row is for job 0, interval 2, and the row before it for job 1, interval 1: \
                rows must rise by job, then by interval";
    assert_eq!(said(&with(102, b"M")), back);
}

// The page on the examples has one sentence for each number, and three for 2, of plan E.
#[test]
fn the_page_has_these_sentences() {
    let files = [
        with(0, &[2]),
        PLAN_E[..100].to_vec(),
        cut(48),
        with(54, &[0, 2]),
        with(10, &[20]),
        with(7, &[0, 2]),
        with(9, &[33]),
        with(17, b" "),
        with(33, b"M"),
        with(41, &[2]),
        with(24, &[0; 4]),
        with(54, &[7, 225]),
        with(57, b"MIRROR-A"),
        with(110, &[0, 3]),
        with(82, &[0; 4]),
        with(102, b"M"),
    ];
    let rows: Vec<String> = files.iter().filter_map(|file| refusal(file).map(|(number, _)| format!("| {number} | {} |", said(file)))).collect();
    assert!(PAGE.contains(&rows.join("\n")), "the page does not have\n{}", rows.join("\n"));
}

// The field that each number speaks of; 2 may be told of any.
fn speaks_of(number: u8, record: Record, name: &str) -> bool {
    match (number, record) {
        (1, Record::Head) => name == "version",
        (2, _) => true,
        (3, Record::Job(_) | Record::Row(_)) => name == "length byte",
        (4, Record::Head) => name == "normal rate",
        (5, Record::Head) => name == "job count",
        (6 | 7, Record::Job(_)) => name == "name",
        (8, Record::Job(_)) => name == "grade",
        (9, Record::Job(_)) => name == "release",
        (10, Record::Head) => name == "row count",
        (11, Record::Row(_)) => name == "name",
        (12, Record::Row(_)) => name == "interval",
        (13, Record::Row(_)) => name == "units",
        (14, Record::Row(_)) => name == "length byte",
        _ => false,
    }
}

// Each sentence says something beside the place, of the field that begins at the offset.
#[test]
fn every_damaged_file_has_its_field_and_its_words() {
    let fixed = fixed_files().into_iter();
    for input in fixed.chain((0..DRAWN).map(|number| damaged_input(SEED, number))) {
        if let Some((number, offset)) = refusal(&input.file) {
            let (found, words) = (field(&input.file, offset), said(&input.file));
            assert!(found.at == offset && speaks_of(number, found.record, found.name), "{number}: {words}");
            let (place, what) = words.split_once(": ").unwrap_or_default();
            assert!(place.ends_with(&format!("{}, byte {offset}", found.name)) && !what.is_empty(), "{words}");
        }
    }
}
