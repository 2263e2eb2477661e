//! The name lookup: the part shown, and when it is empty.

use crate::common::{e_file, e_with, sealed, ROW_3};
use reference::lookup::{name_lookup, Part};

fn is_empty(file: &[u8], position: u64) -> bool {
    name_lookup(file, position).length == 0
}

#[test]
fn names_are_shown_where_they_stand_in_the_file() {
    let file = e_file();
    assert_eq!(
        name_lookup(&file, 0),
        Part {
            offset: 11,
            length: 8
        }
    );
    assert_eq!(
        name_lookup(&file, 1),
        Part {
            offset: 33,
            length: 8
        }
    );
    assert_eq!(file[11..19], *b"Mirror-A");
    assert_eq!(file[33..41], *b"mirror-A");
}

#[test]
fn position_at_the_count_or_far_beyond_shows_nothing() {
    for position in [2, 31, 32, 256, 1 << 32, (1 << 32) + 1, u64::MAX] {
        assert!(is_empty(&e_file(), position));
    }
}

#[test]
fn file_with_a_fault_in_its_last_row_shows_nothing() {
    let file = e_with(ROW_3 + 11, &[0, 0, 0, 0]);
    assert!(is_empty(&file, 0));
}

#[test]
fn file_with_a_leftover_byte_shows_nothing() {
    let mut file = e_file();
    file.push(0);
    assert!(is_empty(&sealed(file), 1));
}

#[test]
fn empty_file_shows_nothing() {
    assert!(is_empty(&[], 0));
}

#[test]
fn plan_that_the_judge_would_refuse_shows_its_names() {
    let file = e_with(ROW_3 + 11, &[255, 0, 0, 0]);
    assert_eq!(
        name_lookup(&file, 1),
        Part {
            offset: 33,
            length: 8
        }
    );
}
