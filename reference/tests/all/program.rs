//! The program `runplan`: its whole output byte for byte.

use crate::common::{e_file, e_with, replaced, sealed, JOB_1, ROW_2, ROW_3};
use reference::program::runplan;

/// The output for plan E followed by speeds.
fn output_of_e(speeds: &[u16]) -> String {
    output(&with_speeds(e_file(), speeds))
}

fn output(input: &[u8]) -> String {
    String::from_utf8(runplan(input)).unwrap()
}

fn with_speeds(mut file: Vec<u8>, speeds: &[u16]) -> Vec<u8> {
    file.extend(speeds.iter().flat_map(|speed| speed.to_be_bytes()));
    file
}

#[test]
fn whole_output_for_plan_e() {
    let expected = "slot speed mode grants\n\
        0 2 N Mirror-A=2\n\
        1 2 N mirror-A=2\n\
        2 2 N mirror-A=2\n\
        3 1 D mirror-A=1\n\
        4 1 D mirror-A=1\n\
        5 1 D mirror-A=1\n\
        6 1 D mirror-A=1\n\
        job outcome carried\n\
        Mirror-A discarded 2\n\
        mirror-A met 8\n";
    assert_eq!(output_of_e(&[2, 2, 2, 1, 1, 1, 1]), expected);
}

#[test]
fn without_speeds_both_headers_are_printed() {
    let expected =
        "slot speed mode grants\njob outcome carried\nMirror-A open 0\nmirror-A open 0\n";
    assert_eq!(output_of_e(&[]), expected);
}

#[test]
fn slot_without_grants_prints_a_dash() {
    assert!(output_of_e(&[1]).contains("\n0 1 D -\n"));
}

#[test]
fn two_grants_of_one_slot_stand_in_job_order_with_one_space_between() {
    // With a size of 7 the essential job is due one unit in slot 2, and the other job the rest.
    let file = e_with(JOB_1 + 14, &[0, 0, 0, 7]);
    let file = replaced(file, ROW_2 + 11, &[0, 0, 0, 3]);
    let output = output(&with_speeds(file, &[2, 2, 2]));
    assert!(output.contains("\n2 2 N Mirror-A=1 mirror-A=1\n"));
}

#[test]
fn refused_step_is_printed_and_the_next_speed_tried() {
    let output = output_of_e(&[3, 2, 65_535, 2]);
    let lines: Vec<&str> = output.lines().collect();
    let expected = [
        "0 3 R 20",
        "0 2 N Mirror-A=2",
        "1 65535 R 20",
        "1 2 N mirror-A=2",
    ];
    assert_eq!(lines[1..5], expected);
}

#[test]
fn every_speed_after_the_last_deadline_is_19() {
    let output = output_of_e(&[2, 2, 2, 2, 2, 2, 2, 2, 2, 2, 2, 3, 0]);
    let lines: Vec<&str> = output.lines().collect();
    assert_eq!(lines[11..14], ["10 2 R 19", "10 3 R 19", "10 0 R 19"]);
    assert_eq!(lines[15..], ["Mirror-A met 6", "mirror-A met 8"]);
}

#[test]
fn missed_job_is_printed_with_its_units() {
    let output = output_of_e(&[2, 0, 0, 0, 0, 0, 0, 0, 0, 0]);
    assert!(output.ends_with("Mirror-A discarded 2\nmirror-A missed 0\n"));
}

#[test]
fn stray_byte_stands_between_slots_and_jobs() {
    let mut input = with_speeds(e_file(), &[2]);
    input.push(0);
    assert!(output(&input).contains("0 2 N Mirror-A=2\nstray byte\njob outcome carried\n"));
    let mut lone = e_file();
    lone.push(0);
    assert!(output(&lone).starts_with("slot speed mode grants\nstray byte\njob"));
}

#[test]
fn plan_refused_by_the_reader_prints_one_line() {
    assert_eq!(output(&[]), "refused 1\n");
    assert_eq!(output(&[1]), "refused 2\n");
    assert_eq!(output(&[1, 0, 0, 0]), "refused 2\n");
    assert_eq!(output(&[2, 0, 0, 0, 0]), "refused 1\n");
    let file = e_with(ROW_3 + 1, b"MIRROR-A");
    assert_eq!(output(&with_speeds(file, &[2, 2])), "refused 11\n");
}

#[test]
fn plan_refused_by_the_judge_prints_one_line() {
    let file = e_with(ROW_3 + 14, &[3]);
    let mut input = with_speeds(file, &[2]);
    input.push(7);
    assert_eq!(output(&input), "refused 16\n");
}

#[test]
fn file_shorter_than_its_length_goes_to_the_reader_whole() {
    assert_eq!(output(&e_file()[..100]), "refused 2\n");
}

#[test]
fn length_beyond_the_limit_does_not_wrap() {
    for length in [30_952_u32, u32::MAX - 4, u32::MAX] {
        let mut input = vec![1];
        input.extend(length.to_be_bytes());
        input.resize(40_000, 0);
        assert_eq!(output(&input), "refused 2\n");
    }
}

#[test]
fn length_field_decides_where_speeds_begin() {
    let mut file = e_file();
    file.truncate(5);
    let input = with_speeds(sealed(file), &[2, 2]);
    assert_eq!(output(&input), "refused 2\n");
}

#[test]
fn names_are_printed_raw() {
    let mut file = vec![1, 0, 0, 0, 0, 0, 2, 0, 1, 1];
    file.extend(b"\x15=-=1~R-=\x00\x00\x00\x00\x00\x00\x00\x00\x01\x00\x00\x00\x01");
    file.extend(b"\x00\x01\x0E=-=1~R-=\x00\x00\x00\x00\x00\x01");
    let output = output(&with_speeds(sealed(file), &[2]));
    assert_eq!(output.lines().nth(1), Some("0 2 N =-=1~R-==1"));
}
