//! The reader: each of its refusals, their order, the bounds, and what it leaves behind.

use crate::common::{
    answer, e_file, e_plan, e_table, e_with, replaced, sealed, table, JOB_0, JOB_1, ROW_0, ROW_1,
    ROW_3, ROW_COUNT,
};
use reference::plan::{Job, Plan};
use reference::reader::reader;
use reference::refusal::{
    CUT_OR_LENGTH, DONE, GRADE, JOB_COUNT, LENGTH_BYTE, NAME_BYTE, NAME_TWICE, NO_SUCH_INTERVAL,
    NO_SUCH_JOB, NO_UNITS, RATES, ROW_COUNT as TOO_MANY_ROWS, ROW_ORDER, TIMES_OR_SIZE, TOO_SHORT,
    VERSION,
};

/// A file of one job and no rows.
fn one_job(job: &Job) -> Vec<u8> {
    let mut file = vec![1, 0, 0, 0, 0, 0, 2, 0, 1, 1, 21];
    file.extend(job.name);
    file.push(job.grade);
    file.extend(job.release.to_be_bytes());
    file.extend((job.size as u32).to_be_bytes());
    file.extend(job.deadline.to_be_bytes());
    file.extend([0, 0]);
    sealed(file)
}

fn answer_of_job(release: u32, size: u64, deadline: u32) -> u8 {
    answer(&one_job(&crate::common::lo(
        b"only-job",
        release,
        size,
        deadline,
    )))
}

/// A file with the most jobs, intervals and rows.
fn largest_file() -> Vec<u8> {
    let mut file = vec![1, 0, 0, 0, 0, 0, 2, 0, 1, 32];
    for i in 0..32 {
        file.extend([21, b'!' + i, b'x', b'x', b'x', b'x', b'x', b'x', b'x', 0]);
        file.extend([0, 0, 0, i, 0, 0, 0, 1, 0, 0, 0, 63 - i]);
    }
    file.extend(2_016_u16.to_be_bytes());
    for i in 0..32 {
        for j in 0..63 {
            file.extend([
                14,
                b'!' + i,
                b'x',
                b'x',
                b'x',
                b'x',
                b'x',
                b'x',
                b'x',
                0,
                j,
                0,
                0,
                0,
                1,
            ]);
        }
    }
    sealed(file)
}

#[test]
fn plan_e_is_read_into_records_and_table() {
    let mut table = vec![7; 2_016];
    let answer = reader(&e_file(), &mut table);
    assert_eq!((answer.number, answer.plan), (DONE, e_plan()));
    assert_eq!(table, e_table());
}

#[test]
fn records_from_the_count_on_are_zero() {
    let plan = reader(&e_file(), &mut table()).plan;
    assert!(plan.jobs[2..].iter().all(|job| *job == Job::zeros()));
}

#[test]
fn places_beyond_the_table_stay() {
    for file in [e_file(), Vec::new()] {
        let mut table = vec![7; 2_020];
        reader(&file, &mut table);
        assert_eq!(table[2_015..], [0, 7, 7, 7, 7]);
    }
}

#[test]
fn refusal_leaves_zeros_in_table_and_plan() {
    let mut table = vec![7; 2_016];
    let answer = reader(&e_with(ROW_3 + 11, &[0, 0, 0, 0]), &mut table);
    assert_eq!((answer.number, answer.plan), (NO_UNITS, Plan::zeros()));
    assert!(table.iter().all(|&units| units == 0));
}

#[test]
fn short_table_is_refused_before_all_else_and_stays() {
    for file in [e_file(), Vec::new()] {
        let mut table = vec![7; 2_015];
        let answer = reader(&file, &mut table);
        assert_eq!((answer.number, answer.plan), (TOO_SHORT, Plan::zeros()));
        assert!(table.iter().all(|&units| units == 7));
    }
}

#[test]
fn version_0_and_2_are_refused() {
    assert_eq!(answer(&e_with(0, &[0])), VERSION);
    assert_eq!(answer(&e_with(0, &[2])), VERSION);
    assert_eq!(answer(&[2]), VERSION);
}

#[test]
fn plain_cut_is_always_2() {
    let file = e_file();
    assert!((1..file.len()).all(|length| answer(&file[..length]) == CUT_OR_LENGTH));
}

#[test]
fn cut_with_fitting_length_field_is_always_2() {
    let file = e_file();
    for length in 5..file.len() {
        assert_eq!(answer(&sealed(file[..length].to_vec())), CUT_OR_LENGTH);
    }
}

#[test]
fn length_field_one_off_is_2_before_later_faults() {
    for length in [110, 112] {
        let file = e_with(4, &[length]);
        assert_eq!(answer(&replaced(file, 5, &[0, 0, 0, 0])), CUT_OR_LENGTH);
    }
}

#[test]
fn leftover_bytes_come_last() {
    let mut file = e_file();
    file.push(14);
    assert_eq!(answer(&sealed(file.clone())), CUT_OR_LENGTH);
    let twice = replaced(file, ROW_3 + 9, &[0, 1]);
    assert_eq!(answer(&sealed(twice)), ROW_ORDER);
}

#[test]
fn length_byte_of_job_or_row_is_3() {
    assert_eq!(answer(&e_with(JOB_0, &[20])), LENGTH_BYTE);
    assert_eq!(answer(&e_with(JOB_1, &[22])), LENGTH_BYTE);
    assert_eq!(answer(&e_with(ROW_0, &[13])), LENGTH_BYTE);
    assert_eq!(answer(&e_with(ROW_3, &[15])), LENGTH_BYTE);
}

#[test]
fn length_byte_comes_before_the_name() {
    let file = e_with(JOB_0, &[20, 0]);
    assert_eq!(answer(&file), LENGTH_BYTE);
}

#[test]
fn rates_at_their_bounds_are_read() {
    for rates in [[0, 2, 0, 1], [3, 232, 3, 231], [3, 232, 0, 1]] {
        assert_eq!(answer(&e_with(5, &rates)), DONE);
    }
}

#[test]
fn rates_past_their_bounds_are_4() {
    for rates in [
        [0, 1, 0, 0],
        [0, 2, 0, 3],
        [3, 233, 0, 1],
        [0, 2, 0, 0],
        [0, 0, 0, 0],
    ] {
        assert_eq!(answer(&e_with(5, &rates)), RATES);
    }
}

#[test]
fn rates_are_tested_after_both_are_read() {
    let cut = sealed(vec![1, 0, 0, 0, 0, 255, 255, 0]);
    assert_eq!(answer(&cut), CUT_OR_LENGTH);
}

#[test]
fn job_count_0_and_33_are_5() {
    assert_eq!(answer(&e_with(9, &[0])), JOB_COUNT);
    assert_eq!(answer(&e_with(9, &[33])), JOB_COUNT);
    assert_eq!(answer(&e_with(9, &[255])), JOB_COUNT);
}

#[test]
fn rates_come_before_the_job_count() {
    assert_eq!(answer(&e_with(5, &[0, 2, 0, 2, 0])), RATES);
}

#[test]
fn name_bytes_past_their_bounds_are_6() {
    assert_eq!(answer(&e_with(JOB_0 + 1, &[0x20])), NAME_BYTE);
    assert_eq!(answer(&e_with(JOB_1 + 8, &[0x7F])), NAME_BYTE);
}

#[test]
fn name_bytes_at_their_bounds_are_read() {
    let job = crate::common::lo(b"!!!!~~~~", 0, 1, 1);
    assert_eq!(answer(&one_job(&job)), DONE);
}

#[test]
fn repeated_name_is_7() {
    assert_eq!(answer(&e_with(JOB_1 + 1, b"Mirror-A")), NAME_TWICE);
}

#[test]
fn bad_name_comes_before_repeated_name_of_a_later_job() {
    let file = e_with(JOB_0 + 1, b"\x20irror-A");
    assert_eq!(
        answer(&replaced(file, JOB_1 + 1, b"\x20irror-A")),
        NAME_BYTE
    );
}

#[test]
fn repeated_name_comes_before_the_grade() {
    assert_eq!(answer(&e_with(JOB_1 + 1, b"Mirror-A\x02")), NAME_TWICE);
}

#[test]
fn grades_2_and_255_are_8() {
    assert_eq!(answer(&e_with(JOB_0 + 9, &[2])), GRADE);
    assert_eq!(answer(&e_with(JOB_1 + 9, &[255])), GRADE);
}

#[test]
fn grade_comes_before_times_and_size() {
    assert_eq!(answer(&e_with(JOB_0 + 9, &[2, 255, 255, 255, 255])), GRADE);
}

#[test]
fn times_and_sizes_at_their_bounds_are_read() {
    assert_eq!(answer_of_job(0, 1, 1), DONE);
    assert_eq!(answer_of_job(99_999, 100_000_000, 100_000), DONE);
}

#[test]
fn times_and_sizes_past_their_bounds_are_9() {
    assert_eq!(answer_of_job(5, 1, 5), TIMES_OR_SIZE);
    assert_eq!(answer_of_job(6, 1, 5), TIMES_OR_SIZE);
    assert_eq!(answer_of_job(0, 1, 100_001), TIMES_OR_SIZE);
    assert_eq!(answer_of_job(0, 0, 5), TIMES_OR_SIZE);
    assert_eq!(answer_of_job(0, 100_000_001, 5), TIMES_OR_SIZE);
}

#[test]
fn times_and_size_are_tested_after_the_last_field() {
    let file = e_with(JOB_0 + 14, &[0, 0, 0, 0]);
    assert_eq!(answer(&sealed(file[..JOB_0 + 21].to_vec())), CUT_OR_LENGTH);
    assert_eq!(answer(&sealed(file[..JOB_0 + 22].to_vec())), TIMES_OR_SIZE);
}

#[test]
fn row_count_2017_is_10_and_2016_only_promises() {
    assert_eq!(
        answer(&e_with(ROW_COUNT, &2_017_u16.to_be_bytes())),
        TOO_MANY_ROWS
    );
    assert_eq!(
        answer(&e_with(ROW_COUNT, &2_016_u16.to_be_bytes())),
        CUT_OR_LENGTH
    );
}

#[test]
fn row_name_with_a_forbidden_byte_is_11() {
    assert_eq!(answer(&e_with(ROW_1 + 1, &[0x20])), NO_SUCH_JOB);
}

#[test]
fn row_interval_at_the_number_of_intervals_is_12() {
    assert_eq!(answer(&e_with(ROW_3 + 9, &[0, 3])), NO_SUCH_INTERVAL);
    assert_eq!(answer(&e_with(ROW_3 + 9, &[1, 2])), NO_SUCH_INTERVAL);
}

#[test]
fn row_without_units_is_13() {
    assert_eq!(answer(&e_with(ROW_0 + 11, &[0, 0, 0, 0])), NO_UNITS);
}

#[test]
fn repeated_or_falling_row_is_14() {
    assert_eq!(answer(&e_with(ROW_1 + 9, &[0, 0])), ROW_ORDER);
    assert_eq!(answer(&e_with(ROW_3 + 1, b"Mirror-A")), ROW_ORDER);
}

#[test]
fn faults_of_one_row_come_in_the_order_of_its_fields() {
    let unknown = e_with(ROW_1 + 1, b"MIRROR-A\x00\x09\x00\x00\x00\x00");
    assert_eq!(answer(&unknown), NO_SUCH_JOB);
    let beyond = e_with(ROW_1 + 9, &[0, 9, 0, 0, 0, 0]);
    assert_eq!(answer(&beyond), NO_SUCH_INTERVAL);
    let repeated_without_units = e_with(ROW_1 + 9, &[0, 0, 0, 0, 0, 0]);
    assert_eq!(answer(&repeated_without_units), NO_UNITS);
}

#[test]
fn row_outside_its_window_is_read() {
    let mut table = table();
    let answer = reader(&e_with(ROW_0 + 9, &[0, 0]), &mut table);
    assert_eq!(answer.number, DONE);
    let answer = reader(&e_with(ROW_1 + 9, &[0, 2]), &mut table);
    assert_eq!((answer.number, table[2]), (DONE, 4));
}

#[test]
fn interval_that_no_job_covers_is_one() {
    // Windows 0 to 1 and 2 to 3 leave an uncovered interval 1 between them.
    let mut file = vec![1, 0, 0, 0, 0, 0, 2, 0, 1, 2];
    file.extend(b"\x15early-jb\x00\x00\x00\x00\x00\x00\x00\x00\x01\x00\x00\x00\x01");
    file.extend(b"\x15later-jb\x00\x00\x00\x00\x02\x00\x00\x00\x01\x00\x00\x00\x03");
    file.extend(b"\x00\x01\x0Elater-jb\x00\x02\x00\x00\x00\x01");
    assert_eq!(answer(&sealed(file)), DONE);
}

#[test]
fn largest_file_is_read() {
    let file = largest_file();
    let mut table = table();
    assert_eq!(file.len(), 30_956);
    assert_eq!(reader(&file, &mut table).number, DONE);
    assert!(table.iter().all(|&units| units == 1));
}

#[test]
fn files_first_fault_decides_between_jobs_and_rows() {
    let file = e_with(ROW_0, &[0]);
    assert_eq!(answer(&replaced(file, JOB_1 + 9, &[7])), GRADE);
}
