//! Where the reader says that a file is wrong: each refusal at each kind of field.
//!
//! All numbers and offsets are written out by hand. The file has three jobs and three rows, so that
//! there is a first, a middle and a last of either:
//!
//! ```text
//!  0 version   1 length   5 n   7 d   9 job count
//! 10 length byte   11 name   19 grade   20 release   24 size    28 deadline   (job 0)
//! 32 length byte   33 name   41 grade   42 release   46 size    50 deadline   (job 1)
//! 54 length byte   55 name   63 grade   64 release   68 size    72 deadline   (job 2)
//! 76 row count
//!  78 length byte   79 name   87 interval   89 units   (row 0)
//!  93 length byte   94 name  102 interval  104 units   (row 1)
//! 108 length byte  109 name  117 interval  119 units   (row 2)
//! 123 end
//! ```

use crate::common::{replaced, sealed, table};
use reference::plan::Plan;
use reference::reader::{reader, Answer};

/// Where each field after the length field begins, and how many bytes it has.
const FIELDS: [(usize, usize); 34] = [
    (5, 2),
    (7, 2),
    (9, 1),
    (10, 1),
    (11, 8),
    (19, 1),
    (20, 4),
    (24, 4),
    (28, 4),
    (32, 1),
    (33, 8),
    (41, 1),
    (42, 4),
    (46, 4),
    (50, 4),
    (54, 1),
    (55, 8),
    (63, 1),
    (64, 4),
    (68, 4),
    (72, 4),
    (76, 2),
    (78, 1),
    (79, 8),
    (87, 2),
    (89, 4),
    (93, 1),
    (94, 8),
    (102, 2),
    (104, 4),
    (108, 1),
    (109, 8),
    (117, 2),
    (119, 4),
];

/// Three jobs with the windows 0 to 2, 0 to 4 and 2 to 4, which make two intervals.
fn three_jobs() -> Vec<u8> {
    let parts: [&[u8]; 8] = [
        &[1, 0, 0, 0, 118, 0, 2, 0, 1, 3],
        b"\x15job-zero\x00\x00\x00\x00\x00\x00\x00\x00\x01\x00\x00\x00\x02",
        b"\x15job-one-\x01\x00\x00\x00\x00\x00\x00\x00\x02\x00\x00\x00\x04",
        b"\x15job-two-\x00\x00\x00\x00\x02\x00\x00\x00\x03\x00\x00\x00\x04",
        &[0, 3],
        b"\x0Ejob-zero\x00\x00\x00\x00\x00\x01",
        b"\x0Ejob-one-\x00\x01\x00\x00\x00\x02",
        b"\x0Ejob-two-\x00\x01\x00\x00\x00\x03",
    ];
    parts.concat()
}

/// The file with bytes replaced.
fn with(at: usize, bytes: &[u8]) -> Vec<u8> {
    replaced(three_jobs(), at, bytes)
}

/// The file with bytes replaced at two places.
fn with_two(first: (usize, &[u8]), second: (usize, &[u8])) -> Vec<u8> {
    replaced(with(first.0, first.1), second.0, second.1)
}

/// The beginning of a file, with a length field that agrees.
fn cut(file: &[u8], length: usize) -> Vec<u8> {
    sealed(file[..length].to_vec())
}

fn assert_refused(file: &[u8], number: u8, offset: usize) {
    let expected = Answer {
        number,
        offset: Some(offset),
        plan: Plan::zeros(),
    };
    assert_eq!(reader(file, &mut table()), expected);
}

#[test]
fn file_that_is_read_has_no_place() {
    let answer = reader(&three_jobs(), &mut table());
    assert_eq!((answer.number, answer.offset), (0, None));
}

#[test]
fn short_table_has_no_place() {
    for file in [three_jobs(), with(10, &[20]), Vec::new()] {
        let answer = reader(&file, &mut table()[..2_015]);
        assert_eq!((answer.number, answer.offset), (22, None));
    }
}

#[test]
fn missing_or_wrong_version_is_at_0() {
    assert_refused(&[], 1, 0);
    assert_refused(&[0], 1, 0);
    assert_refused(&with(0, &[0]), 1, 0);
    assert_refused(&with(0, &[2]), 1, 0);
    assert_refused(&with(0, &[255, 255, 255, 255, 255]), 1, 0);
}

#[test]
fn length_field_cut_short_is_at_1() {
    assert_refused(&[1], 2, 1);
    assert_refused(&[1, 0], 2, 1);
    assert_refused(&[1, 0, 0], 2, 1);
    assert_refused(&[1, 0, 0, 0], 2, 1);
}

#[test]
fn wrong_length_field_is_at_1() {
    for length in [0, 117, 119, 374, 0x0100_0076, u32::MAX] {
        assert_refused(&with(1, &length.to_be_bytes()), 2, 1);
    }
    assert_refused(&[1, 0, 0, 0, 1], 2, 1);
}

#[test]
fn plain_cut_is_at_the_length_field() {
    let file = three_jobs();
    for length in 1..123 {
        assert_refused(&file[..length], 2, 1);
    }
}

#[test]
fn more_bytes_than_the_length_says_are_at_the_length_field() {
    let mut file = three_jobs();
    file.push(14);
    assert_refused(&file, 2, 1);
}

#[test]
fn every_field_cut_anywhere_is_at_its_first_byte() {
    for (begin, bytes) in FIELDS {
        for length in begin..begin + bytes {
            assert_refused(&cut(&three_jobs(), length), 2, begin);
        }
    }
}

#[test]
fn field_cut_short_is_not_looked_at() {
    for (begin, bytes) in FIELDS {
        for length in begin + 1..begin + bytes {
            let file = with(begin, &vec![255; bytes]);
            assert_refused(&cut(&file, length), 2, begin);
        }
    }
}

#[test]
fn cut_comes_before_faults_that_wait_for_a_later_field() {
    // Wrong n, and no d.
    assert_refused(&cut(&with(5, &[255, 255]), 7), 2, 7);
    // Wrong release and size, and no deadline.
    let file = with(42, &[255, 255, 255, 255, 0, 0, 0, 0]);
    assert_refused(&cut(&file, 46), 2, 46);
    assert_refused(&cut(&file, 53), 2, 50);
    // A row that falls behind the one before, and no units.
    let file = with(94, b"job-zero\x00\x00");
    assert_refused(&cut(&file, 102), 2, 102);
    assert_refused(&cut(&file, 107), 2, 104);
}

#[test]
fn leftover_bytes_are_at_the_first_of_them() {
    for more in [1, 2, 14, 15, 16, 300, 40_000] {
        for byte in [0, 1, 14, 255] {
            let mut file = three_jobs();
            file.extend(vec![byte; more]);
            assert_refused(&sealed(file), 2, 123);
        }
    }
}

#[test]
fn rows_beyond_the_row_count_are_leftover_bytes() {
    assert_refused(&with(76, &[0, 2]), 2, 108);
    assert_refused(&with(76, &[0, 1]), 2, 93);
    assert_refused(&with(76, &[0, 0]), 2, 78);
}

#[test]
fn row_that_is_promised_only_is_at_the_end() {
    assert_refused(&with(76, &[0, 4]), 2, 123);
    assert_refused(&with(76, &[7, 224]), 2, 123);
}

#[test]
fn wrong_length_byte_is_at_that_byte() {
    for at in [10, 32, 54] {
        for byte in [0, 14, 20, 22, 255] {
            assert_refused(&with(at, &[byte]), 3, at);
        }
    }
    for at in [78, 93, 108] {
        for byte in [0, 13, 15, 21, 255] {
            assert_refused(&with(at, &[byte]), 3, at);
        }
    }
}

#[test]
fn job_that_is_counted_only_is_at_the_byte_in_its_place() {
    assert_refused(&with(9, &[4]), 3, 76);
    assert_refused(&with(9, &[32]), 3, 76);
}

#[test]
fn wrong_rates_are_at_n() {
    assert_refused(&with(5, &[0, 1]), 4, 5);
    assert_refused(&with(5, &[3, 233]), 4, 5);
    assert_refused(&with(7, &[0, 0]), 4, 5);
    assert_refused(&with(7, &[0, 2]), 4, 5);
    assert_refused(&with(5, &[255, 255, 255, 255]), 4, 5);
}

#[test]
fn wrong_job_count_is_at_the_count() {
    for count in [0, 33, 255] {
        assert_refused(&with(9, &[count]), 5, 9);
    }
}

#[test]
fn wrong_name_byte_is_at_the_name() {
    for name in [11, 33, 55] {
        for byte in 0..8 {
            assert_refused(&with(name + byte, &[0x20]), 6, name);
            assert_refused(&with(name + byte, &[0x7F]), 6, name);
        }
    }
}

#[test]
fn repeated_name_is_at_the_later_name() {
    assert_refused(&with(33, b"job-zero"), 7, 33);
    assert_refused(&with(55, b"job-zero"), 7, 55);
    assert_refused(&with(55, b"job-one-"), 7, 55);
    assert_refused(&with(11, b"job-one-"), 7, 33);
    assert_refused(&with(11, b"job-two-"), 7, 55);
    let all_three = with_two((33, b"job-zero"), (55, b"job-zero"));
    assert_refused(&all_three, 7, 33);
}

#[test]
fn wrong_grade_is_at_the_grade() {
    for at in [19, 41, 63] {
        assert_refused(&with(at, &[2]), 8, at);
        assert_refused(&with(at, &[255]), 8, at);
    }
}

#[test]
fn wrong_times_or_size_are_at_the_release() {
    for (release, size, deadline) in [(20, 24, 28), (42, 46, 50), (64, 68, 72)] {
        assert_refused(&with(release, &[0, 0, 0, 4]), 9, release);
        assert_refused(&with(release, &[255; 4]), 9, release);
        assert_refused(&with(size, &[0; 4]), 9, release);
        assert_refused(&with(size, &100_000_001_u32.to_be_bytes()), 9, release);
        assert_refused(&with(deadline, &[0; 4]), 9, release);
        assert_refused(&with(deadline, &100_001_u32.to_be_bytes()), 9, release);
        assert_refused(&with(release, &[255; 12]), 9, release);
    }
}

#[test]
fn row_count_too_high_is_at_the_count() {
    assert_refused(&with(76, &[7, 225]), 10, 76);
    assert_refused(&with(76, &[255, 255]), 10, 76);
    // With a job less the next length byte stands where the row count is looked for.
    assert_refused(&with(9, &[2]), 10, 54);
    assert_refused(&with(9, &[1]), 10, 32);
}

#[test]
fn unknown_name_of_a_row_is_at_the_name() {
    for at in [79, 94, 109] {
        assert_refused(&with(at, b"JOB-ZERO"), 11, at);
        assert_refused(&with(at + 7, b"!"), 11, at);
        assert_refused(&with(at + 3, b"\x20"), 11, at);
    }
}

#[test]
fn interval_too_high_is_at_the_interval() {
    for at in [87, 102, 117] {
        assert_refused(&with(at, &[0, 2]), 12, at);
        assert_refused(&with(at, &[1, 0]), 12, at);
        assert_refused(&with(at, &[255, 255]), 12, at);
    }
}

#[test]
fn row_without_units_is_at_the_units() {
    for at in [89, 104, 119] {
        assert_refused(&with(at, &[0; 4]), 13, at);
    }
}

#[test]
fn row_out_of_order_is_at_its_length_byte() {
    // The same job and interval as the row before.
    assert_refused(&with(94, b"job-zero\x00\x00"), 14, 93);
    assert_refused(&with(109, b"job-one-\x00\x01"), 14, 108);
    // The same job, an earlier interval.
    assert_refused(&with(109, b"job-one-\x00\x00"), 14, 108);
    // An earlier job, a later interval.
    assert_refused(&with(109, b"job-zero\x00\x01"), 14, 108);
    // The row before is the one that does not fit, but the next one tells it.
    assert_refused(&with(79, b"job-two-\x00\x01"), 14, 93);
    assert_refused(&with(94, b"job-two-\x00\x01"), 14, 108);
}

#[test]
fn last_of_many_rows_is_told_of() {
    // Thirty rows of two jobs over fifteen intervals, the last one the same as the one before.
    let mut file = vec![1, 0, 0, 0, 0, 0, 2, 0, 1, 16];
    for job in 0..16 {
        file.extend([21, b'A' + job, b'-', b'-', b'-', b'-', b'-', b'-', b'-', 0]);
        file.extend([0, 0, 0, job, 0, 0, 0, 1, 0, 0, 0, job + 1]);
    }
    file.extend([0, 30]);
    for row in 0..30 {
        let interval = if row == 29 { 13 } else { row % 15 };
        file.extend([
            14,
            b'A' + row / 15,
            b'-',
            b'-',
            b'-',
            b'-',
            b'-',
            b'-',
            b'-',
        ]);
        file.extend([0, interval, 0, 0, 0, 1]);
    }
    // 10 + 16 * 22 + 2 + 29 * 15
    assert_refused(&sealed(file), 14, 799);
}

#[test]
fn first_of_two_faults_has_its_own_place() {
    assert_refused(&with_two((0, &[2]), (1, &[0; 4])), 1, 0);
    assert_refused(&with_two((1, &[0; 4]), (5, &[0; 2])), 2, 1);
    assert_refused(&with_two((5, &[0; 2]), (9, &[0])), 4, 5);
    assert_refused(&with_two((9, &[0]), (10, &[20])), 5, 9);
    assert_refused(&with_two((54, &[20]), (78, &[13])), 3, 54);
    assert_refused(&with_two((32, &[20]), (33, &[0])), 3, 32);
    assert_refused(&with_two((55, &[0]), (33, b"job-zero")), 7, 33);
    assert_refused(&with_two((33, &[0]), (55, b"job-zero")), 6, 33);
    assert_refused(&with_two((33, b"job-zero"), (41, &[2])), 7, 33);
    assert_refused(&with_two((41, &[2]), (50, &[0; 4])), 8, 41);
    assert_refused(&with_two((28, &[0; 4]), (41, &[2])), 9, 20);
    assert_refused(&with_two((72, &[0; 4]), (76, &[255; 2])), 9, 64);
    assert_refused(&with_two((76, &[255; 2]), (78, &[13])), 10, 76);
    assert_refused(&with_two((94, &[0]), (102, &[0, 9])), 11, 94);
    assert_refused(&with_two((102, &[0, 9]), (104, &[0; 4])), 12, 102);
    assert_refused(
        &with_two((94, b"job-zero\x00\x00"), (104, &[0; 4])),
        13,
        104,
    );
    assert_refused(&with_two((94, b"job-zero\x00\x00"), (108, &[13])), 14, 93);
    assert_refused(&with_two((94, b"job-two-"), (109, b"job-zero")), 14, 108);
}

#[test]
fn leftover_bytes_come_after_every_other_fault() {
    let leftover = |mut file: Vec<u8>| {
        file.push(14);
        sealed(file)
    };
    assert_refused(&leftover(with(109, b"job-one-\x00\x01")), 14, 108);
    assert_refused(&leftover(with(119, &[0; 4])), 13, 119);
    assert_refused(&leftover(with(5, &[0; 2])), 4, 5);
    assert_refused(&leftover(three_jobs()), 2, 123);
}
