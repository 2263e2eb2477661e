//! Export of a job list: the exact text, each refusal, their order, and what the output holds after.

use crate::common::{hi, lo};
use reference::joblist::{export, import, text_of, JobList};
use reference::plan::Job;

const MARK: u8 = 0xEE;

const E_TEXT: &[u8] =
    b"name,grade,release,size,deadline\r\nMirror-A,L,0,6,5\r\nmirror-A,H,1,8,10\r\n";

fn e_list() -> JobList {
    JobList::of(&[lo(b"Mirror-A", 0, 6, 5), hi(b"mirror-A", 1, 8, 10)])
}

/// The export's answer with an output of so many bytes, and that output.
fn exported(list: &JobList, bytes: usize) -> (Result<usize, u8>, Vec<u8>) {
    let mut output = vec![MARK; bytes];
    let answer = export(list, &mut output);
    (answer, output)
}

/// The line of a list of one job.
fn line_of(job: Job) -> String {
    let text = text_of(&JobList::of(&[job])).unwrap();
    String::from_utf8(text[34..].to_vec()).unwrap()
}

/// 32 jobs with names that differ in their last two bytes.
fn many() -> JobList {
    let mut list = JobList::of(&[hi(b"job-no--", 0, 1, 1); 32]);
    for (k, job) in list.jobs.iter_mut().enumerate() {
        job.name[6] = b'0' + k as u8 / 10;
        job.name[7] = b'0' + k as u8 % 10;
    }
    list
}

#[track_caller]
fn assert_unsound(list: &JobList) {
    for bytes in [0, 34, 4_000] {
        assert_eq!(exported(list, bytes), (Err(21), vec![MARK; bytes]));
    }
}

#[test]
fn jobs_of_plan_e_byte_for_byte() {
    assert_eq!(E_TEXT.len(), 71);
    assert_eq!(exported(&e_list(), 71), (Ok(71), E_TEXT.to_vec()));
}

#[test]
fn bytes_past_the_text_stay() {
    let (answer, output) = exported(&e_list(), 75);
    assert_eq!(answer, Ok(71));
    assert_eq!(output, [E_TEXT, &[MARK; 4]].concat());
}

#[test]
fn every_shorter_output_is_22_and_stays() {
    for bytes in 0..71 {
        assert_eq!(exported(&e_list(), bytes), (Err(22), vec![MARK; bytes]));
    }
}

#[test]
fn only_fields_that_must_be_are_quoted() {
    assert_eq!(line_of(hi(b"mirror-A", 1, 8, 10)), "mirror-A,H,1,8,10\r\n");
    assert_eq!(
        line_of(lo(b"a,b-cdef", 0, 1, 1)),
        "\"a,b-cdef\",L,0,1,1\r\n"
    );
    assert_eq!(
        line_of(lo(b"a\"b-cdef", 0, 1, 1)),
        "\"a\"\"b-cdef\",L,0,1,1\r\n"
    );
    assert_eq!(
        line_of(lo(b"\"\"\"\"\"\"\"\"", 0, 1, 1)),
        "\"\"\"\"\"\"\"\"\"\"\"\"\"\"\"\"\"\",L,0,1,1\r\n"
    );
    assert_eq!(
        line_of(lo(b",,,,,,,,", 0, 1, 1)),
        "\",,,,,,,,\",L,0,1,1\r\n"
    );
    assert_eq!(
        line_of(lo(b"\",\",\",\",", 0, 1, 1)),
        "\"\"\",\"\",\"\",\"\",\",L,0,1,1\r\n"
    );
    assert_eq!(line_of(lo(b"'=+-@;`~", 0, 1, 1)), "'=+-@;`~,L,0,1,1\r\n");
}

#[test]
fn of_all_bytes_only_comma_and_quote_are_quoted() {
    for byte in 0x21..=0x7E_u8 {
        for place in [0, 3, 7] {
            let mut job = lo(b"only-job", 0, 1, 1);
            job.name[place] = byte;
            let quoted = line_of(job).starts_with('"');
            assert_eq!(quoted, byte == b',' || byte == b'"', "{}", byte);
        }
    }
}

#[test]
fn numbers_are_written_without_leading_zeros() {
    assert_eq!(
        line_of(hi(b"only-job", 0, 100_000_000, 100_000)),
        "only-job,H,0,100000000,100000\r\n"
    );
    assert_eq!(
        line_of(hi(b"only-job", 99_999, 10, 100_000)),
        "only-job,H,99999,10,100000\r\n"
    );
}

#[test]
fn count_out_of_bounds_is_21() {
    for count in [
        0,
        33,
        34,
        64,
        256 + 2,
        (1 << 16) + 2,
        (1 << 32) + 2,
        u64::MAX,
    ] {
        let mut list = e_list();
        list.count = count;
        assert_unsound(&list);
    }
}

#[test]
fn each_broken_rule_is_21_at_every_job() {
    for k in 0..32 {
        let changed = |change: &dyn Fn(&mut Job)| {
            let mut list = many();
            change(&mut list.jobs[k]);
            list
        };
        for byte in [0, b'\r', b'\n', 0x20, 0x7F, 0x80, 0xFF] {
            assert_unsound(&changed(&|job| job.name[0] = byte));
            assert_unsound(&changed(&|job| job.name[7] = byte));
        }
        let other = many().jobs[(k + 7) % 32].name;
        assert_unsound(&changed(&|job| job.name = other));
        for grade in [2, b'H', b'L', 128, 255] {
            assert_unsound(&changed(&|job| job.grade = grade));
        }
        assert_unsound(&changed(&|job| job.release = 1));
        assert_unsound(&changed(&|job| job.release = u32::MAX));
        assert_unsound(&changed(&|job| job.deadline = 0));
        assert_unsound(&changed(&|job| job.deadline = 100_001));
        assert_unsound(&changed(&|job| job.deadline = u32::MAX));
        assert_unsound(&changed(&|job| job.size = 0));
        assert_unsound(&changed(&|job| job.size = 100_000_001));
        assert_unsound(&changed(&|job| job.size = (1 << 32) + 1));
        assert_unsound(&changed(&|job| job.size = u64::MAX));
    }
}

#[test]
fn records_from_the_count_on_are_not_looked_at() {
    let mut list = e_list();
    list.jobs[2] = list.jobs[0];
    list.jobs[3].grade = 9;
    list.jobs[31].name = [0xFF; 8];
    assert_eq!(exported(&list, 71), (Ok(71), E_TEXT.to_vec()));
}

#[test]
fn one_and_32_jobs_are_written() {
    assert_eq!(
        exported(&JobList::of(&[hi(b"only-job", 0, 1, 1)]), 60).0,
        Ok(52)
    );
    let (answer, output) = exported(&many(), 610);
    assert_eq!(answer, Ok(610));
    assert_eq!(import(&output), Ok(many().jobs.to_vec()));
    assert_eq!(exported(&many(), 609).0, Err(22));
}

#[test]
fn largest_text_has_1_443_bytes() {
    // One name can be all quotes, all others have one other byte.
    let mut list = JobList::of(&[hi(b"\"\"\"\"\"\"\"\"", 99_999, 100_000_000, 100_000); 32]);
    for k in 1..32 {
        list.jobs[k].name[k % 8] = b'A' + k as u8;
    }
    // 34 of the header; name, grade, numbers, commas and end: 18 + 1 + 5 + 9 + 6 + 4 + 2, 31 times one less.
    let (answer, output) = exported(&list, 1_443);
    assert_eq!(answer, Ok(1_443));
    assert_eq!(import(&output), Ok(list.jobs.to_vec()));
    assert_eq!(exported(&list, 1_442).0, Err(22));
}

#[test]
fn exported_text_imports_to_the_same_jobs_in_the_same_order() {
    let jobs = [
        hi(b"z,\"y\",x!", 5, 100_000_000, 100_000),
        lo(b"\"\"\"\"\"\"\"\"", 0, 1, 1),
        lo(b",,,,,,,,", 99_999, 20, 100_000),
        hi(b"mirror-A", 10, 300, 20),
        lo(b"Mirror-A", 0, 1, 100),
        hi(b"\",\",\",\",", 1, 2, 3),
    ];
    let list = JobList::of(&jobs);
    let text = text_of(&list).unwrap();
    assert_eq!(import(&text), Ok(jobs.to_vec()));
    let again = JobList::of(&import(&text).unwrap());
    assert_eq!(text_of(&again), Ok(text));
}
