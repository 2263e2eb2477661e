//! Import of a job list: the lines that it takes and the lines that it refuses, each by its number.

use crate::common::{hi, lo};
use reference::edition::{HI, LO};
use reference::joblist::import;
use reference::plan::Job;

/// The header's line, 34 bytes.
const HEADER: &str = "name,grade,release,size,deadline\r\n";

/// A text of the header and these bytes.
fn text(rest: &[u8]) -> Vec<u8> {
    [HEADER.as_bytes(), rest].concat()
}

/// A text of the header and one line, its end added.
fn line(line: &str) -> Vec<u8> {
    text(format!("{}\r\n", line).as_bytes())
}

fn number(text: &[u8]) -> u8 {
    match import(text) {
        Ok(_) => 0,
        Err(fault) => fault.number,
    }
}

#[track_caller]
fn assert_number(text: &[u8], expected: u8) {
    assert_eq!(
        number(text),
        expected,
        "{:?}",
        String::from_utf8_lossy(text)
    );
}

/// Every line is refused with the number.
#[track_caller]
fn assert_lines(lines: &[&str], expected: u8) {
    for words in lines {
        assert_number(&line(words), expected);
    }
}

/// The only job of a text of one line.
#[track_caller]
fn only_job(words: &str) -> Job {
    let jobs = import(&line(words)).unwrap();
    assert_eq!(jobs.len(), 1);
    jobs[0]
}

/// So many lines with names that differ.
fn lines(count: usize) -> Vec<u8> {
    let lines: Vec<String> = (0..count)
        .map(|k| format!("job-no{:02},L,0,1,1\r\n", k))
        .collect();
    lines.concat().into_bytes()
}

#[test]
fn jobs_of_plan_e() {
    let jobs = import(&text(b"Mirror-A,L,0,6,5\r\nmirror-A,H,1,8,10\r\n"));
    let expected = vec![lo(b"Mirror-A", 0, 6, 5), hi(b"mirror-A", 1, 8, 10)];
    assert_eq!(jobs, Ok(expected));
}

#[test]
fn jobs_keep_the_order_of_the_lines() {
    let jobs = import(&text(b"zzzzzzzz,H,5,1,9\r\naaaaaaaa,L,0,1,3\r\n")).unwrap();
    assert_eq!((jobs[0].name, jobs[1].name), (*b"zzzzzzzz", *b"aaaaaaaa"));
}

#[test]
fn every_field_may_be_quoted() {
    let expected = hi(b"mirror-A", 1, 8, 10);
    for words in [
        "mirror-A,H,1,8,10",
        "\"mirror-A\",H,1,8,10",
        "mirror-A,\"H\",1,8,10",
        "mirror-A,H,\"1\",8,10",
        "mirror-A,H,1,\"8\",10",
        "mirror-A,H,1,8,\"10\"",
        "\"mirror-A\",\"H\",\"1\",\"8\",\"10\"",
    ] {
        assert_eq!(only_job(words), expected, "{}", words);
    }
}

#[test]
fn names_hold_commas_and_quotes() {
    for (words, name) in [
        ("\"a,b,c,d,\",L,0,1,1", b"a,b,c,d,"),
        ("\",,,,,,,,\",L,0,1,1", b",,,,,,,,"),
        ("\"\"\"bcdefgh\",L,0,1,1", b"\"bcdefgh"),
        ("\"abcdefg\"\"\",L,0,1,1", b"abcdefg\""),
        ("\"abc\"\"\"\"fgh\",L,0,1,1", b"abc\"\"fgh"),
        ("\"\"\",\"\",\"\",\"\",\",L,0,1,1", b"\",\",\",\","),
        (
            "\"\"\"\"\"\"\"\"\"\"\"\"\"\"\"\"\"\",L,0,1,1",
            b"\"\"\"\"\"\"\"\"",
        ),
        ("'a;b'=+@,L,0,1,1", b"'a;b'=+@"),
        ("!~!~!~!~,L,0,1,1", b"!~!~!~!~"),
    ] {
        assert_eq!(only_job(words), lo(name, 0, 1, 1), "{}", words);
    }
}

#[test]
fn grades_are_h_and_l() {
    assert_eq!(only_job("only-job,H,0,1,1").grade, HI);
    assert_eq!(only_job("only-job,L,0,1,1").grade, LO);
}

#[test]
fn numbers_at_their_bounds_are_taken() {
    assert_eq!(
        only_job("only-job,L,0,1,100000"),
        lo(b"only-job", 0, 1, 100_000)
    );
    assert_eq!(
        only_job("only-job,L,99999,100000000,100000"),
        lo(b"only-job", 99_999, 100_000_000, 100_000)
    );
    assert_eq!(only_job("only-job,L,0,1,1"), lo(b"only-job", 0, 1, 1));
}

#[test]
fn one_to_32_lines_are_taken() {
    for count in 1..=32 {
        assert_eq!(import(&text(&lines(count))).unwrap().len(), count);
    }
}

#[test]
fn empty_text_is_24() {
    assert_number(b"", 24);
}

#[test]
fn every_beginning_of_the_header_is_24() {
    for length in 0..34 {
        assert_number(&HEADER.as_bytes()[..length], 24);
    }
}

#[test]
fn every_changed_byte_of_the_header_is_24() {
    for place in 0..34 {
        for change in [0x01, 0x20, 0x80] {
            let mut text = line("only-job,L,0,1,1");
            text[place] ^= change;
            assert_number(&text, 24);
        }
    }
}

#[test]
fn other_headers_are_24() {
    for header in [
        "\"name\",grade,release,size,deadline\r\n",
        "\"name\",\"grade\",\"release\",\"size\",\"deadline\"\r\n",
        "Name,Grade,Release,Size,Deadline\r\n",
        "NAME,GRADE,RELEASE,SIZE,DEADLINE\r\n",
        "name, grade, release, size, deadline\r\n",
        " name,grade,release,size,deadline\r\n",
        "name,grade,release,size,deadline \r\n",
        "name,grade,release,size,deadline,\r\n",
        "name,grade,release,deadline,size\r\n",
        "name,grade,release,size\r\n",
        "name;grade;release;size;deadline\r\n",
        "name,grade,release,size,deadline",
        "name,grade,release,size,deadline\n",
        "name,grade,release,size,deadline\r",
        "name,grade,release,size,deadline\n\r",
        "name,grade,release,size,deadline\r\r\n",
        "\u{FEFF}name,grade,release,size,deadline\r\n",
        "\r\nname,grade,release,size,deadline\r\n",
        "",
    ] {
        let mut text = header.as_bytes().to_vec();
        assert_number(&text, 24);
        text.extend(b"only-job,L,0,1,1\r\n");
        assert_number(&text, 24);
    }
}

#[test]
fn wrong_header_comes_before_every_other_fault() {
    let mut wrong = HEADER.to_uppercase().into_bytes();
    wrong.extend(b"x");
    assert_number(&wrong, 24);
    let mut wrong = HEADER.to_uppercase().into_bytes();
    wrong.extend(lines(33));
    assert_number(&wrong, 24);
}

#[test]
fn header_alone_is_5() {
    assert_number(&text(b""), 5);
}

#[test]
fn line_33_is_5() {
    assert_number(&text(&lines(33)), 5);
    assert_number(&text(&lines(40)), 5);
}

#[test]
fn line_33_is_5_whatever_it_holds() {
    for rest in [
        &b"x"[..],
        b"\r\n",
        b"\r",
        b"\n",
        b"\"",
        b",",
        b" ",
        b"\0",
        b"\xFF",
        b"job-no00,L,0,1,1\r\n",
        b"only-job,X,0,1,1\r\n",
        b"only-job,L,0,0,1\r\n",
        b"only job,L,0,1,1\r\n",
        b"only-job,L,0,1,1",
        b"short,L,00\r\n",
    ] {
        assert_number(&text(&[&lines(32), rest].concat()), 5);
    }
}

#[test]
fn faults_of_earlier_lines_come_before_a_line_too_many() {
    let mut lines = lines(33);
    // The grade of line 32: each line has 18 bytes, the name eight and the comma one.
    lines[31 * 18 + 9] = b'X';
    assert_number(&text(&lines), 8);
}

#[test]
fn header_twice_is_23() {
    assert_number(&text(HEADER.as_bytes()), 23);
}

#[test]
fn line_without_crlf_is_23() {
    for rest in [
        &b"only-job,L,0,1,1"[..],
        b"only-job,L,0,1,1\n",
        b"only-job,L,0,1,1\r",
        b"only-job,L,0,1,1\n\r",
        b"only-job,L,0,1,1\r\r\n",
        b"only-job,L,0,1,\"1\"",
        b"only-job,L,0,1,\"1\"\n",
        b"only-job,L,0,1,\"1\r\n",
        b"only-job,L,0,1,\"1\r\n\"",
        b"only-job,L,0,1,1 \r",
        b"only-job,L,0,1,",
        b"only-job,L,0",
        b"only-job",
        b"o",
        b"\"",
        b",",
        b"\r",
        b"\n",
        b" ",
    ] {
        assert_number(&text(rest), 23);
    }
}

#[test]
fn next_line_after_a_single_lf_or_cr_is_23() {
    assert_number(&text(b"job-no-0,L,0,1,1\njob-no-1,L,0,1,1\r\n"), 23);
    assert_number(&text(b"job-no-0,L,0,1,1\rjob-no-1,L,0,1,1\r\n"), 23);
}

#[test]
fn every_cut_of_the_only_line_is_23() {
    let whole = line("\"a\"\"b,cdef\",\"H\",\"1\",8,10");
    assert_number(&whole, 0);
    for length in 35..whole.len() {
        assert_number(&whole[..length], 23);
    }
    assert_number(&whole[..34], 5);
}

#[test]
fn every_cut_of_the_last_line_is_23() {
    let first = b"\"a\"\"b,c,ef\",\"H\",\"1\",8,10\r\n";
    let last = b"\"a\"\"b,cdef\",\"H\",\"1\",8,10\r\n";
    let whole = text(&[&first[..], &last[..]].concat());
    assert_eq!(import(&whole).unwrap().len(), 2);
    for length in 34 + first.len() + 1..whole.len() {
        assert_number(&whole[..length], 23);
    }
    assert_eq!(import(&whole[..34 + first.len()]).unwrap().len(), 1);
}

#[test]
fn empty_lines_are_23() {
    assert_number(&text(b"\r\n"), 23);
    assert_number(&text(b"only-job,L,0,1,1\r\n\r\n"), 23);
    assert_number(&text(b"\r\nonly-job,L,0,1,1\r\n"), 23);
    assert_lines(&[" ", "\"\"", "\"\r\n\""], 23);
}

#[test]
fn other_than_five_fields_is_23() {
    assert_lines(
        &[
            "only-job",
            "only-job,L",
            "only-job,L,0",
            "only-job,L,0,1",
            "only-job,L,0,1,1,",
            "only-job,L,0,1,1,1",
            "only-job,L,0,1,1,\"\"",
            "only-job,L,0,1,1,,,,",
            ",only-job,L,0,1,1",
            "only-job,,L,0,1,1",
            "only-job;L;0;1;1",
            ",,,,",
            ",,,,,",
        ],
        23,
    );
}

#[test]
fn commas_in_quotes_part_no_fields() {
    assert_lines(&["\"only-job,L,0,1,1\"", "only-job,\"L,0\",1,1"], 23);
    // Five fields, one of them a grade with commas.
    assert_number(&line("only-job,\"L,0,1\",0,1,1"), 8);
    // Five fields, one of them a number with a comma.
    assert_number(&line("only-job,L,0,\"1,000\",1"), 23);
}

#[test]
fn quote_inside_a_plain_field_is_23() {
    assert_lines(
        &[
            "on\"y-job,L,0,1,1",
            "on\"\"-job,L,0,1,1",
            "only-jo\",L,0,1,1",
            "only-job,L\",0,1,1",
            "only-job,L,0\",1,1",
            "only-job,L,0,1\"\",1",
            "only-job,L,0,1,1\"",
            "only-job, \"L\",0,1,1",
            " \"only-jo\",L,0,1,1",
        ],
        23,
    );
}

#[test]
fn text_after_a_closing_quote_is_23() {
    assert_lines(
        &[
            "\"only-jo\"b,L,0,1,1",
            "\"only-job\"x,L,0,1,1",
            "\"only-job\" ,L,0,1,1",
            "\"only\"\"-job\"\"\"x,L,0,1,1",
            "only-job,\"L\"L,0,1,1",
            "only-job,\"\"L,0,1,1",
            "only-job,L,\"0\"0,1,1",
            "only-job,L,0,\"1\" ,1",
            "only-job,L,0,1,\"1\"1",
            "only-job,L,0,1,\"1\"\"\"\"",
        ],
        23,
    );
}

#[test]
fn quote_that_is_not_closed_is_23() {
    assert_lines(
        &[
            "\"only-job,L,0,1,1",
            "only-job,\"L,0,1,1",
            "only-job,L,0,1,\"1",
            "only-job,L,0,1,\"1\"\"",
            "only-job,L,0,1,\"",
            "\"\"\",L,0,1,1",
        ],
        23,
    );
    // The rest of the text is inside the quotes, further lines included.
    assert_number(&text(b"job-no-0,L,0,1,\"1\r\njob-no-1,L,0,1,1\r\n"), 23);
}

#[test]
fn bytes_outside_textdata_are_23_in_every_field() {
    let wrong: Vec<u8> = (0..0x20).chain(0x7F..=0xFF).collect();
    for byte in wrong {
        for field in 0..5 {
            let mut fields =
                ["only-job", "L", "0", "1", "1"].map(|field| field.as_bytes().to_vec());
            // In the name the byte takes the place of another, so that there are eight.
            let last = fields[field].len() - 1;
            fields[field][last] = byte;
            let plain = [fields.join(&b','), b"\r\n".to_vec()].concat();
            assert_number(&text(&plain), 23);
            // CR and LF may stand in quotes; of all fields only name and grade bear them then.
            if byte != b'\r' && byte != b'\n' {
                fields[field].insert(0, b'"');
                fields[field].push(b'"');
                let quoted = [fields.join(&b','), b"\r\n".to_vec()].concat();
                assert_number(&text(&quoted), 23);
            }
        }
    }
}

#[test]
fn bare_cr_or_lf_is_23_and_not_6() {
    assert_lines(
        &[
            "only\rjob,L,0,1,1",
            "only\njob,L,0,1,1",
            "onl\r\njob,L,0,1,1",
            "only-jo\r,L,0,1,1",
            "\nnly-job,L,0,1,1",
        ],
        23,
    );
}

#[test]
fn name_that_is_not_eight_bytes_is_23() {
    assert_lines(
        &[
            ",L,0,1,1",
            "\"\",L,0,1,1",
            "only-jo,L,0,1,1",
            "only-jobs,L,0,1,1",
            "\"only-jo\",L,0,1,1",
            "\"only-jobs\",L,0,1,1",
            "\"only-jo\"\"s\",L,0,1,1",
            "\"only-\"\"\",L,0,1,1",
            "only-jo ,L,0,1,1,",
            "only-job ,L,0,1,1",
            " only-job,L,0,1,1",
        ],
        23,
    );
    // Doubled quotes count once: ten bytes between the quotes, eight in the name.
    assert_eq!(only_job("\"only\"\"\"\"ob\",L,0,1,1").name, *b"only\"\"ob");
    // And eight bytes between the quotes are seven in the name.
    assert_lines(&["\"only\"\"ob\",L,0,1,1"], 23);
}

#[test]
fn numbers_that_are_no_such_decimals_are_23() {
    for number in [
        "",
        "\"\"",
        "00",
        "01",
        "000",
        "007",
        "+1",
        "-1",
        "+0",
        "-0",
        "0x1",
        "1.0",
        "1.",
        ".1",
        "1e3",
        "1_000",
        " 1",
        "1 ",
        "1 0",
        "one",
        "/",
        ":",
        "1/",
        "1:",
        "H",
        "\"00\"",
        "\"+1\"",
        "\"-0\"",
        "\" 1\"",
        "\"1\r\n\"",
        "\"\r\n1\"",
        "\"1,0\"",
        "\"\"\"1\"\"\"",
        "1\"\"",
        "\"1\"\"\"",
        "00000000000000000000000000000000000001",
    ] {
        assert_lines(
            &[
                &format!("only-job,L,{},1,1", number),
                &format!("only-job,L,0,{},1", number),
                &format!("only-job,L,0,1,{}", number),
            ],
            23,
        );
    }
}

#[test]
fn zero_itself_is_a_decimal() {
    assert_eq!(only_job("only-job,L,0,1,1").release, 0);
    assert_eq!(only_job("only-job,L,\"0\",1,1").release, 0);
    assert_lines(&["only-job,L,0,0,1", "only-job,L,0,1,0"], 9);
}

#[test]
fn space_in_a_name_is_6() {
    assert_lines(
        &[
            " nly-job,L,0,1,1",
            "only job,L,0,1,1",
            "only-jo ,L,0,1,1",
            "        ,L,0,1,1",
            "\"only job\",L,0,1,1",
            "\" \"\"\"\",,   \",L,0,1,1",
        ],
        6,
    );
}

#[test]
fn cr_and_lf_in_quotes_are_6() {
    assert_lines(
        &[
            "\"only\rjob\",L,0,1,1",
            "\"only\njob\",L,0,1,1",
            "\"onl\r\njob\",L,0,1,1",
            "\"\r\n\r\n\r\n\r\n\",L,0,1,1",
            "\"only-j\r\n\",L,0,1,1",
            "\"\r\nly-job\",L,0,1,1",
        ],
        6,
    );
}

#[test]
fn repeated_name_is_7() {
    for name in ["only-job", "\"on,y-job\"", "\"on\"\"y-job\""] {
        let rest = format!("{0},L,0,1,1\r\n{0},H,0,2,2\r\n", name);
        assert_number(&text(rest.as_bytes()), 7);
    }
    assert_number(
        &text(b"job-no-0,L,0,1,1\r\njob-no-1,L,0,1,1\r\njob-no-0,L,0,1,1\r\n"),
        7,
    );
}

#[test]
fn quotes_around_it_make_no_other_name() {
    assert_number(&text(b"only-job,L,0,1,1\r\n\"only-job\",L,0,1,1\r\n"), 7);
    assert_number(&text(b"\"only-job\",L,0,1,1\r\nonly-job,L,0,1,1\r\n"), 7);
}

#[test]
fn names_that_differ_in_case_are_two() {
    let jobs = import(&text(b"only-job,L,0,1,1\r\nOnly-job,L,0,1,1\r\n"));
    assert_eq!(jobs.unwrap().len(), 2);
}

#[test]
fn other_grades_are_8() {
    for grade in [
        "",
        "\"\"",
        "h",
        "l",
        "HH",
        "LL",
        "HL",
        " H",
        "H ",
        "HI",
        "LO",
        "0",
        "1",
        "X",
        "\"h\"",
        "\"HH\"",
        "\"H\"\"\"",
        "\"\"\"H\"",
        "\",\"",
        "\"H,\"",
        "\"\r\n\"",
        "\"H\r\n\"",
        "\"\r\"",
        "\" H\"",
        " ",
    ] {
        assert_lines(&[&format!("only-job,{},0,1,1", grade)], 8);
    }
}

#[test]
fn every_single_byte_as_a_grade() {
    for byte in 0..=255 {
        let plain = [b"only-job,", &[byte][..], b",0,1,1\r\n"].concat();
        let quoted = [b"only-job,\"", &[byte][..], b"\",0,1,1\r\n"].concat();
        let (in_plain, in_quotes) = match byte {
            b'H' | b'L' => (0, 0),
            // A single quote opens a field, and stands for the end of one inside quotes.
            b'"' => (23, 23),
            // One field more.
            b',' => (23, 8),
            b'\r' | b'\n' => (23, 8),
            0x20..=0x7E => (8, 8),
            _ => (23, 23),
        };
        assert_number(&text(&plain), in_plain);
        assert_number(&text(&quoted), in_quotes);
    }
}

#[test]
fn numbers_beyond_their_bounds_are_9() {
    assert_lines(
        &[
            "only-job,L,1,1,1",
            "only-job,L,2,1,1",
            "only-job,L,0,1,0",
            "only-job,L,100000,1,100000",
            "only-job,L,0,1,100001",
            "only-job,L,100000,1,100001",
            "only-job,L,0,0,1",
            "only-job,L,0,100000001,1",
            "only-job,L,0,999999999,1",
        ],
        9,
    );
}

#[test]
fn numbers_that_would_wrap_are_9() {
    // Each is 0 or 1 in 8, 16, 32, 64 or 128 bits.
    for number in [
        "4294967296",
        "4294967297",
        "8589934593",
        "18446744073709551616",
        "18446744073709551617",
        "340282366920938463463374607431768211456",
        "340282366920938463463374607431768211457",
    ] {
        assert_lines(
            &[
                &format!("only-job,L,{},1,2", number),
                &format!("only-job,L,0,{},2", number),
                &format!("only-job,L,0,1,{}", number),
                &format!("only-job,L,\"{}\",1,2", number),
            ],
            9,
        );
    }
}

#[test]
fn decimals_of_any_length_are_9() {
    for length in [11, 20, 21, 40, 1_000, 100_000] {
        let nines = "9".repeat(length);
        let zeros = format!("1{}", "0".repeat(length - 1));
        for number in [nines, zeros] {
            assert_lines(
                &[
                    &format!("only-job,L,{},1,1", number),
                    &format!("only-job,L,0,{},1", number),
                    &format!("only-job,L,0,1,{}", number),
                    &format!("only-job,L,{0},{0},{0}", number),
                    &format!("only-job,L,\"{0}\",\"{0}\",\"{0}\"", number),
                ],
                9,
            );
        }
        let leading = format!("0{}", "9".repeat(length));
        assert_lines(&[&format!("only-job,L,0,1,{}", leading)], 23);
        let letter = format!("{}x", "9".repeat(length));
        assert_lines(&[&format!("only-job,L,0,1,{}", letter)], 23);
    }
}

#[test]
fn all_of_23_comes_before_6_to_9_of_the_line() {
    // The last number is no decimal.
    assert_lines(
        &[
            "only job,L,0,1,00",
            "only-job,X,0,1,00",
            "only-job,L,9,1,00",
            "only-job,L,0,0,+1",
            "only job,X,9,0,",
        ],
        23,
    );
    // A field too many, or an end that is wrong.
    assert_lines(&["only job,X,9,0,0,"], 23);
    assert_number(&text(b"only job,X,9,0,0\n"), 23);
    assert_number(&text(b"only job,X,9,0,0"), 23);
    // A repeated name.
    let first = b"only-job,L,0,1,1\r\n";
    let second = b"only-job,L,0,1,01\r\n";
    assert_number(&text(&[&first[..], &second[..]].concat()), 23);
}

#[test]
fn order_of_6_to_9_in_a_line() {
    let after_first = |second: &str| {
        let rest = format!("only-job,L,0,1,1\r\n{}\r\n", second);
        number(&text(rest.as_bytes()))
    };
    assert_eq!(after_first("only job,X,1,1,1"), 6);
    assert_eq!(after_first("only job,L,1,1,1"), 6);
    assert_eq!(after_first("only-job,X,1,1,1"), 7);
    assert_eq!(after_first("only-job,L,1,1,1"), 7);
    assert_eq!(after_first("next-job,X,1,1,1"), 8);
    assert_eq!(after_first("next-job,L,1,1,1"), 9);
    assert_eq!(after_first("next-job,L,1,1,2"), 0);
}

#[test]
fn faults_of_a_line_come_before_those_of_the_next() {
    let two = |first: &str, second: &str| {
        let rest = format!("{}\r\n{}\r\n", first, second);
        number(&text(rest.as_bytes()))
    };
    assert_eq!(two("job-no-0,L,0,1,0", "job no 1,L,0,1,1"), 9);
    assert_eq!(two("job-no-0,X,0,1,1", "job-no-0,L,0,1,1"), 8);
    assert_eq!(two("job-no-0,L,0,1,0", "garbage\""), 9);
    assert_eq!(two("garbage", "job no 1,L,0,1,1"), 23);
    assert_eq!(two("job no 0,L,0,1,1", "garbage"), 6);
}

#[test]
fn lines_end_outside_quotes_only() {
    // The first line's grade holds what looks like a line.
    let rest = b"job-no-0,\"L,0,1,1\r\njob-no-1,H\",0,1,1\r\n";
    assert_number(&text(rest), 8);
    // Were the line to end inside the quotes, two wrong lines would be found.
    let rest = b"\"job\r\n-0\",L,0,1,1\r\n";
    assert_number(&text(rest), 23);
    let rest = b"\"job\r\n-no\",L,0,1,1\r\n";
    assert_number(&text(rest), 6);
}
