//! Import of a job list: where each refusal is told of, the offsets counted by hand.

use reference::joblist::import;
use reference::reader::Fault;

/// The header's line has 34 bytes, and each of the three lines below 19.
const LINE_0: usize = 34;
const LINE_1: usize = 53;
const LINE_2: usize = 72;
const END: usize = 91;
/// Where the fields of such a line stand, counted from its first byte.
const NAME: usize = 0;
const GRADE: usize = 9;
const RELEASE: usize = 11;
const SIZE: usize = 13;
const DEADLINE: usize = 15;
const CRLF: usize = 17;

fn three_lines() -> Vec<u8> {
    let lines = [
        &b"name,grade,release,size,deadline\r\n"[..],
        b"job-zero,L,0,1,20\r\n",
        b"job-one-,H,0,2,40\r\n",
        b"job-two-,L,2,3,40\r\n",
    ];
    lines.concat()
}

/// The text with bytes replaced.
fn with(at: usize, bytes: &[u8]) -> Vec<u8> {
    let mut text = three_lines();
    text[at..at + bytes.len()].copy_from_slice(bytes);
    text
}

/// The text with bytes put in.
fn with_more(at: usize, bytes: &[u8]) -> Vec<u8> {
    let text = three_lines();
    [&text[..at], bytes, &text[at..]].concat()
}

/// The header and one line, its end added.
fn line(words: &str) -> Vec<u8> {
    let text = format!("name,grade,release,size,deadline\r\n{}\r\n", words);
    text.into_bytes()
}

#[track_caller]
fn assert_refused(text: &[u8], number: u8, offset: usize) {
    assert_eq!(
        import(text),
        Err(Fault { number, offset }),
        "{:?}",
        String::from_utf8_lossy(text)
    );
}

#[test]
fn three_lines_are_taken() {
    assert_eq!(three_lines().len(), END);
    assert_eq!(import(&three_lines()).unwrap().len(), 3);
}

#[test]
fn wrong_header_is_at_0() {
    assert_refused(b"", 24, 0);
    assert_refused(b"name", 24, 0);
    assert_refused(&three_lines()[..33], 24, 0);
    for at in 0..34 {
        assert_refused(&with(at, b"?"), 24, 0);
        assert_refused(&with_more(at, b"?"), 24, 0);
    }
    assert_refused(&three_lines()[34..], 24, 0);
}

#[test]
fn no_line_is_at_the_end_of_the_text() {
    assert_refused(&three_lines()[..34], 5, 34);
}

#[test]
fn line_too_many_is_at_its_first_byte() {
    let mut text = three_lines()[..34].to_vec();
    for k in 0..32 {
        text.extend(format!("job-no{:02},L,0,1,1\r\n", k).bytes());
    }
    assert_eq!(import(&text).unwrap().len(), 32);
    // 34 bytes of the header and 32 lines of 18.
    for rest in [
        &b"job-no32,L,0,1,1\r\n"[..],
        b"job-no32,L,0,1,1\r\njob-no33,L,0,1,1\r\n",
        b"x",
        b"\n",
        b"\r\n",
        b"\"",
        b"\0",
    ] {
        assert_refused(&[&text, rest].concat(), 5, 610);
    }
}

#[test]
fn cut_line_is_at_its_first_byte() {
    let text = three_lines();
    for (line, next) in [(LINE_0, LINE_1), (LINE_1, LINE_2), (LINE_2, END)] {
        for length in line + 1..next {
            assert_refused(&text[..length], 23, line);
        }
    }
}

#[test]
fn wrong_line_is_at_its_first_byte() {
    for line in [LINE_0, LINE_1, LINE_2] {
        // A byte that no field may hold, a quote, a bare CR or LF: anywhere.
        for within in 0..CRLF {
            assert_refused(&with(line + within, b"\0"), 23, line);
            assert_refused(&with(line + within, b"\xC3"), 23, line);
            assert_refused(&with(line + within, b"\r"), 23, line);
            assert_refused(&with(line + within, b"\n"), 23, line);
            assert_refused(&with(line + within, b"\""), 23, line);
        }
        // A comma more or less.
        assert_refused(&with(line + 3, b","), 23, line);
        for comma in [GRADE - 1, RELEASE - 1, SIZE - 1, DEADLINE - 1] {
            assert_refused(&with(line + comma, b"-"), 23, line);
        }
        assert_refused(&with_more(line + CRLF, b","), 23, line);
        // A wrong end.
        assert_refused(&with(line + CRLF, b"\n"), 23, line);
        assert_refused(&with(line + CRLF, b"\n\r"), 23, line);
        assert_refused(&with(line + CRLF + 1, b"\r"), 23, line);
        assert_refused(&with(line + CRLF, b"00"), 23, line);
        // A name of nine bytes.
        assert_refused(&with_more(line + NAME, b"x"), 23, line);
        // Numbers that are no decimals.
        for field in [RELEASE, SIZE, DEADLINE] {
            assert_refused(&with(line + field, b"x"), 23, line);
            assert_refused(&with_more(line + field, b"+"), 23, line);
            assert_refused(&with_more(line + field, b"0"), 23, line);
        }
        // A line before it that is empty.
        assert_refused(&with_more(line, b"\r\n"), 23, line);
    }
    assert_refused(&with_more(END, b"\r\n"), 23, END);
    assert_refused(&with_more(END, b"x"), 23, END);
}

#[test]
fn quote_that_is_never_closed_is_at_the_line_where_it_opens() {
    for line in [LINE_0, LINE_1, LINE_2] {
        for field in [NAME, GRADE, RELEASE, SIZE, DEADLINE] {
            assert_refused(&with_more(line + field, b"\""), 23, line);
        }
    }
}

#[test]
fn wrong_name_byte_is_at_the_name() {
    for line in [LINE_0, LINE_1, LINE_2] {
        for byte in 0..8 {
            assert_refused(&with(line + byte, b" "), 6, line);
        }
    }
}

#[test]
fn repeated_name_is_at_the_later_name() {
    assert_refused(&with(LINE_1, b"job-zero"), 7, LINE_1);
    assert_refused(&with(LINE_2, b"job-zero"), 7, LINE_2);
    assert_refused(&with(LINE_2, b"job-one-"), 7, LINE_2);
    assert_refused(&with(LINE_0, b"job-one-"), 7, LINE_1);
    assert_refused(&with(LINE_0, b"job-two-"), 7, LINE_2);
}

#[test]
fn wrong_grade_is_at_the_grade() {
    for line in [LINE_0, LINE_1, LINE_2] {
        assert_refused(&with(line + GRADE, b"h"), 8, line + GRADE);
        assert_refused(&with(line + GRADE, b" "), 8, line + GRADE);
        assert_refused(&with_more(line + GRADE, b"H"), 8, line + GRADE);
    }
}

#[test]
fn empty_grade_is_at_the_comma_after_it() {
    assert_refused(&line("only-job,,0,1,1"), 8, 43);
}

#[test]
fn wrong_times_or_size_are_at_the_release() {
    for line in [LINE_0, LINE_1, LINE_2] {
        let release = line + RELEASE;
        // A release that is too late, a size of 0 or too large, a deadline that is too late.
        assert_refused(&with_more(release, b"99"), 9, release);
        assert_refused(&with(line + SIZE, b"0"), 9, release);
        assert_refused(&with_more(line + SIZE, b"100000000"), 9, release);
        assert_refused(&with_more(line + DEADLINE, b"10000"), 9, release);
        assert_refused(&with_more(line + DEADLINE, &[b'9'; 500]), 9, release);
    }
}

#[test]
fn quoted_field_is_at_its_opening_quote() {
    // The name of 10 bytes in the text, or of 11 with a quote in it.
    assert_refused(&line("\"only job\",L,0,1,1"), 6, 34);
    assert_refused(&line("\"only-job\",\"X\",0,1,1"), 8, 45);
    assert_refused(&line("\"only-jo\"\"\",\"X\",0,1,1"), 8, 46);
    assert_refused(&line("\"only-job\",\"H\",\"1\",1,1"), 9, 49);
    assert_refused(&line("only-job,\"H\",0,\"0\",\"1\""), 9, 47);
    assert_refused(&line("only-job,H,\"0\",1,\"0\""), 9, 45);
    assert_refused(&line("\"only-job\",\"\",0,1,1"), 8, 45);
    assert_refused(&line("only-job,\"\r\n,\"\"\",\"5\",1,1"), 8, 43);
}

#[test]
fn repeated_name_in_quotes_is_at_its_opening_quote() {
    // The first line has 18 bytes.
    assert_refused(&line("only-job,L,0,1,1\r\n\"only-job\",L,0,1,1"), 7, 52);
    // The first line has 20 bytes, and the quotes do not make it another name.
    assert_refused(&line("\"only-job\",L,0,1,1\r\nonly-job,L,0,1,1"), 7, 54);
}

#[test]
fn lines_with_breaks_in_quotes_are_one_line() {
    // The first line has 18 bytes, and the second one's name holds two breaks.
    let text = line("only-job,L,0,1,1\r\n\"a\r\nb\r\ncd\",L,0,1,1\r\nx");
    assert_refused(&text, 6, 52);
    let text = line("only-job,\"\r\n\r\n\",0,1,1\r\nx");
    assert_refused(&text, 8, 43);
    let text = line("only-job,\"\r\n\r\n\",0,1,\r\nx");
    assert_refused(&text, 23, 34);
}

#[test]
fn first_of_two_faults_has_its_own_place() {
    let two = |first: (usize, &[u8]), second: (usize, &[u8])| {
        let mut text = with(first.0, first.1);
        text[second.0..second.0 + second.1.len()].copy_from_slice(second.1);
        text
    };
    assert_refused(&two((0, b"N"), (LINE_0, b" ")), 24, 0);
    assert_refused(&two((LINE_0, b" "), (LINE_0 + DEADLINE, b"0")), 23, LINE_0);
    assert_refused(&two((LINE_1, b" "), (LINE_1 + GRADE, b"X")), 6, LINE_1);
    assert_refused(
        &two((LINE_1, b"job-zero"), (LINE_1 + GRADE, b"X")),
        7,
        LINE_1,
    );
    assert_refused(
        &two((LINE_1 + GRADE, b"X"), (LINE_1 + SIZE, b"0")),
        8,
        LINE_1 + GRADE,
    );
    assert_refused(
        &two((LINE_0 + SIZE, b"0"), (LINE_1, b"\"")),
        9,
        LINE_0 + RELEASE,
    );
    assert_refused(&two((LINE_1, b"\""), (LINE_2, b" ")), 23, LINE_1);
    assert_refused(
        &two((LINE_2, b"job-zero"), (LINE_1 + GRADE, b"X")),
        8,
        LINE_1 + GRADE,
    );
}
