//! What `textfault` says of wrong job lists. Number and offset come from the reference, which answers them as the library does.

use description::textfault::sentence;
use reference::generate::{fixed_texts, job_text};
use reference::joblist::import;

const PAGE: &str = include_str!("../examples/README.md");
const HEADER: &str = "name,grade,release,size,deadline\r\n";
const SEED: u64 = 1;
const DRAWN: u64 = 20_000;

// Number and offset, where the import refuses the text.
fn refusal(text: &[u8]) -> Option<(u8, usize)> {
    import(text).err().map(|fault| (fault.number, fault.offset))
}

fn said(text: &[u8]) -> String {
    refusal(text).map_or("nothing is wrong".to_string(), |(number, offset)| format!("{number}: {}", sentence(text, number, offset)))
}

// What is said of a text that has these bytes after its header, behind one right line. They begin at byte 52, in line 3.
fn said_after(line: &str) -> String {
    said(after(line).as_bytes())
}

fn after(line: &str) -> String {
    format!("{HEADER}Mirror-A,L,0,6,5\r\n{line}")
}

#[test]
fn nothing_is_wrong_in_right_texts() {
    for line in ["", "mirror-A,H,1,8,10\r\n", "\"mirror-A\",\"H\",\"1\",\"8\",\"10\"\r\n", "\"a,\"\"b\"\",cd\",H,1,8,10\r\n"] {
        assert_eq!(said_after(line), "nothing is wrong");
    }
}

#[test]
fn wrong_headers() {
    let rest = "Mirror-A,L,0,6,5\r\n";
    let said_of = |header: &str| said(format!("{header}{rest}").as_bytes());
    assert_eq!(said(b""), "24: line 1, byte 0: the text is empty, and its first line must be `name,grade,release,size,deadline`");
    assert_eq!(
        said_of("\u{FEFF}name,grade,release,size,deadline\r\n"),
        "24: line 1, byte 0: the text begins with the bytes EF BB BF, a byte order mark: save without it"
    );
    assert_eq!(said_of("name,grade,release,size,deadline\n"), "24: line 1, byte 0: the line ends with LF alone: every line must end with CR LF");
    assert_eq!(said_of("name,grade,release,size,deadline\r"), "24: line 1, byte 0: the line ends with CR alone: every line must end with CR LF");
    assert_eq!(said_of("name,grade,release,size,deadline\r\r\n"), "24: line 1, byte 0: the line ends with CR CR LF: every line must end with CR LF");
    assert_eq!(
        said(b"name,grade,release,size,deadline"),
        "24: line 1, byte 0: the text ends without CR LF: every line must end with CR LF, the last one too"
    );
    assert_eq!(
        said_of("\"name\",\"grade\",\"release\",\"size\",\"deadline\"\r\n"),
        "24: line 1, byte 0: the header is in quotes, and must be `name,grade,release,size,deadline` without them"
    );
    assert_eq!(
        said_of("Name;Grade;Release;Size;Deadline\r\n"),
        "24: line 1, byte 0: the header is `Name;Grade;Release;Size;Deadline`, and must be `name,grade,release,size,deadline`"
    );
    assert_eq!(said(b"\r\n"), "24: line 1, byte 0: the header is empty, and must be `name,grade,release,size,deadline`");
    let long = format!("24: line 1, byte 0: the header is `{}..` (70 bytes), and must be `name,grade,release,size,deadline`", "x".repeat(60));
    assert_eq!(said_of(&format!("{}\r\n", "x".repeat(70))), long);
}

#[test]
fn all_that_is_wrong_with_a_header_is_told() {
    let all = "24: line 1, byte 0: the text begins with the bytes EF BB BF, a byte order mark: save without it; \
               the header is in quotes, and must be `name,grade,release,size,deadline` without them; \
               the line ends with LF alone: every line must end with CR LF";
    assert_eq!(said("\u{FEFF}\"name\",\"grade\",\"release\",\"size\",\"deadline\"\n".as_bytes()), all);
}

#[test]
fn files_of_other_kinds() {
    let little = "24: line 1, byte 0: the text begins with the bytes FF FE, the byte order mark of UTF-16: save it as UTF-8";
    assert_eq!(said(b"\xFF\xFEn\0a\0m\0e\0"), little);
    let big = "24: line 1, byte 0: the text begins with the bytes FE FF, the byte order mark of UTF-16: save it as UTF-8";
    assert_eq!(said(b"\xFE\xFF\0n\0a\0m\0e"), big);
    let zip = "24: line 1, byte 0: the file begins as a zip archive does, which .ods and .xlsx files are: save it as CSV";
    assert_eq!(said(b"PK\x03\x04\x14\0"), zip);
}

#[test]
fn wrong_ends_of_lines() {
    let alone = "23: line 3, byte 52: the line ends with LF alone: every line must end with CR LF";
    assert_eq!(said_after("mirror-A,H,1,8,10\n"), alone);
    assert_eq!(said_after("mirror-A,H,1,8,\"10\"\nmirror-B,H,1,8,10\n"), alone);
    assert_eq!(said_after("mirror-A,H,1,8,10\r"), "23: line 3, byte 52: the line ends with CR alone: every line must end with CR LF");
    assert_eq!(said_after("mirror-A,H,1,8,10\r\r\n"), "23: line 3, byte 52: the line ends with CR CR LF: every line must end with CR LF");
    let cut = "23: line 3, byte 52: the text ends without CR LF: every line must end with CR LF, the last one too";
    assert_eq!(said_after("mirror-A,H,1,8,10"), cut);
    assert_eq!(said_after("mirror-A,H,1,"), cut);
}

#[test]
fn wrong_fields() {
    assert_eq!(
        said_after("disk-3\"-,H,1,8,10\r\n"),
        "23: line 3, byte 52: its name, at byte 52, has a quote at byte 58: a field with a quote is written in quotes, and the quote twice"
    );
    let goes_on = "23: line 3, byte 52: its name, at byte 52, goes on after its closing quote, with `b` at byte 56: \
                   a comma or CR LF must follow it, and a quote inside is written twice";
    assert_eq!(said_after("\"a,\"b,cdef\",H,1,8,10\r\n"), goes_on);
    let space = "23: line 3, byte 52: its grade, at byte 61, goes on after its closing quote, with 0x20 at byte 64: \
                 a comma or CR LF must follow it, and a quote inside is written twice";
    assert_eq!(said_after("mirror-A,\"H\" ,1,8,10\r\n"), space);
    assert_eq!(said_after("mirror-A,H,1,\"8,10\r\n"), "23: line 3, byte 52: its size, at byte 65, begins with a quote that is not closed");
    let letter = "23: line 3, byte 52: its name, at byte 52, has 0xC3 at byte 58: the bytes of a field are from 0x20 to 0x7E";
    assert_eq!(said_after("mirror\u{e4},H,1,8,10\r\n"), letter);
    assert_eq!(
        said_after("\"mirro\u{e4}\",H,1,8,10\r\n"),
        "23: line 3, byte 52: its name, at byte 52, has 0xC3 at byte 58: the bytes of a field are from 0x20 to 0x7E"
    );
    assert_eq!(
        said_after("mirror-A,H,1,8,10,\t\r\n"),
        "23: line 3, byte 52: its field 6, at byte 70, has 0x09 at byte 70: the bytes of a field are from 0x20 to 0x7E"
    );
}

#[test]
fn wrong_counts_of_fields() {
    assert_eq!(
        said_after("mirror-A,H,1,8\r\n"),
        "23: line 3, byte 52: the line has 4 fields, and must have five: name, grade, release, size, deadline"
    );
    assert_eq!(
        said_after("mirror-A,H,1,8,10,\r\n"),
        "23: line 3, byte 52: the line has 6 fields, and must have five: name, grade, release, size, deadline"
    );
    assert_eq!(
        said_after("mirror-A;H;1;8;10\r\n"),
        "23: line 3, byte 52: the line has 1 field, and must have five: name, grade, release, size, deadline"
    );
    let empty = "23: line 3, byte 52: the line is empty, and every line after the header must be a job";
    for line in ["\r\n", ",,,,\r\n", "\"\",,\r\n"] {
        assert_eq!(said_after(line), empty);
    }
}

#[test]
fn wrong_names_and_decimals() {
    assert_eq!(said_after("mirror,H,1,8,10\r\n"), "23: line 3, byte 52: its name, at byte 52, is `mirror`: it has 6 bytes, and a name has eight");
    assert_eq!(said_after(",H,1,8,10\r\n"), "23: line 3, byte 52: its name, at byte 52, is empty: it has 0 bytes, and a name has eight");
    let size = |size: &str| said_after(&format!("mirror-A,H,1,{size},10\r\n"));
    assert_eq!(size("\"1,000\""), "23: line 3, byte 52: its size, at byte 65, is `1,000`, with `,`: a number is written in digits alone");
    assert_eq!(size("8 "), "23: line 3, byte 52: its size, at byte 65, is `8 `, with 0x20: a number is written in digits alone");
    assert_eq!(size("8.0"), "23: line 3, byte 52: its size, at byte 65, is `8.0`, with `.`: a number is written in digits alone");
    assert_eq!(size("008"), "23: line 3, byte 52: its size, at byte 65, is `008`: a number has no leading zero");
    assert_eq!(size("+8"), "23: line 3, byte 52: its size, at byte 65, is `+8`: a number has no sign");
    assert_eq!(size("-8"), "23: line 3, byte 52: its size, at byte 65, is `-8`: a number has no sign");
    assert_eq!(size(""), "23: line 3, byte 52: its size, at byte 65, is empty: a number is written in digits");
    let all = "23: line 3, byte 52: its name, at byte 52, is `mirror`: it has 6 bytes, and a name has eight; \
               its release, at byte 62, is `01`: a number has no leading zero; \
               its size, at byte 65, is empty: a number is written in digits; \
               its deadline, at byte 66, is `x`, with `x`: a number is written in digits alone";
    assert_eq!(said_after("mirror,HI,01,,x\r\n"), all);
}

fn lines(many: usize) -> String {
    (0..many).map(|job| format!("job-no{job:02},L,0,1,1\r\n")).collect()
}

#[test]
fn wrong_counts_of_jobs() {
    assert_eq!(said(HEADER.as_bytes()), "5: line 2, byte 34: there is no line after the header, and a list has 1 to 32 jobs");
    let text = format!("{HEADER}{}", lines(33));
    assert_eq!(said(text.as_bytes()), "5: line 34, byte 610: the line is `job-no32,L,0,1,1`, and follows 32 jobs: a list has at most 32");
    let text = format!("{HEADER}{}\r\n", lines(32));
    assert_eq!(said(text.as_bytes()), "5: line 34, byte 610: the line is empty, and follows 32 jobs: a list has at most 32");
}

#[test]
fn wrong_jobs() {
    assert_eq!(
        said_after("mirror A,H,1,8,10\r\n"),
        "6: line 3, name, byte 52: the name is `mirror A`, with 0x20: the bytes of a name are from 0x21 to 0x7E"
    );
    assert_eq!(
        said_after("\"mirro\r\nA\",H,1,8,10\r\n"),
        "6: line 3, name, byte 52: the name is `mirro\\x0D\\x0AA`, with 0x0D and 0x0A: the bytes of a name are from 0x21 to 0x7E"
    );
    assert_eq!(said_after("\"Mirror-A\",H,1,8,10\r\n"), "7: line 3, name, byte 52: the name is `Mirror-A`, and line 2 has it already");
    let quoted = "\"a,b,c,d,\",L,0,1,1\r\n".repeat(2);
    assert_eq!(said_after(&quoted), "7: line 4, name, byte 72: the name is `a,b,c,d,`, and line 3 has it already");
    assert_eq!(said_after("mirror-A,HI,1,8,10\r\n"), "8: line 3, grade, byte 61: the grade is `HI`, and must be `H` for HI or `L` for LO");
    assert_eq!(said_after("mirror-A,,1,8,10\r\n"), "8: line 3, grade, byte 61: the grade is empty, and must be `H` for HI or `L` for LO");
}

#[test]
fn wrong_numbers() {
    let numbers = |numbers: &str| said_after(&format!("mirror-A,H,{numbers}\r\n"));
    let order = "9: line 3, release, byte 63: the release is `10` and the deadline `9`: the release must come before the deadline";
    assert_eq!(numbers("10,8,9"), order);
    assert_eq!(numbers("0,0,10"), "9: line 3, release, byte 63: the size is `0`, and must be from 1 to 100,000,000");
    assert_eq!(numbers("0,100000001,10"), "9: line 3, release, byte 63: the size is `100000001`, and must be from 1 to 100,000,000");
    assert_eq!(numbers("0,1,100001"), "9: line 3, release, byte 63: the deadline is `100001`, and must be at most 100,000");
    let many = "9".repeat(70);
    let huge = format!("9: line 3, release, byte 63: the deadline is `{}..` (70 bytes), and must be at most 100,000", &many[..60]);
    assert_eq!(numbers(&format!("{},1,{many}", "8".repeat(70))), huge);
}

// The page on the examples has a sentence for each number, and several for 23 and 24.
#[test]
fn the_page_has_these_sentences() {
    let header = |header: &str| format!("{header}Mirror-A,L,0,6,5\r\n");
    let texts = [
        header("\u{FEFF}name,grade,release,size,deadline\r\n"),
        header("name,grade,release,size,deadline\n"),
        header("\"name\",\"grade\",\"release\",\"size\",\"deadline\"\r\n"),
        header("Name;Grade;Release;Size;Deadline\r\n"),
        format!("{HEADER}{}", lines(33)),
        after("mirror-A,H,1,8,10"),
        after("mirror-A,H,1,8\r\n"),
        after("mirror,H,1,8,10\r\n"),
        after("mirror-A,H,007,8,10\r\n"),
        after("disk-3\"-,H,1,8,10\r\n"),
        after("mirror A,H,1,8,10\r\n"),
        after("Mirror-A,H,1,8,10\r\n"),
        after("mirror-A,HI,1,8,10\r\n"),
        after("mirror-A,H,1,8,0\r\n"),
    ];
    let rows: Vec<String> = texts.iter().map(|text| format!("| {} |", said(text.as_bytes()).replacen(": ", " | ", 1))).collect();
    assert!(PAGE.contains(&rows.join("\n")), "the page does not have\n{}", rows.join("\n"));
}

// The field that each number speaks of.
fn field(number: u8) -> &'static str {
    match number {
        6 | 7 => "name, ",
        8 => "grade, ",
        9 => "release, ",
        _ => "",
    }
}

// What the sentences of each number may say, one of these for each thing that is wrong.
fn phrases(number: u8) -> &'static [&'static str] {
    match number {
        5 => &["a list has"],
        6 => &["the bytes of a name are"],
        7 => &["has it already"],
        8 => &["the grade is"],
        9 => &["must come before", "must be from 1 to", "must be at most"],
        23 => &["at byte", "the line ends with", "the text ends without", "the line has", "the line is empty"],
        _ => &["the text begins", "the text is empty", "the header is", "the line ends with", "the text ends without"],
    }
}

// The bytes that a sentence names are in the refused line, and a quote stands where one is told of.
fn bytes_fit(text: &[u8], offset: usize, what: &str) -> bool {
    let numbers = what.match_indices("at byte ").filter_map(|(at, told)| {
        let digits: String = what[at + told.len()..].chars().take_while(char::is_ascii_digit).collect();
        digits.parse::<usize>().ok().map(|byte| (&what[..at], byte))
    });
    numbers.into_iter().all(|(before, byte)| offset <= byte && byte <= text.len() && (!before.ends_with("a quote ") || text[byte] == b'"'))
}

// The line that has the name already is one that the import takes with it.
fn earlier_fits(text: &[u8], offset: usize, what: &str) -> bool {
    let line = what.split(" and line ").nth(1).and_then(|rest| rest.split(' ').next()).and_then(|line| line.parse::<usize>().ok());
    let jobs = import(&text[..offset]).unwrap_or_default();
    let job = line.and_then(|line| jobs.get(line - 2));
    job.map_or(false, |job| what.contains(&format!("`{}`", String::from_utf8_lossy(&job.name))))
}

// Each sentence has the line, the field and the byte of the refusal, and says what its number may say.
#[test]
fn every_wrong_text_has_its_place_and_its_words() {
    for text in fixed_texts().into_iter().chain((0..DRAWN).map(|number| job_text(SEED, number))) {
        if let Some((number, offset)) = refusal(&text) {
            let words = sentence(&text, number, offset);
            let ends = text[..offset].windows(2).filter(|pair| pair == b"\r\n").count();
            let place = format!("line {}, {}byte {offset}: ", ends + 1, field(number));
            let what = words.strip_prefix(&place).unwrap_or_default();
            assert!(phrases(number).iter().any(|phrase| what.contains(phrase)), "{number}: {words}");
            assert!(bytes_fit(&text, offset, what), "{number}: {words}");
            assert!(number != 7 || earlier_fits(&text, offset, what), "{number}: {words}");
        }
    }
}
