//! Importing texts of job lists.

use super::plan_e::{list_words, listing, named_words, Job, HI, JOBS, LO};
use super::Cases;
use crate::buffer::Buffer;
use crate::words::LIST_WORDS;

const HEADER: &[u8] = b"name,grade,release,size,deadline\r\n";
/// A right line, which stands first in texts of two lines.
const LINE: &[u8] = b"mirror-A,H,1,8,10\r\n";

/// Where the lines begin, and those fields that a refusal is told of, if the name has no quotes.
const LINE_0: usize = 34;
const GRADE_0: usize = 43;
const RELEASE_0: usize = 45;
const LINE_1: usize = 53;
const GRADE_1: usize = 62;
const RELEASE_1: usize = 64;

/// The words of a list that a refused text leaves.
const NO_JOBS: [u64; LIST_WORDS] = [0; LIST_WORDS];

/// Imports a text and expects a number, an offset, and the words of a list.
fn import_as(
    cases: &mut Cases,
    case: &str,
    text: &[u8],
    (number, offset): (u32, usize),
    words: &[u64],
) -> Result<(), String> {
    let mut listing = listing();
    let mut text = Buffer::of("text", text, text.len());
    let got = cases.both.import(&mut text, &mut listing);
    cases.expect(case, got, number)?;
    cases.expect(case, Ok(listing.offset.contents()[0]), offset)?;
    cases.expect(case, Ok(&listing.list.contents()[..LIST_WORDS]), words)
}

/// What a refused text has, and where it is wrong.
type TextCase = (&'static str, Vec<u8>, u32, usize);

/// These lines, after the header.
fn lines(case: &'static str, lines: &[u8], number: u32, offset: usize) -> TextCase {
    (case, [HEADER, lines].concat(), number, offset)
}

/// A line after a right one.
fn second(case: &'static str, line: &[u8], number: u32, offset: usize) -> TextCase {
    lines(case, &[LINE, line].concat(), number, offset)
}

/// Texts that do not begin with the header.
fn headers() -> Vec<TextCase> {
    let header = |case, header: &[u8]| (case, [header, LINE].concat(), 24, 0);
    vec![
        ("empty text", Vec::new(), 24, 0),
        ("header without its end", HEADER[..32].to_vec(), 24, 0),
        ("header with CR alone", HEADER[..33].to_vec(), 24, 0),
        header("no header", b""),
        header("header with LF alone", b"name,grade,release,size,deadline\n"),
        header("header with CR CR LF", b"name,grade,release,size,deadline\r\r\n"),
        header("byte order mark", b"\xEF\xBB\xBFname,grade,release,size,deadline\r\n"),
        header("header with a bit too many", b"\xEEame,grade,release,size,deadline\r\n"),
        header("header in quotes", b"\"name\",grade,release,size,deadline\r\n"),
        header("header in capitals", b"NAME,GRADE,RELEASE,SIZE,DEADLINE\r\n"),
        header("header with spaces", b"name, grade, release, size, deadline\r\n"),
        header("header with a space after it", b"name,grade,release,size,deadline \r\n"),
        header("header with semicolons", b"name;grade;release;size;deadline\r\n"),
        header("header in another order", b"name,grade,release,deadline,size\r\n"),
        header("empty line before the header", b"\r\nname,grade,release,size,deadline\r\n"),
    ]
}

/// Lines that are none: their ends, and how many fields they have.
fn ends_and_fields() -> Vec<TextCase> {
    vec![
        lines("line with LF alone", b"mirror-A,H,1,8,10\n", 23, LINE_0),
        lines("line with CR alone", b"mirror-A,H,1,8,10\r", 23, LINE_0),
        lines("line with LF CR", b"mirror-A,H,1,8,10\n\r", 23, LINE_0),
        lines("line with CR CR LF", b"mirror-A,H,1,8,10\r\r\n", 23, LINE_0),
        lines("line without its end", b"mirror-A,H,1,8,10", 23, LINE_0),
        lines("a byte after the header", b"m", 23, LINE_0),
        lines("empty line", b"\r\n", 23, LINE_0),
        lines("four fields", b"mirror-A,H,1,8\r\n", 23, LINE_0),
        lines("six fields", b"mirror-A,H,1,8,10,\r\n", 23, LINE_0),
        lines("line in quotes", b"\"mirror-A,H,1,8,10\"\r\n", 23, LINE_0),
        lines("semicolons", b"mirror-A;H;1;8;10\r\n", 23, LINE_0),
        second("second line without its end", b"Mirror-A,L,0,6,5", 23, LINE_1),
        second("second line with LF alone", b"Mirror-A,L,0,6,5\n", 23, LINE_1),
        second("empty line at the end", b"\r\n", 23, LINE_1),
        second("header again", HEADER, 23, LINE_1),
    ]
}

/// Names that do not stand for eight bytes, and bytes that no field may hold.
fn names_and_bytes() -> Vec<TextCase> {
    vec![
        lines("name of 7 bytes", b"mirror-,H,1,8,10\r\n", 23, LINE_0),
        lines("name of 9 bytes", b"mirror-AA,H,1,8,10\r\n", 23, LINE_0),
        lines("empty name", b",H,1,8,10\r\n", 23, LINE_0),
        lines("empty name in quotes", b"\"\",H,1,8,10\r\n", 23, LINE_0),
        lines("name and a doubled quote", b"\"mirror-A\"\"\",H,1,8,10\r\n", 23, LINE_0),
        lines("byte 0x7F", b"mirror-\x7F,H,1,8,10\r\n", 23, LINE_0),
        lines("byte 0x7F in quotes", b"\"mirror-\x7F\",H,1,8,10\r\n", 23, LINE_0),
        lines("byte 0x1F", b"\x1Firror-A,H,1,8,10\r\n", 23, LINE_0),
        lines("letter with a bit too many", b"\xEDirror-A,H,1,8,10\r\n", 23, LINE_0),
        lines("grade with a bit too many", b"mirror-A,\xC8,1,8,10\r\n", 23, LINE_0),
        lines("byte 0", b"mirror-\0,H,1,8,10\r\n", 23, LINE_0),
        lines("tab", b"mirror\tA,H,1,8,10\r\n", 23, LINE_0),
        lines("CR without quotes", b"mirror\rA,H,1,8,10\r\n", 23, LINE_0),
        second("byte 0xFF in the second line", b"\xFFirror-A,L,0,6,5\r\n", 23, LINE_1),
    ]
}

/// Quotes that are not closed, not opened, or beside other text.
fn quotes() -> Vec<TextCase> {
    vec![
        lines("text after a closing quote", b"\"mirror-A\"x,H,1,8,10\r\n", 23, LINE_0),
        lines("space after a closing quote", b"\"mirror-A\" ,H,1,8,10\r\n", 23, LINE_0),
        lines("space before a quote", b" \"mirror-A\",H,1,8,10\r\n", 23, LINE_0),
        lines("quote in a plain name", b"mirr\"r-A,H,1,8,10\r\n", 23, LINE_0),
        lines("doubled quote in a plain name", b"mirr\"\"-A,H,1,8,10\r\n", 23, LINE_0),
        lines("quote that is not closed", b"\"mirror-A,H,1,8,10\r\n", 23, LINE_0),
        lines("last quote not closed", b"mirror-A,H,1,8,\"10\r\n", 23, LINE_0),
        lines("three quotes", b"\"\"\"mirror-A\",H,1,8,10\r\n", 23, LINE_0),
        second("quote open over the end", b"\"Mirror-A,L,0,6,5\r\n", 23, LINE_1),
    ]
}

/// Numbers that are no decimals without a sign and without a leading zero.
fn decimals() -> Vec<TextCase> {
    vec![
        lines("release 00", b"mirror-A,H,00,8,10\r\n", 23, LINE_0),
        lines("release 01 in quotes", b"mirror-A,H,\"01\",8,10\r\n", 23, LINE_0),
        lines("release +1", b"mirror-A,H,+1,8,10\r\n", 23, LINE_0),
        lines("release -0", b"mirror-A,H,-0,8,10\r\n", 23, LINE_0),
        lines("empty release", b"mirror-A,H,,8,10\r\n", 23, LINE_0),
        lines("empty size in quotes", b"mirror-A,H,1,\"\",10\r\n", 23, LINE_0),
        lines("size 8.0", b"mirror-A,H,1,8.0,10\r\n", 23, LINE_0),
        lines("size 0x8", b"mirror-A,H,1,0x8,10\r\n", 23, LINE_0),
        lines("size with a comma", b"mirror-A,H,1,\"1,000\",10\r\n", 23, LINE_0),
        lines("size with CRLF", b"mirror-A,H,1,\"8\r\n\",10\r\n", 23, LINE_0),
        lines("space before a deadline", b"mirror-A,H,1,8, 10\r\n", 23, LINE_0),
        lines("space after a deadline", b"mirror-A,H,1,8,10 \r\n", 23, LINE_0),
        lines("empty deadline", b"mirror-A,H,1,8,\r\n", 23, LINE_0),
        second("second deadline 010", b"Mirror-A,L,0,6,010\r\n", 23, LINE_1),
    ]
}

/// Lines of which the job breaks a rule. A field in quotes begins with its quote.
fn names_and_grades() -> Vec<TextCase> {
    vec![
        lines("space in a name", b"mirror A,H,1,8,10\r\n", 6, LINE_0),
        lines("space in a name in quotes", b"\"mirror A\",H,1,8,10\r\n", 6, LINE_0),
        lines("CRLF in a name", b"\"mirr\r\n-A\",H,1,8,10\r\n", 6, LINE_0),
        lines("CR in a name", b"\"mirror\rA\",H,1,8,10\r\n", 6, LINE_0),
        second("space in the second name", b" irror-A,L,0,6,5\r\n", 6, LINE_1),
        second("name twice", b"mirror-A,L,0,6,5\r\n", 7, LINE_1),
        second("name twice, once in quotes", b"\"mirror-A\",L,0,6,5\r\n", 7, LINE_1),
        second("a line twice", LINE, 7, LINE_1),
        lines("grade HH", b"mirror-A,HH,1,8,10\r\n", 8, GRADE_0),
        lines("grade h", b"mirror-A,h,1,8,10\r\n", 8, GRADE_0),
        lines("grade 1", b"mirror-A,1,1,8,10\r\n", 8, GRADE_0),
        lines("empty grade", b"mirror-A,,1,8,10\r\n", 8, GRADE_0),
        lines("empty grade in quotes", b"mirror-A,\"\",1,8,10\r\n", 8, GRADE_0),
        lines("grade with a space", b"mirror-A,H ,1,8,10\r\n", 8, GRADE_0),
        lines("grade with CRLF", b"mirror-A,\"H\r\n\",1,8,10\r\n", 8, GRADE_0),
        lines("grade after a name in quotes", b"\"mirror-A\",\"X\",1,8,10\r\n", 8, GRADE_0 + 2),
        lines("grade after a doubled quote", b"\"mirr\"\"r-A\",X,1,8,10\r\n", 8, GRADE_0 + 3),
        second("second grade", b"Mirror-A,LO,0,6,5\r\n", 8, GRADE_1),
    ]
}

/// Release, size and deadline outside their bounds, and far outside.
fn bounds() -> Vec<TextCase> {
    vec![
        lines("release at the deadline", b"mirror-A,H,10,8,10\r\n", 9, RELEASE_0),
        lines("release after the deadline", b"mirror-A,H,11,8,10\r\n", 9, RELEASE_0),
        lines("release 2^32 + 1", b"mirror-A,H,4294967297,8,10\r\n", 9, RELEASE_0),
        lines("size 0", b"mirror-A,H,1,0,10\r\n", 9, RELEASE_0),
        lines("size 100000001", b"mirror-A,H,1,100000001,10\r\n", 9, RELEASE_0),
        lines("size 2^32 + 8", b"mirror-A,H,1,4294967304,10\r\n", 9, RELEASE_0),
        lines("size 2^64 + 8", b"mirror-A,H,1,18446744073709551624,10\r\n", 9, RELEASE_0),
        lines("deadline 0", b"mirror-A,H,0,8,0\r\n", 9, RELEASE_0),
        lines("deadline 100001", b"mirror-A,H,1,8,100001\r\n", 9, RELEASE_0),
        lines("deadline 2^64 + 10", b"mirror-A,H,1,8,18446744073709551626\r\n", 9, RELEASE_0),
        lines("release in quotes", b"mirror-A,H,\"1\",0,10\r\n", 9, RELEASE_0),
        lines("all in quotes", b"\"mirror-A\",\"H\",\"1\",\"0\",\"10\"\r\n", 9, RELEASE_0 + 4),
        second("second size", b"Mirror-A,L,0,0,5\r\n", 9, RELEASE_1),
    ]
}

/// The first fault counts: of a text, of its lines, and of a line.
fn order() -> Vec<TextCase> {
    vec![
        ("24 comes before 23", b"name\r\n\xFF".to_vec(), 24, 0),
        lines("23 comes before 6", b"mirror A,H,1,8,010\r\n", 23, LINE_0),
        lines("23 comes before 8", b"mirror-A,X,1,8,\r\n", 23, LINE_0),
        lines("23 comes before 9", b"mirror-A,H,10,0,+1\r\n", 23, LINE_0),
        lines("6 comes before 8", b"mirror A,X,1,8,10\r\n", 6, LINE_0),
        second("7 comes before 8", b"mirror-A,X,1,8,10\r\n", 7, LINE_1),
        lines("8 comes before 9", b"mirror-A,X,1,0,10\r\n", 8, GRADE_0),
        lines("the first line comes first", b"mirror-A,X,1,8,10\r\n\r\n", 8, GRADE_0),
        second("the second line comes next", b"Mirror-A,X,1,8,10\r\n\r\n", 8, GRADE_1),
    ]
}

/// Each refusal of import but 22, at each kind of field that it is told of.
pub fn refused(cases: &mut Cases) -> Result<(), String> {
    let texts = [
        headers(),
        ends_and_fields(),
        names_and_bytes(),
        quotes(),
        decimals(),
        names_and_grades(),
        bounds(),
        order(),
    ];
    for (case, text, number, offset) in texts.concat() {
        import_as(cases, case, &text, (number, offset), &NO_JOBS)?;
    }
    Ok(())
}

/// Texts that are taken, with their jobs.
pub fn taken(cases: &mut Cases) -> Result<(), String> {
    let texts: [(&str, &[u8], &[Job]); 9] = [
        ("plan E", b"Mirror-A,L,0,6,5\r\nmirror-A,H,1,8,10\r\n", &JOBS),
        (
            "plan E in quotes",
            b"\"Mirror-A\",\"L\",\"0\",\"6\",\"5\"\r\n\"mirror-A\",\"H\",\"1\",\"8\",\"10\"\r\n",
            &JOBS,
        ),
        ("one line", LINE, &JOBS[1..]),
        (
            "commas and quotes",
            b"\"a,\"\"b\"\",c\"\"\",H,0,1,1\r\n",
            &[(b"a,\"b\",c\"", HI, 0, 1, 1)],
        ),
        (
            "nothing but quotes",
            b"\"\"\"\"\"\"\"\"\"\"\"\"\"\"\"\"\"\",L,0,1,1\r\n",
            &[(b"\"\"\"\"\"\"\"\"", LO, 0, 1, 1)],
        ),
        ("nothing but commas", b"\",,,,,,,,\",L,0,1,1\r\n", &[(b",,,,,,,,", LO, 0, 1, 1)]),
        ("first and last byte", b"!!!!~~~~,L,0,1,1\r\n", &[(b"!!!!~~~~", LO, 0, 1, 1)]),
        ("a formula", b"=1+2-3*4,L,0,1,1\r\n", &[(b"=1+2-3*4", LO, 0, 1, 1)]),
        (
            "greatest numbers",
            b"greatest,H,99999,100000000,100000\r\n",
            &[(b"greatest", HI, 99_999, 100_000_000, 100_000)],
        ),
    ];
    for (case, lines, jobs) in texts {
        let text = [HEADER, lines].concat();
        import_as(cases, case, &text, (0, 0), &list_words(jobs))?;
    }
    Ok(())
}

/// Numbers of so many nines in each of the three fields are 9, and after a zero 23.
pub fn nines(cases: &mut Cases) -> Result<(), String> {
    for digits in [10, 20, 1_000, 1_000_000] {
        let nines = "9".repeat(digits);
        for (line, number, offset) in [
            (format!("mirror-A,H,{},8,10\r\n", nines), 9, RELEASE_0),
            (format!("mirror-A,H,1,{},10\r\n", nines), 9, RELEASE_0),
            (format!("mirror-A,H,1,8,\"{}\"\r\n", nines), 9, RELEASE_0),
            (format!("mirror-A,H,1,8,0{}\r\n", nines), 23, LINE_0),
        ] {
            let text = [HEADER, line.as_bytes()].concat();
            let case = format!("{} nines", digits);
            import_as(cases, &case, &text, (number, offset), &NO_JOBS)?;
        }
    }
    Ok(())
}

/// A line of 18 bytes, of a job that has this name.
fn line(name: &[u8; 8]) -> Vec<u8> {
    [&name[..], b",L,0,1,1\r\n"].concat()
}

/// As many lines as there may be, and what stands after them, which begins a 33rd line.
pub fn counts(cases: &mut Cases) -> Result<(), String> {
    let mut names = [*b"line---A"; 33];
    names.iter_mut().zip(b'A'..).for_each(|(name, last)| name[7] = last);
    let lines = |count: usize| names[..count].iter().flat_map(line).collect::<Vec<u8>>();
    let text = |count: usize| [HEADER, &lines(count)].concat();
    let words = |count: usize| named_words(&names[..count], [LO, 0, 1, 1]);
    import_as(cases, "32 lines", &text(32), (0, 0), &words(32))?;
    import_as(cases, "31 lines", &text(31), (0, 0), &words(31))?;
    import_as(cases, "no line", &text(0), (5, LINE_0), &NO_JOBS)?;
    let (last, end) = (LINE_0 + 31 * 18, LINE_0 + 32 * 18);
    import_as(cases, "33 lines", &text(33), (5, end), &NO_JOBS)?;
    for more in [HEADER, b"m", b"\xFF", b"\"", b"\r\n", b"\n", b"\0"] {
        let longer = [&text(32), more].concat();
        import_as(cases, "32 lines and more", &longer, (5, end), &NO_JOBS)?;
    }
    import_as(cases, "32nd line cut", &text(32)[..end - 1], (23, last), &NO_JOBS)?;
    let again = [&text(31), &line(&names[0])[..], b"m"].concat();
    import_as(cases, "32nd line has the first name", &again, (7, last), &NO_JOBS)
}

/// A list that is too short stays, and so does the offset, whatever the text is.
pub fn shorts(cases: &mut Cases) -> Result<(), String> {
    for text in [[HEADER, LINE].concat(), HEADER.to_vec(), Vec::new()] {
        for length in [0, 1, LIST_WORDS - 1] {
            let (mut listing, untouched) = (listing(), listing());
            listing.list.lend(length);
            let case = "import, list too short";
            let mut text = Buffer::of("text", &text, text.len());
            let got = cases.both.import(&mut text, &mut listing);
            cases.expect(case, got, 22)?;
            let (list, offset) = (listing.list.contents(), listing.offset.contents());
            cases.expect(case, Ok(list), untouched.list.contents())?;
            cases.expect(case, Ok(offset), untouched.offset.contents())?;
        }
    }
    Ok(())
}
