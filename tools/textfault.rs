//! Says in words where the text of a job list is wrong, and what is wrong there.
//!
//! That it is wrong, by which number and at which offset, comes from the import of the library. Here the offset is turned into a line and a
//! field, and the number into a sentence with what the text has there.

use crate::words::{bounds_words, broken, bytes, grouped, name_byte_words, shown, MOST_DEADLINE, MOST_JOBS, MOST_SIZE};
use crate::NAME_BYTES;

// The fields of a line. The header names them.
const FIELDS: [&str; 5] = ["name", "grade", "release", "size", "deadline"];
const NAME: usize = 0;
const GRADE: usize = 1;
const RELEASE: usize = 2;
const SIZE: usize = 3;
const DEADLINE: usize = 4;

const QUOTE: u8 = b'"';
const COMMA: u8 = b',';
const CR: u8 = b'\r';
const LF: u8 = b'\n';

// What a file of another kind begins with.
const UTF_8_MARK: [u8; 3] = [0xEF, 0xBB, 0xBF];
const UTF_16_MARKS: [[u8; 2]; 2] = [[0xFF, 0xFE], [0xFE, 0xFF]];
const ZIP_MARK: [u8; 4] = *b"PK\x03\x04";

/// A field: where it begins, and the bytes that it stands for.
struct Field {
    at: usize,
    value: Vec<u8>,
}

/// Where a text is wrong that the import refuses at this offset, and what is wrong there. Lines are counted from 1, the header among them.
pub fn sentence(text: &[u8], number: u8, offset: usize) -> String {
    let field = match number {
        6 | 7 => "name, ",
        8 => "grade, ",
        9 => "release, ",
        _ => "",
    };
    format!("line {}, {field}byte {offset}: {}", line(text, offset), what(text, number, offset))
}

// No line that was taken has a line's end in quotes, as no name, grade or number has one. So each LF before the offset ends a line.
fn line(text: &[u8], offset: usize) -> usize {
    1 + text[..offset].iter().filter(|&&byte| byte == LF).count()
}

fn line_start(text: &[u8], offset: usize) -> usize {
    text[..offset].iter().rposition(|&byte| byte == LF).map_or(0, |end| end + 1)
}

fn what(text: &[u8], number: u8, offset: usize) -> String {
    match number {
        5 => count_words(text, offset),
        24 => header_words(text),
        _ => fields_of(text, line_start(text, offset)).map_or_else(|words| words, |fields| line_words(text, number, offset, &fields)),
    }
}

fn line_words(text: &[u8], number: u8, offset: usize, fields: &[Field]) -> String {
    match number {
        6 => name_byte_words(&fields[NAME].value),
        7 => taken_words(&text[..offset], &fields[NAME].value),
        8 => format!("the grade is {}, and must be `H` for HI or `L` for LO", shown_or_empty(&fields[GRADE].value)),
        9 => numbers_words(fields),
        _ => form_words(fields),
    }
}

fn header() -> String {
    FIELDS.join(",")
}

fn shown_or_empty(value: &[u8]) -> String {
    if value.is_empty() { "empty".to_string() } else { shown(value) }
}

// A byte by its sign, if it has one.
fn sign(byte: u8) -> String {
    if byte.is_ascii_graphic() { shown(&[byte]) } else { format!("{byte:#04X}") }
}

fn header_words(text: &[u8]) -> String {
    if text.is_empty() {
        return format!("the text is empty, and its first line must be `{}`", header());
    }
    if let Some(mark) = UTF_16_MARKS.iter().find(|mark| text.starts_with(&mark[..])) {
        return format!("the text begins with the bytes {:02X} {:02X}, the byte order mark of UTF-16: save it as UTF-8", mark[0], mark[1]);
    }
    if text.starts_with(&ZIP_MARK) {
        return "the file begins as a zip archive does, which .ods and .xlsx files are: save it as CSV".to_string();
    }
    let marked = text.starts_with(&UTF_8_MARK);
    let text = if marked { &text[UTF_8_MARK.len()..] } else { text };
    let (first, rest) = first_line(text);
    let end = wrong_end(rest);
    broken([
        (!marked, "the text begins with the bytes EF BB BF, a byte order mark: save without it".to_string()),
        (first == header().as_bytes(), first_line_words(first)),
        (end.is_none(), end.unwrap_or_default()),
    ])
}

// The text up to the end of its first line, and what follows.
fn first_line(text: &[u8]) -> (&[u8], &[u8]) {
    text.split_at(text.iter().position(|&byte| byte == CR || byte == LF).unwrap_or(text.len()))
}

fn first_line_words(first: &[u8]) -> String {
    let bare: Vec<u8> = first.iter().copied().filter(|&byte| byte != QUOTE).collect();
    if bare == header().as_bytes() {
        return format!("the header is in quotes, and must be `{}` without them", header());
    }
    format!("the header is {}, and must be `{}`", shown_or_empty(first), header())
}

// What is wrong with a line that ends here; none if it ends with CR LF, or does not end.
fn wrong_end(rest: &[u8]) -> Option<String> {
    let end = match rest {
        [] => return Some("the text ends without CR LF: every line must end with CR LF, the last one too".to_string()),
        [CR, LF, ..] => return None,
        [LF, ..] => "LF alone",
        [CR, CR, LF, ..] => "CR CR LF",
        [CR, ..] => "CR alone",
        _ => return None,
    };
    Some(format!("the line ends with {end}: every line must end with CR LF"))
}

fn count_words(text: &[u8], offset: usize) -> String {
    if offset == text.len() {
        return format!("there is no line after the header, and a list has 1 to {MOST_JOBS} jobs");
    }
    let (line, _) = first_line(&text[offset..]);
    format!("the line is {}, and follows {MOST_JOBS} jobs: a list has at most {MOST_JOBS}", shown_or_empty(line))
}

// The lines before are whole, and one of them has the name.
fn taken_words(before: &[u8], name: &[u8]) -> String {
    let has_other = |line: &&[u8]| field_of(line, 0).map_or(true, |(value, _)| value != name);
    let others = before.split(|&byte| byte == LF).take_while(has_other).count();
    format!("the name is {}, and line {} has it already", shown(name), others + 1)
}

fn numbers_words(fields: &[Field]) -> String {
    let [release, size, deadline] = [RELEASE, SIZE, DEADLINE].map(|field| &fields[field].value[..]);
    let hold = [is_less(release, deadline), size != b"0" && !is_more(size, MOST_SIZE), !is_more(deadline, MOST_DEADLINE)];
    bounds_words([release, size, deadline].map(shown), hold)
}

// Decimals of any length: without leading zeros the longer one is greater.
fn is_less(one: &[u8], other: &[u8]) -> bool {
    (one.len(), one) < (other.len(), other)
}

fn is_more(decimal: &[u8], bound: u64) -> bool {
    is_less(bound.to_string().as_bytes(), decimal)
}

// What is wrong with a line whose fields can be told apart: there are not five of them, or one does not have its form.
fn form_words(fields: &[Field]) -> String {
    if fields.iter().all(|field| field.value.is_empty()) {
        return "the line is empty, and every line after the header must be a job".to_string();
    }
    if fields.len() != FIELDS.len() {
        let s = if fields.len() == 1 { "" } else { "s" };
        return format!("the line has {} field{s}, and must have five: {}", grouped(fields.len() as u64), FIELDS.join(", "));
    }
    let told = [NAME, RELEASE, SIZE, DEADLINE].into_iter().filter_map(|field| {
        let Field { at, value } = &fields[field];
        let wrong = if field == NAME { wrong_length(value) } else { wrong_decimal(value) };
        wrong.map(|words| format!("{} {words}", its_field(field, *at)))
    });
    told.collect::<Vec<String>>().join("; ")
}

fn its_field(field: usize, at: usize) -> String {
    let name = FIELDS.get(field).map_or(format!("field {}", field + 1), |name| name.to_string());
    format!("its {name}, at byte {at},")
}

fn wrong_length(name: &[u8]) -> Option<String> {
    let words = || format!("is {}: it has {}, and a name has eight", shown_or_empty(name), bytes(name.len()));
    (name.len() != NAME_BYTES).then(words)
}

fn wrong_decimal(value: &[u8]) -> Option<String> {
    let other = value.iter().find(|byte| !byte.is_ascii_digit());
    match (value, other) {
        ([], _) => Some("is empty: a number is written in digits".to_string()),
        ([b'+' | b'-', ..], _) => Some(format!("is {}: a number has no sign", shown(value))),
        (_, Some(&byte)) => Some(format!("is {}, with {}: a number is written in digits alone", shown(value), sign(byte))),
        ([b'0', _, ..], None) => Some(format!("is {}: a number has no leading zero", shown(value))),
        _ => None,
    }
}

// The fields of the line that begins here; or what keeps it from being fields with commas between them and CR LF after the last.
fn fields_of(text: &[u8], start: usize) -> Result<Vec<Field>, String> {
    let mut fields = Vec::new();
    let mut at = start;
    loop {
        let told = its_field(fields.len(), at);
        let (value, after) = field_of(text, at).map_err(|wrong| format!("{told} {wrong}"))?;
        fields.push(Field { at, value });
        match (&text[after..], wrong_end(&text[after..])) {
            (_, Some(words)) => return Err(words),
            ([CR, ..], None) => return Ok(fields),
            ([COMMA, ..], None) => at = after + 1,
            (rest, None) => return Err(format!("{told} {}", wrong_byte(rest[0], after, text[at] == QUOTE))),
        }
    }
}

// A byte after a field that is neither a comma nor the line's end.
fn wrong_byte(byte: u8, at: usize, in_quotes: bool) -> String {
    if in_quotes {
        let follow = "a comma or CR LF must follow it, and a quote inside is written twice";
        return format!("goes on after its closing quote, with {} at byte {at}: {follow}", sign(byte));
    }
    if byte == QUOTE {
        return format!("has a quote at byte {at}: a field with a quote is written in quotes, and the quote twice");
    }
    outside_words(byte, at)
}

fn outside_words(byte: u8, at: usize) -> String {
    format!("has {} at byte {at}: the bytes of a field are from 0x20 to 0x7E", sign(byte))
}

// The bytes that the field stands for that begins here, and where it ends.
fn field_of(text: &[u8], at: usize) -> Result<(Vec<u8>, usize), String> {
    if text.get(at) == Some(&QUOTE) {
        return quoted_field(text, at);
    }
    let value: Vec<u8> = text[at..].iter().copied().take_while(|&byte| is_plain(byte)).collect();
    let end = at + value.len();
    Ok((value, end))
}

fn is_plain(byte: u8) -> bool {
    matches!(byte, b' '..=b'~') && byte != QUOTE && byte != COMMA
}

fn quoted_field(text: &[u8], at: usize) -> Result<(Vec<u8>, usize), String> {
    let mut value = Vec::new();
    let mut next = at + 1;
    loop {
        match text[next..] {
            [] => return Err("begins with a quote that is not closed".to_string()),
            [QUOTE, QUOTE, ..] => next += 1,
            [QUOTE, ..] => return Ok((value, next + 1)),
            [byte, ..] if is_plain(byte) || matches!(byte, COMMA | CR | LF) => {}
            [byte, ..] => return Err(outside_words(byte, next)),
        }
        value.push(text[next]);
        next += 1;
    }
}
