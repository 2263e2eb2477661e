//! Damages texts of job lists: one fault for each number that import gives, at a wanted line.

use super::draft::{Where, EVERYWHERE};
use super::joblists::{jobs, jobs_of};
use super::prng::Prng;
use super::sheet::{field, Line, Sheet};
use crate::edition::{MOST_DEADLINE, MOST_JOBS, MOST_SIZE, NAME_BYTES};
use crate::joblist::{quoted, FIELDS, HEADER};
use crate::refusal;

/// The numbers that import refuses with.
pub const IMPORT_NUMBERS: [u8; 7] = [
    refusal::JOB_COUNT,
    refusal::NAME_BYTE,
    refusal::NAME_TWICE,
    refusal::GRADE,
    refusal::TIMES_OR_SIZE,
    refusal::LINE,
    refusal::HEADER,
];

/// The positions of a line's fields.
pub const NAME: usize = 0;
pub const GRADE: usize = 1;
pub const RELEASE: usize = 2;
pub const SIZE: usize = 3;
pub const DEADLINE: usize = 4;

/// Headers that are not the right one, each with its end.
pub const WRONG_HEADERS: [&[u8]; 16] = [
    b"",
    b"\r\n",
    b"name,grade,release,size,deadline",
    b"name,grade,release,size,deadline\n",
    b"name,grade,release,size,deadline\r",
    b"name,grade,release,size,deadline\n\r",
    b"name,grade,release,size,deadline\r\r\n",
    b"name,grade,release,size,deadline \r\n",
    b"name,grade,release,size,deadline,\r\n",
    b"name,grade,release,size\r\n",
    b"name,grade,release,deadline,size\r\n",
    b"name, grade, release, size, deadline\r\n",
    b"name;grade;release;size;deadline\r\n",
    b"Name,Grade,Release,Size,Deadline\r\n",
    b"\"name\",\"grade\",\"release\",\"size\",\"deadline\"\r\n",
    b"\xEF\xBB\xBFname,grade,release,size,deadline\r\n",
];

/// What may stand at a line's end in place of the right end.
pub const WRONG_ENDS: [&[u8]; 12] = [
    b"",
    b"\n",
    b"\r",
    b"\n\r",
    b"\r\r\n",
    b"\n\r\n",
    b"\r\n\r\n",
    b"\r\n\n",
    b"\r\n\r",
    b" \r\n",
    b",\r\n",
    b"\"\r\n",
];

/// Fields that are no decimals without sign or leading zero.
pub const WRONG_DECIMALS: [&[u8]; 24] = [
    b"",
    b"\"\"",
    b"00",
    b"01",
    b"\"00\"",
    b"\"07\"",
    b"+1",
    b"-1",
    b"+0",
    b"-0",
    b"\"-0\"",
    b" 1",
    b"1 ",
    b"\" 1\"",
    b"1.0",
    b"1e1",
    b"0x1",
    b"1_0",
    b"/",
    b":",
    b"\"1,0\"",
    b"\"1\r\n\"",
    b"\"1\"\"\"",
    b"000000000000000000000000000000000001",
];

/// Grades that are neither H nor L.
pub const WRONG_GRADES: [&[u8]; 20] = [
    b"",
    b"\"\"",
    b"h",
    b"l",
    b"HH",
    b"HL",
    b"LL",
    b"HI",
    b"LO",
    b" H",
    b"L ",
    b" ",
    b"0",
    b"1",
    b"\"h\"",
    b"\"H,\"",
    b"\"H\"\"\"",
    b"\"H\r\n\"",
    b"\"\r\n\"",
    b"\",\"",
];

/// What is put into a field, where it is one byte too many or breaks the line.
pub const PUT_IN: [&[u8]; 14] = [
    b"\"", b"\"\"", b",", b"\r", b"\n", b"\r\n", b" ", b"0", b"\0", b"\t", b"\x1F", b"\x7F",
    b"\x80", b"\xFF",
];

/// Bytes with which a text goes on where it should have ended.
const RESTS: [&[u8]; 8] = [
    b"\r\n",
    b"\n",
    b"\r",
    b"x",
    b"\"",
    b",",
    b"\0",
    b"only-job,L,0,1,1\r\n",
];

/// What random texts are made of.
const PIECES: [&[u8]; 24] = [
    b"\"",
    b"\"",
    b"\"\"",
    b",",
    b",",
    b",",
    b"\r\n",
    b"\r",
    b"\n",
    b" ",
    b"only-job",
    b"next-job",
    b"\"a,b\"\"cde\"",
    b"H",
    b"L",
    b"0",
    b"1",
    b"00",
    b"\"5\"",
    b"100000",
    b"only-job,H,0,1,1\r\n",
    b"next-job,L,0,1,1\r\n",
    b"last-job,\"H\",\"0\",7,\"9\"\r\n",
    b"\xFF",
];

impl Sheet {
    /// Does the damage that belongs to a number, at the line of a place.
    pub fn strike(&mut self, prng: &mut Prng, number: u8, place: Where) {
        match number {
            refusal::HEADER => self.strike_header(prng),
            refusal::JOB_COUNT => self.strike_count(prng),
            // Earlier damage may have left no line.
            _ if self.lines.is_empty() => (),
            _ => {
                let line = place.index(self.lines.len());
                self.strike_line(prng, number, line);
            }
        }
    }

    /// Does the damage that belongs to a number other than those of header and count.
    pub fn strike_line(&mut self, prng: &mut Prng, number: u8, line: usize) {
        match number {
            refusal::NAME_BYTE => strike_name_byte(prng, &mut self.lines[line]),
            refusal::NAME_TWICE => self.strike_name_twice(prng, line),
            refusal::GRADE => {
                let grade = prng.pick(&WRONG_GRADES);
                self.lines[line].set(GRADE, grade);
            }
            refusal::TIMES_OR_SIZE => strike_times_or_size(prng, &mut self.lines[line]),
            _ => self.strike_form(prng, line),
        }
    }

    /// A wrong header, a changed, missing or added byte in it, or a cut inside it.
    fn strike_header(&mut self, prng: &mut Prng) {
        let place = prng.index(HEADER.len());
        // Earlier damage may have left another header.
        self.header = HEADER.to_vec();
        match prng.below(6) {
            0 => self.header[place] ^= prng.pick(&[0x01, 0x20, 0x80]),
            1 => {
                self.header.remove(place);
            }
            2 => put_in(&mut self.header, place, prng.pick(&PUT_IN)),
            3 => {
                self.header.truncate(place);
                self.lines.clear();
                self.rest.clear();
            }
            _ => self.header = prng.pick(&WRONG_HEADERS).to_vec(),
        }
    }

    /// No line, or as many as there may be and then more.
    fn strike_count(&mut self, prng: &mut Prng) {
        let most = MOST_JOBS as u64;
        let lines = match prng.below(5) {
            0 => 0,
            1 | 2 => most,
            3 => most + 1,
            _ => prng.between(most + 1, most + 3),
        };
        let jobs = jobs_of(prng, lines as usize);
        *self = Sheet::drawn(prng, &jobs);
        if lines == most {
            self.rest = prng.pick(&RESTS).to_vec();
        }
    }

    /// Gives a line the name of an earlier one; the first line has none, so the second takes its part.
    fn strike_name_twice(&mut self, prng: &mut Prng, line: usize) {
        if self.lines.len() > 1 {
            let later = line.max(1);
            let earlier = self.lines[prng.index(later)].job.name;
            let text = field(prng, &earlier, 2);
            self.lines[later].set(NAME, &text);
        }
    }

    /// All that makes a line no line of five such fields.
    fn strike_form(&mut self, prng: &mut Prng, line: usize) {
        match prng.below(12) {
            0 => self.lines[line].end = prng.pick(&WRONG_ENDS).to_vec(),
            1 => strike_field_count(prng, &mut self.lines[line]),
            2 => strike_name_length(prng, &mut self.lines[line]),
            3 | 4 => {
                let number = prng.pick(&[RELEASE, SIZE, DEADLINE]);
                let text = prng.pick(&WRONG_DECIMALS);
                self.lines[line].set(number, text);
            }
            5 | 6 => strike_inside(prng, &mut self.lines[line]),
            7 => strike_quotes(prng, &mut self.lines[line]),
            8 => self.cut(prng, line),
            9 | 10 => strike_byte(prng, &mut self.lines[line]),
            _ => {
                // A line before this one, empty or of random pieces.
                let mut before = self.lines[line].clone();
                before.fields = vec![pieces(prng, 4)];
                if prng.once_in(2) {
                    before.fields = Vec::new();
                }
                self.lines.insert(line, before);
            }
        }
    }

    /// Ends the text inside a line, or right after it.
    fn cut(&mut self, prng: &mut Prng, line: usize) {
        let mut text = self.lines[line].text();
        text.truncate(prng.index(text.len() + 1));
        self.lines.truncate(line);
        self.rest = text;
    }
}

fn put_in(text: &mut Vec<u8>, place: usize, bytes: &[u8]) {
    let tail = text.split_off(place);
    text.extend(bytes);
    text.extend(tail);
}

/// A byte that a field can hold and a name cannot; breaks have to stand in quotes.
fn strike_name_byte(prng: &mut Prng, line: &mut Line) {
    let mut name = line.job.name;
    let place = prng.index(NAME_BYTES);
    match prng.below(5) {
        0 | 1 => name[place] = b' ',
        2 => name[place] = b'\r',
        3 => name[place] = b'\n',
        _ => {
            let place = prng.index(NAME_BYTES - 1);
            name[place..place + 2].copy_from_slice(b"\r\n");
        }
    }
    let text = field(prng, &name, 2);
    line.set(NAME, &text);
}

/// Bounds and one past them, and numbers that are small again in 32 or 64 bits.
fn strike_times_or_size(prng: &mut Prng, line: &mut Line) {
    let job = line.job;
    let (release, size, deadline) = (
        u128::from(job.release),
        u128::from(job.size),
        u128::from(job.deadline),
    );
    let (most_deadline, most_size) = (u128::from(MOST_DEADLINE), u128::from(MOST_SIZE));
    let wide = prng.pick(&[1 << 8, 1 << 16, 1 << 32, 1 << 64]);
    let (position, number) = match prng.below(14) {
        0 => (RELEASE, deadline),
        1 => (RELEASE, deadline + 1),
        2 => (RELEASE, release + wide),
        3 => (RELEASE, most_deadline),
        4 => (SIZE, 0),
        5 => (SIZE, most_size + 1),
        6 => (SIZE, 10 * most_size),
        7 => (SIZE, size + wide),
        8 => (DEADLINE, 0),
        9 => (DEADLINE, release),
        10 => (DEADLINE, most_deadline + 1),
        11 => (DEADLINE, deadline + wide),
        _ => return strike_digits(prng, line),
    };
    let text = field(prng, number.to_string().as_bytes(), 3);
    line.set(position, &text);
}

/// A long row of digits.
fn strike_digits(prng: &mut Prng, line: &mut Line) {
    let any = prng.between(6, 300) as usize;
    let length = prng.pick(&[9, 10, 11, 19, 20, 21, 39, 40, any]);
    let mut digits = vec![prng.pick(b"0129"); length];
    digits[0] = prng.pick(b"123456789");
    let text = field(prng, &digits, 3);
    line.set(prng.pick(&[RELEASE, SIZE, DEADLINE]), &text);
}

/// Fewer fields than five, or more.
fn strike_field_count(prng: &mut Prng, line: &mut Line) {
    let place = prng.index(FIELDS).min(line.fields.len());
    match prng.below(4) {
        0 => line.fields.truncate(place),
        1 if place < line.fields.len() => {
            line.fields.remove(place);
        }
        2 => line.fields.insert(place, Vec::new()),
        _ => line
            .fields
            .push(prng.pick(&[&b""[..], b"1", b"\"\"", b"H"]).to_vec()),
    }
}

/// A name that is shorter or longer, most often by one byte.
fn strike_name_length(prng: &mut Prng, line: &mut Line) {
    let mut name = line.job.name.to_vec();
    match prng.below(5) {
        0 => name.clear(),
        1 | 2 => name.truncate(prng.pick(&[NAME_BYTES - 1, NAME_BYTES - 1, 1])),
        _ => name.extend(vec![prng.pick(b"x\" ,"); prng.pick(&[1, 1, 8])]),
    }
    let text = field(prng, &name, 2);
    line.set(NAME, &text);
}

/// Bytes put into a field, wherever, or in place of one of its bytes.
fn strike_inside(prng: &mut Prng, line: &mut Line) {
    if line.fields.is_empty() {
        return;
    }
    let position = prng.index(line.fields.len());
    let text = &mut line.fields[position];
    let place = prng.index(text.len() + 1);
    if place < text.len() && prng.once_in(2) {
        text.remove(place);
    }
    put_in(text, place, prng.pick(&PUT_IN));
}

/// A name of eight bytes or a grade of one, with a byte that no field may hold, or only a quoted one.
fn strike_byte(prng: &mut Prng, line: &mut Line) {
    let byte = prng.pick(b"\0\t\x1F\x7F\x80\xFF\r\n\"");
    let position = prng.pick(&[NAME, NAME, GRADE]);
    let mut text = vec![byte];
    if position == NAME {
        text = line.job.name.to_vec();
        text[prng.index(NAME_BYTES)] = byte;
    }
    if prng.once_in(2) {
        text = quoted(&text);
    }
    line.set(position, &text);
}

/// A quote that is not closed or not opened, or text beside the quotes of a field.
fn strike_quotes(prng: &mut Prng, line: &mut Line) {
    if line.fields.is_empty() {
        return;
    }
    let position = prng.index(line.fields.len());
    let plain = line.fields[position].clone();
    let text = match prng.below(5) {
        0 => [b"\"", &plain[..]].concat(),
        1 => [&plain[..], b"\""].concat(),
        2 => [&quoted(b"x"), &plain[..]].concat(),
        3 => [&plain[..], &quoted(b"")].concat(),
        _ => [&quoted(&plain), &b" "[..]].concat(),
    };
    line.set(position, &text);
}

/// A few random pieces, at most so many.
fn pieces(prng: &mut Prng, most: u64) -> Vec<u8> {
    let count = prng.between(1, most);
    let pieces: Vec<&[u8]> = (0..count).map(|_| prng.pick(&PIECES)).collect();
    pieces.concat()
}

/// A text with one fault or two of import's numbers.
pub fn struck(prng: &mut Prng, most: usize) -> Vec<u8> {
    let drawn = jobs(prng, most);
    let mut sheet = Sheet::drawn(prng, &drawn);
    let mut numbers = vec![prng.pick(&IMPORT_NUMBERS)];
    if prng.once_in(3) {
        numbers.push(prng.pick(&IMPORT_NUMBERS));
    }
    // The least number first: a new number of lines must not undo other damage, nor a cut prevent it.
    numbers.sort_unstable();
    let mut place = prng.pick(&EVERYWHERE);
    for number in numbers {
        sheet.strike(prng, number, place);
        // The next fault stands in the same line as often as not.
        if prng.once_in(2) {
            place = prng.pick(&EVERYWHERE);
        }
    }
    sheet.text()
}

/// A text with a few bytes changed, put in, left out or cut off, which may still be taken.
pub fn sprinkled(prng: &mut Prng, most: usize) -> Vec<u8> {
    let drawn = jobs(prng, most);
    let mut text = Sheet::drawn(prng, &drawn).text();
    for _ in 0..prng.between(1, 3) {
        // Mostly after the header, which has its own number.
        let first = if prng.once_in(12) { 0 } else { HEADER.len() };
        if text.len() <= first {
            break;
        }
        let place = first + prng.index(text.len() - first);
        match prng.below(8) {
            0 | 1 => text[place] ^= 1 << prng.below(8),
            2 => text[place] = prng.below(256) as u8,
            3 | 4 => put_in(&mut text, place, prng.pick(&PUT_IN)),
            5 => {
                text.remove(place);
            }
            6 => {
                let again = text[place..].to_vec();
                put_in(&mut text, place, &again[..prng.index(again.len())]);
            }
            _ => text.truncate(place),
        }
    }
    text
}

/// The right header and then random pieces.
pub fn random_pieces(prng: &mut Prng) -> Vec<u8> {
    [HEADER.to_vec(), pieces(prng, 30)].concat()
}
