//! Texts of job lists for import alone. Half of them are those that the reference draws, right and
//! wrong; the others are right ones that are damaged in one place, of each kind as often.

use reference::generate::{job_text, quoted_list, Prng, Purpose};
use reference::joblist::{FIELDS, HEADER, LINE_END};

/// What a byte of a right text belongs to.
#[derive(Clone, Copy, PartialEq, Eq)]
enum Place {
    Header,
    Field(usize),
    Quote,
    Comma,
    LineEnd,
}

/// What is damaged: a byte of a place, the digits of a number, or the lines.
#[derive(Clone, Copy)]
enum Damage {
    Byte(Place),
    Digits(usize),
    Lines,
}

/// The first of the three fields that are numbers.
const FIRST_NUMBER: usize = 2;

/// Bytes that mean something in a text, or next to those that do.
const TELLING: &[u8] = b"\",\r\n 09+-HLhl!~;'\0\t\x1F\x7F\x80\xFF";

/// How many digits are put into a number at once.
const DIGITS: [usize; 8] = [1, 2, 5, 9, 10, 19, 20, 1_000];

/// A text, drawn from the seed and its own number alone.
pub fn text(seed: u64, number: u64) -> Vec<u8> {
    let prng = &mut Prng::new(seed, Purpose::Damaged, number);
    if prng.once_in(2) {
        return job_text(seed, number);
    }
    let (_, mut text) = quoted_list(seed, number);
    match damage(prng) {
        Damage::Byte(place) => strike_byte(prng, &mut text, place),
        Damage::Digits(field) => strike_digits(prng, &mut text, field),
        Damage::Lines => strike_lines(prng, &mut text),
    }
    text
}

/// Each kind as often as the others.
fn damage(prng: &mut Prng) -> Damage {
    let field = prng.index(FIELDS);
    let number = prng.between(FIRST_NUMBER as u64, FIELDS as u64 - 1) as usize;
    prng.pick(&[
        Damage::Byte(Place::Header),
        Damage::Byte(Place::Field(field)),
        Damage::Byte(Place::Quote),
        Damage::Byte(Place::Comma),
        Damage::Byte(Place::LineEnd),
        Damage::Digits(number),
        Damage::Lines,
    ])
}

/// What each byte of a right text belongs to. Between quotes it has no line's end.
fn places(text: &[u8]) -> Vec<Place> {
    let (mut field, mut in_quotes) = (0, false);
    let mut places = vec![Place::Header; HEADER.len()];
    for &byte in &text[HEADER.len()..] {
        places.push(match byte {
            b'"' => {
                in_quotes = !in_quotes;
                Place::Quote
            }
            b',' if !in_quotes => {
                field += 1;
                Place::Comma
            }
            b'\r' | b'\n' => {
                field = 0;
                Place::LineEnd
            }
            _ => Place::Field(field),
        });
    }
    places
}

/// One of the bytes that belong to a place, or any if there is none.
fn byte_of(prng: &mut Prng, text: &[u8], place: Place) -> usize {
    let places = places(text);
    let own: Vec<usize> = (0..text.len()).filter(|&at| places[at] == place).collect();
    match own.as_slice() {
        [] => prng.index(text.len()),
        own => prng.pick(own),
    }
}

/// Another byte in its place, one before it, it twice, or none.
fn strike_byte(prng: &mut Prng, text: &mut Vec<u8>, place: Place) {
    let at = byte_of(prng, text, place);
    let other = match prng.below(3) {
        0 => text[at] ^ (1 << prng.below(8)),
        1 => prng.word() as u8,
        _ => prng.pick(TELLING),
    };
    match prng.below(6) {
        0..=2 => text[at] = other,
        3 => text.insert(at, other),
        4 => text.insert(at, text[at]),
        _ => {
            text.remove(at);
        }
    }
}

/// Digits put into a number, each the same.
fn strike_digits(prng: &mut Prng, text: &mut Vec<u8>, field: usize) {
    let at = byte_of(prng, text, Place::Field(field));
    let digits = vec![prng.pick(b"0159"); prng.pick(&DIGITS)];
    text.splice(at..at, digits);
}

/// A line twice, left out or empty, all lines left out, or the last one cut.
fn strike_lines(prng: &mut Prng, text: &mut Vec<u8>) {
    let end = byte_of(prng, text, Place::LineEnd);
    let ends_before = |at: &usize| text[..*at].ends_with(LINE_END);
    let begins = (HEADER.len()..=end).rev().find(ends_before);
    let begins = begins.unwrap_or(HEADER.len());
    let after = text.len().min(end + LINE_END.len());
    let line = text[begins..after].to_vec();
    match prng.below(5) {
        0 => text.extend(line),
        1 => {
            text.drain(begins..after);
        }
        2 => {
            text.splice(begins..begins, LINE_END.iter().copied());
        }
        3 => text.truncate(HEADER.len()),
        _ => text.truncate(end),
    }
}
