//! What `logfault` says of wrong meter logs. Number and offset come from the reference, which answers them as the library does.

use description::logfault::sentence;
use description::readings::{log_bytes, parse_bytes, MOST_READINGS};
use reference::generate::{fixed_logs, log_input};
use reference::meter::read_log;

const READINGS: &[u8] = include_bytes!("../examples/meter.txt");
const PAGE: &str = include_str!("../examples/README.md");
const N: u16 = 2;
const SEED: u64 = 1;
const DRAWN: u64 = 20_000;

fn log() -> Vec<u8> {
    log_bytes(&parse_bytes(READINGS).unwrap_or_default())
}

// Number and offset, where the log reader refuses the log.
fn refusal(log: &[u8]) -> Option<(u8, usize)> {
    let refused = read_log(log, N, &mut [0; MOST_READINGS]).err()?;
    refused.offset.map(|offset| (refused.number, offset))
}

fn said(log: &[u8]) -> String {
    refusal(log).map_or("nothing is wrong".to_string(), |(number, offset)| sentence(log, number, offset))
}

fn with(at: usize, bytes: &[u8]) -> Vec<u8> {
    let log = log();
    [&log[..at], bytes, &log[at + bytes.len()..]].concat()
}

// The first bytes with a length field that agrees.
fn cut(length: usize) -> Vec<u8> {
    let mut log = log()[..length].to_vec();
    log[1..5].copy_from_slice(&(length as u32 - 5).to_be_bytes());
    log
}

#[test]
fn nothing_is_wrong_in_the_example() {
    assert_eq!(said(&log()), "nothing is wrong");
}

#[test]
fn wrong_heads_and_extents() {
    assert_eq!(said(&[]), "version, byte 0: the log is empty, and a meter log begins with its version, 1");
    assert_eq!(said(&with(0, &[2])), "version, byte 0: the version is 2, and must be 1");
    assert_eq!(said(&log()[..3]), "length, byte 1: the log ends after 2 of its 4 bytes");
    assert_eq!(said(&[1]), "length, byte 1: the log ends before it");
    assert_eq!(said(&log()[..100]), "length, byte 1: the length is 119, and after it the log has 95 bytes");
    assert_eq!(said(&cut(23)), "reading 1, mean, byte 23: the log ends before it");
    assert_eq!(said(&cut(25)), "reading 1, mean, byte 23: the log ends after 2 of its 8 bytes");
    assert_eq!(said(&cut(38)), "reading 1, lowest rate, byte 31: the log ends after 7 of its 8 bytes");
}

#[test]
fn wrong_readings() {
    assert_eq!(said(&with(22, &[15])), "reading 1, length byte, byte 22: the length byte is 15, and a reading has 16");
    let rates = |mean: f64, lowest: f64| said(&with(23, &[mean.to_be_bytes(), lowest.to_be_bytes()].concat()));
    assert_eq!(rates(3.0, f64::NAN), "reading 1, mean, byte 23: the mean is 3.0 and the lowest rate NaN: both must be finite");
    assert_eq!(rates(f64::INFINITY, 2.5), "reading 1, mean, byte 23: the mean is inf and the lowest rate 2.5: both must be finite");
    assert_eq!(rates(2.5, 1e300), "reading 1, mean, byte 23: the mean is 2.5 and the lowest rate 1e300: the lowest rate must be from 0 to the mean");
    let many = log_bytes(&[(2.0, 1.0); MOST_READINGS + 1]);
    assert_eq!(said(&many), "reading 256, length byte, byte 4357: 256 readings come before it, and a log has no more");
}

// Each sentence of the page is one that is said of some log.
#[test]
fn the_page_has_what_is_said() {
    let rates = |mean: f64, lowest: f64| said(&with(23, &[mean.to_be_bytes(), lowest.to_be_bytes()].concat()));
    let many = log_bytes(&[(2.0, 1.0); MOST_READINGS + 1]);
    let wrong = [(1, said(&with(0, &[2]))), (2, said(&log()[..100])), (2, said(&cut(25))), (3, said(&with(22, &[15]))), (27, said(&many))];
    for (number, sentence) in wrong.into_iter().chain([(30, rates(3.0, f64::NAN)), (31, rates(2.5, 2.75))]) {
        assert!(PAGE.contains(&format!("| {number} | {sentence} |\n")), "{number} {sentence}");
    }
}

// Of every wrong log something is said, and of a field that is cut how much of it is there.
#[test]
fn something_is_said_of_every_wrong_log() {
    let drawn = (0..DRAWN).map(|number| log_input(SEED, number));
    for input in fixed_logs().into_iter().chain(drawn) {
        if let Some((number, offset)) = refusal(&input.log) {
            let said = sentence(&input.log, number, offset);
            assert!(said.contains(&format!(", byte {offset}: ")), "{said}");
            assert!(number != 2 || said.contains("the log ends") || said.contains("the length is"), "{said}");
        }
    }
}
