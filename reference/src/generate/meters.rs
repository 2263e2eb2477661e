//! Makes readings of the meter and its logs: sound ones, each refusal, and lists around the length that
//! the speeds need.

use super::draft::{patch, seal, EVERYWHERE, LENGTH_AT};
use super::floats::{
    any, below_zero, is_zero, next_down, next_up, not_below_zero, not_finite, GREATEST, SIGN,
};
use super::input::{LogInput, ReadingInput};
use super::prng::Prng;
use crate::edition::{
    HEAD_BYTES, LEAST_RATE, MOST_RATE, MOST_SHIFT_SPEEDS, READING_LENGTH, VERSION,
};
use crate::meter::write_log;

/// Bytes of a reading in a log, its length byte included.
pub const READING_BYTES: usize = 17;
/// Where the floats of a reading stand, counted from its length byte.
pub const MEAN_IN: usize = 1;
pub const LOWEST_IN: usize = 9;

/// Rates outside the bounds.
pub const WRONG_RATES: [u16; 4] = [0, 1, MOST_RATE + 1, u16::MAX];
/// Length bytes that no reading has.
const WRONG_LENGTHS: [u8; 7] = [
    0,
    8,
    READING_LENGTH - 1,
    READING_LENGTH + 1,
    14,
    21,
    u8::MAX,
];
/// Readings of a log that is longer than allowed by far, and the most places of a list that is drawn.
const FAR_TOO_MANY: u64 = 300;
/// Most readings of a short log.
const SHORT_LOG: u64 = 6;

/// The bits of a mean and of a lowest rate.
type Bits = (u64, u64);

/// Where the length byte of a reading stands.
pub fn reading_at(position: usize) -> usize {
    HEAD_BYTES + READING_BYTES * position
}

/// A reading of any kind with a rate.
pub fn reading(prng: &mut Prng) -> ReadingInput {
    let n = rate(prng, 6);
    let (mean, lowest) = match prng.below(8) {
        0..=3 => sound(prng, n),
        4 => (any(prng, n), any(prng, n)),
        _ => unsound(prng, n),
    };
    ReadingInput { mean, lowest, n }
}

/// A rate, which is outside its bounds once in `times` draws.
fn rate(prng: &mut Prng, times: u64) -> u16 {
    let (least, most) = (u64::from(LEAST_RATE) + 1, u64::from(MOST_RATE));
    if prng.once_in(times) {
        let above = prng.between(most + 1, u64::from(u16::MAX)) as u16;
        let wrong = prng.pick(&WRONG_RATES);
        return prng.pick(&[wrong, wrong, above]);
    }
    let any = prng.between(least, most);
    prng.pick(&[least, least + 1, most - 1, most, any, any, any, any]) as u16
}

/// A reading that gives a speed.
fn sound(prng: &mut Prng, n: u16) -> Bits {
    let lowest = not_below_zero(prng, n);
    let other = not_below_zero(prng, n);
    match prng.below(6) {
        0 => (lowest, lowest),
        // The zeros are equal, whichever of them is the mean.
        1 if is_zero(lowest) => (lowest ^ SIGN, lowest),
        1 => (next_up(lowest).min(GREATEST), lowest),
        2 => (GREATEST, lowest),
        _ if is_zero(lowest) => (other, lowest),
        _ if is_zero(other) => (lowest, other),
        // Floats above zero stand in the order of their bits.
        _ => (lowest.max(other), lowest.min(other)),
    }
}

/// A reading that is refused.
fn unsound(prng: &mut Prng, n: u16) -> Bits {
    let lowest = not_below_zero(prng, n);
    let endless = not_finite(prng);
    match prng.below(11) {
        0 => (not_finite(prng), any(prng, n)),
        1 => (any(prng, n), not_finite(prng)),
        // With another mean there would be nothing against these.
        2 => (not_finite(prng), lowest),
        3 => (lowest, not_finite(prng)),
        // Not finite decides before below zero.
        4 => (not_finite(prng), below_zero(prng, n)),
        5 => (not_below_zero(prng, n), below_zero(prng, n)),
        6 => (lowest, next_down(0)),
        7 => (below_zero(prng, n), lowest),
        8 => (next_down(lowest), lowest),
        9 => (endless, endless),
        _ => {
            let (mean, lowest) = sound(prng, n);
            (lowest, next_up(mean).min(GREATEST))
        }
    }
}

/// A log of sound readings with up to two of them spoilt and up to two strikes on its bytes.
pub fn log(prng: &mut Prng) -> LogInput {
    let n = rate(prng, 12);
    let count = how_many(prng);
    let mut readings: Vec<Bits> = (0..count).map(|_| sound(prng, n)).collect();
    for _ in 0..prng.pick(&[0, 0, 0, 0, 0, 1, 1, 2]) {
        spoil(prng, n, &mut readings);
    }
    let mut log = write_log(&readings);
    if count == MOST_SHIFT_SPEEDS && prng.once_in(2) {
        add_bytes(prng, &mut log);
    }
    for _ in 0..prng.pick(&[0, 0, 0, 0, 0, 1, 1, 2]) {
        strike(prng, count, &mut log);
    }
    LogInput {
        log,
        n,
        list: places(prng, count),
    }
}

/// How many readings: a few, around the most speeds that there may be, far too many, or none.
fn how_many(prng: &mut Prng) -> usize {
    let most = MOST_SHIFT_SPEEDS as u64;
    let count = match prng.below(20) {
        0 => 0,
        1 => prng.pick(&[most - 1, most + 1, FAR_TOO_MANY]),
        2 => prng.between(0, most),
        3 | 4 => most,
        5 => most + 1,
        _ => prng.between(1, SHORT_LOG),
    };
    count as usize
}

/// Puts a reading that is refused at the first, a middle, the last or any place.
fn spoil(prng: &mut Prng, n: u16, readings: &mut [Bits]) {
    if !readings.is_empty() {
        let any = prng.index(readings.len());
        let place = prng.pick(&EVERYWHERE).index(readings.len());
        readings[prng.pick(&[any, place])] = unsound(prng, n);
    }
}

/// The length of a list for `exact` speeds: exact, one too few, some more, or any.
fn places(prng: &mut Prng, exact: usize) -> usize {
    match prng.below(10) {
        0 | 1 => exact.saturating_sub(1),
        2 => prng.between(0, FAR_TOO_MANY) as usize,
        3 => prng.index(exact + 1),
        4 | 5 => exact + prng.between(1, 40) as usize,
        _ => exact,
    }
}

/// One strike on the bytes of a log that was made of `count` readings.
fn strike(prng: &mut Prng, count: usize, log: &mut Vec<u8>) {
    // Earlier damage may have left nothing.
    if log.is_empty() {
        return;
    }
    let place = prng.index(log.len());
    let reading = reading_at(prng.pick(&EVERYWHERE).index(count.max(1)));
    match prng.below(11) {
        0 => log[0] = prng.pick(&[0, VERSION + 1, 0x80 + VERSION, u8::MAX]),
        1 => log.truncate(prng.pick(&[0, 1, LENGTH_AT + 3, place])),
        2 => {
            let change = prng.pick(&[1, 1, READING_BYTES as u32, 1 << 8, 1 << 31]);
            let wrong = (log.len() as u32).saturating_sub(HEAD_BYTES as u32) ^ change;
            patch(log, LENGTH_AT, &wrong.to_be_bytes());
        }
        3 => cut(log, place),
        4 => cut_reading(prng, reading, log),
        5 | 6 => patch(log, reading, &[prng.pick(&WRONG_LENGTHS)]),
        7 => add_bytes(prng, log),
        8 => log.push(prng.pick(&[0, READING_LENGTH])),
        9 => log[place] ^= 1 << prng.below(8),
        _ => log[place] = prng.below(256) as u8,
    }
}

/// Ends the log in the reading that begins here. What is left of it may be wrong, but is cut first.
fn cut_reading(prng: &mut Prng, reading: usize, log: &mut Vec<u8>) {
    if prng.once_in(2) {
        patch(log, reading + MEAN_IN, &not_finite(prng).to_be_bytes());
    }
    let kept = prng.pick(&[0, MEAN_IN, MEAN_IN + 7, LOWEST_IN, LOWEST_IN + 7]);
    cut(log, reading + kept);
}

/// Ends the log here, with a length field that agrees.
fn cut(log: &mut Vec<u8>, end: usize) {
    log.truncate(end);
    seal(log);
}

/// Puts bytes after the last reading, with a length field that agrees.
fn add_bytes(prng: &mut Prng, log: &mut Vec<u8>) {
    let more = prng.pick(&[1, 1, 2, LOWEST_IN, READING_BYTES - 1, READING_BYTES]);
    let first = prng.pick(&[0, VERSION, READING_LENGTH, READING_LENGTH, u8::MAX]);
    let byte = prng.pick(&[0, 0, 0x3F, READING_LENGTH, u8::MAX]);
    log.push(first);
    log.extend(vec![byte; more - 1]);
    seal(log);
}
