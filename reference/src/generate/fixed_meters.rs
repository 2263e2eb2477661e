//! The readings and logs of the meter that are always tried: the paper's own, every float of a list
//! beside every other, every whole number and its neighbours, every rate, every cut and changed byte of
//! a small log, and each number of readings around the most that there may be.

use super::draft::{patch, seal, LENGTH_AT};
use super::floats::{next_down, next_up, whole, GREATEST, INFINITY, LEAST_NORMAL, NANS, SIGN};
use super::input::{LogInput, ReadingInput};
use super::meters::{reading_at, LOWEST_IN, MEAN_IN, READING_BYTES, WRONG_RATES};
use crate::edition::{HEAD_BYTES, MOST_RATE, MOST_SHIFT_SPEEDS, READING_LENGTH};
use crate::meter::write_log;

/// The rate of the paper's readings.
const N: u16 = 2;
/// Their lowest rates.
const LOWEST: [f64; 4] = [1.999, 2.7, 0.5, -0.0];
/// Their mean, which is above them all.
const MEAN: f64 = 3.0;
/// A list that every log's speeds fit into.
const AMPLE: usize = MOST_SHIFT_SPEEDS + 4;

/// All readings, in their order.
pub fn fixed_readings() -> Vec<ReadingInput> {
    let parts = [of_the_paper(), every_pair(), whole_numbers(), every_rate()];
    parts.concat()
}

/// All logs, in their order.
pub fn fixed_logs() -> Vec<LogInput> {
    let parts = [
        lists(),
        rates(),
        versions(),
        cuts(),
        changed_bytes(),
        wrong_lengths(),
        wrong_readings(),
        counts(),
        bytes_after_the_most(),
    ];
    parts.concat()
}

fn paper_bits() -> Vec<(u64, u64)> {
    let bits = |lowest: &f64| (MEAN.to_bits(), lowest.to_bits());
    LOWEST.iter().map(bits).collect()
}

fn of_the_paper() -> Vec<ReadingInput> {
    let input = |(mean, lowest)| ReadingInput { mean, lowest, n: N };
    paper_bits().into_iter().map(input).collect()
}

/// Floats of each kind, of either sign.
fn floats() -> Vec<u64> {
    let mut floats = vec![0, 1, LEAST_NORMAL - 1, LEAST_NORMAL, GREATEST, INFINITY];
    floats.extend(NANS);
    for k in [1, 2, MOST_RATE] {
        floats.extend([next_down(whole(k)), whole(k), next_up(whole(k))]);
    }
    for float in [0.5, 1.5, 2.7, 65_537.0, 4_294_967_297.0, 1e19, 1e300] {
        floats.push(f64::to_bits(float));
    }
    let negative: Vec<u64> = floats.iter().map(|bits| bits | SIGN).collect();
    [floats, negative].concat()
}

/// Each of the floats as a mean beside each as a lowest rate.
fn every_pair() -> Vec<ReadingInput> {
    let mut inputs = Vec::new();
    for n in [N, MOST_RATE] {
        for mean in floats() {
            for lowest in floats() {
                inputs.push(ReadingInput { mean, lowest, n });
            }
        }
    }
    inputs
}

/// Each whole number that is a speed or one too many, and its neighbours.
fn whole_numbers() -> Vec<ReadingInput> {
    let mut inputs = Vec::new();
    for k in 0..=MOST_RATE + 1 {
        let whole = whole(k);
        for lowest in [next_down(whole), whole, next_up(whole)] {
            for n in [MOST_RATE, MOST_RATE / 2] {
                inputs.push(ReadingInput {
                    mean: lowest,
                    lowest,
                    n,
                });
            }
        }
    }
    inputs
}

/// Each rate up to two too many and others outside the bounds, with a reading that is right, one that is
/// not finite, and one below zero.
fn every_rate() -> Vec<ReadingInput> {
    let mut inputs = Vec::new();
    for n in (0..=MOST_RATE + 2).chain(WRONG_RATES) {
        for lowest in [GREATEST, INFINITY, whole(1) | SIGN] {
            inputs.push(ReadingInput {
                mean: GREATEST,
                lowest,
                n,
            });
        }
    }
    inputs
}

fn of_log(log: Vec<u8>) -> LogInput {
    LogInput {
        log,
        n: N,
        list: AMPLE,
    }
}

fn sealed(mut log: Vec<u8>) -> LogInput {
    seal(&mut log);
    of_log(log)
}

fn paper_log() -> Vec<u8> {
    write_log(&paper_bits())
}

/// Each length of a list up to two more than are needed.
fn lists() -> Vec<LogInput> {
    let input = |list| LogInput {
        list,
        ..of_log(paper_log())
    };
    (0..=LOWEST.len() + 2).map(input).collect()
}

/// Rates outside the bounds, with a log that is right, one that is not, and a list too short.
fn rates() -> Vec<LogInput> {
    let mut inputs = Vec::new();
    for n in WRONG_RATES {
        for log in [paper_log(), Vec::new(), vec![0]] {
            for list in [0, AMPLE] {
                let log = log.clone();
                inputs.push(LogInput { log, n, list });
            }
        }
    }
    inputs
}

/// Each version byte.
fn versions() -> Vec<LogInput> {
    let mut inputs = Vec::new();
    for version in 0..=u8::MAX {
        let mut log = paper_log();
        log[0] = version;
        inputs.push(of_log(log));
    }
    inputs
}

/// Every beginning of a log, with a length field that agrees and with the one that it had.
fn cuts() -> Vec<LogInput> {
    let log = paper_log();
    let mut inputs = Vec::new();
    for end in 0..log.len() {
        inputs.push(of_log(log[..end].to_vec()));
        inputs.push(sealed(log[..end].to_vec()));
    }
    inputs
}

fn changed_bytes() -> Vec<LogInput> {
    let log = paper_log();
    let mut inputs = Vec::new();
    for place in 0..log.len() {
        for change in [0x01, 0x10, 0x80, u8::MAX] {
            let mut log = log.clone();
            log[place] ^= change;
            inputs.push(of_log(log));
        }
    }
    inputs
}

/// Length fields around the right one, also of a log without readings.
fn wrong_lengths() -> Vec<LogInput> {
    let mut inputs = Vec::new();
    for log in [paper_log(), write_log(&[])] {
        let right = (log.len() - HEAD_BYTES) as u32;
        for wrong in [right ^ 1, right + 5, right + 256, right | 1 << 31, u32::MAX] {
            let mut log = log.clone();
            patch(&mut log, LENGTH_AT, &wrong.to_be_bytes());
            inputs.push(of_log(log));
        }
    }
    inputs
}

/// Each kind of refused reading at each place, also with a wrong length byte; the log ends in the last
/// reading, after it, or goes on.
fn wrong_readings() -> Vec<LogInput> {
    let one = whole(1);
    let last = reading_at(LOWEST.len() - 1);
    let mut inputs = Vec::new();
    for place in 0..LOWEST.len() {
        for wrong in [
            (INFINITY, one),
            (NANS[0], NANS[0]),
            (one, INFINITY),
            (INFINITY, one | SIGN),
            (one, one | SIGN),
            (one, next_up(one)),
            (one | SIGN, 0),
        ] {
            let mut readings = paper_bits();
            readings[place] = wrong;
            let log = write_log(&readings);
            let mut damaged = log.clone();
            patch(&mut damaged, reading_at(place), &[READING_LENGTH + 1]);
            for end in [last + MEAN_IN, last + LOWEST_IN, log.len() - 1, log.len()] {
                inputs.push(sealed(log[..end].to_vec()));
                inputs.push(sealed(damaged[..end].to_vec()));
            }
            inputs.push(sealed([&log[..], &[0]].concat()));
            inputs.push(LogInput {
                list: place,
                ..of_log(log)
            });
        }
    }
    inputs
}

/// The most readings that there may be and numbers around it, with lists around the exact length.
fn counts() -> Vec<LogInput> {
    let mut inputs = Vec::new();
    for count in [0, 1, 2, 254, 255, 256, 257, 258, 300, 512] {
        let readings: Vec<(u64, u64)> = (0..count)
            .map(|k| (GREATEST, whole(k % (MOST_RATE + 2))))
            .collect();
        let exact = readings.len();
        for list in [0, exact.saturating_sub(1), exact, exact + 1, AMPLE] {
            inputs.push(LogInput {
                log: write_log(&readings),
                n: MOST_RATE,
                list,
            });
        }
    }
    inputs
}

/// Bytes of all kinds after the most readings, and faults before them.
fn bytes_after_the_most() -> Vec<LogInput> {
    let log = write_log(&[(whole(1), whole(1)); MOST_SHIFT_SPEEDS]);
    let last = reading_at(MOST_SHIFT_SPEEDS - 1);
    let mut inputs = Vec::new();
    for more in 1..=READING_BYTES + 1 {
        for byte in [0, READING_LENGTH, u8::MAX] {
            let longer = [&log[..], &vec![byte; more]].concat();
            inputs.push(sealed(longer.clone()));
            inputs.push(of_log(longer.clone()));
            for (at, wrong) in [(last, 0), (last + MEAN_IN, u8::MAX)] {
                let mut damaged = longer.clone();
                patch(&mut damaged, at, &[wrong]);
                inputs.push(sealed(damaged));
            }
        }
    }
    inputs
}
