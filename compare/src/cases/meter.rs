//! Readings of the line meter and its logs.

use reference::generate::{LogInput, ReadingInput};

use super::Cases;
use crate::buffer::Buffer;
use crate::memory::Metering;

/// Floats by their bits: the least above zero, the greatest subnormal one, the least normal one, the
/// greatest, an infinity, and NaNs of several payloads.
const LEAST: u64 = 0x0000_0000_0000_0001;
const SUBNORMAL: u64 = 0x000F_FFFF_FFFF_FFFF;
const NORMAL: u64 = 0x0010_0000_0000_0000;
const GREATEST: u64 = 0x7FEF_FFFF_FFFF_FFFF;
const INFINITE: u64 = 0x7FF0_0000_0000_0000;
const NANS: [u64; 4] = [
    0x7FF8_0000_0000_0000,
    0x7FF0_0000_0000_0001,
    0x7FFF_FFFF_FFFF_FFFF,
    0x7FF4_0000_0000_0002,
];
const ZERO: u64 = 0;
const HALF: u64 = 0x3FE0_0000_0000_0000;
const ONE: u64 = 0x3FF0_0000_0000_0000;
const TWO: u64 = 0x4000_0000_0000_0000;
const THREE: u64 = 0x4008_0000_0000_0000;
/// 1.999, 2.7, 65,537, 2^32 + 1 and 2^64.
const NEARLY_TWO: u64 = 0x3FFF_FBE7_6C8B_4396;
const OVER_TWO: u64 = 0x4005_9999_9999_999A;
const WIDE_16: u64 = 0x40F0_0010_0000_0000;
const WIDE_32: u64 = 0x41F0_0000_0010_0000;
const WIDE_64: u64 = 0x43F0_0000_0000_0000;
const MINUS: u64 = 1 << 63;

/// Holds the call on a reading to a number and a speed.
fn hold(
    cases: &mut Cases,
    case: &str,
    (mean, lowest, n): (u64, u64, u16),
    expected: (u32, u16),
) -> Result<(), String> {
    let mut speed = Buffer::known("speed", 1);
    let got = cases.both.speed(&ReadingInput { mean, lowest, n }, &mut speed);
    let got = got.map(|number| (number, speed.contents()[0]));
    cases.expect(case, got, expected)
}

/// Lowest rates below a great mean at the rate 2, and their speeds.
const SPEEDS: [(&str, u64, u16); 16] = [
    ("zero", ZERO, 0),
    ("negative zero", ZERO | MINUS, 0),
    ("least float", LEAST, 0),
    ("greatest subnormal float", SUBNORMAL, 0),
    ("least normal float", NORMAL, 0),
    ("a half", HALF, 0),
    ("just below 1", ONE - 1, 0),
    ("1", ONE, 1),
    ("just above 1", ONE + 1, 1),
    ("1.999", NEARLY_TWO, 1),
    ("just below 2", TWO - 1, 1),
    ("2", TWO, 2),
    ("2.7", OVER_TWO, 2),
    ("1 in 16 bits", WIDE_16, 2),
    ("1 in 32 bits", WIDE_32, 2),
    ("0 in 64 bits", WIDE_64, 2),
];

/// Speeds, and each refusal with those that come after it.
pub fn readings(cases: &mut Cases) -> Result<(), String> {
    for (case, lowest, speed) in SPEEDS {
        hold(cases, case, (GREATEST, lowest, 2), (0, speed))?;
        hold(cases, case, (lowest, lowest, 2), (0, speed))?;
    }
    for (mean, lowest) in [(ZERO, MINUS), (MINUS, ZERO), (MINUS, MINUS)] {
        hold(cases, "both zeros are equal", (mean, lowest, 2), (0, 0))?;
    }
    for lowest in [MINUS | LEAST, MINUS | NORMAL, MINUS | ONE, MINUS | GREATEST] {
        hold(cases, "below zero", (THREE, lowest, 2), (31, 0))?;
        hold(cases, "both below zero", (lowest, lowest, 2), (31, 0))?;
        hold(cases, "mean below zero", (lowest, ZERO, 2), (31, 0))?;
    }
    for mean in [ZERO, LEAST, SUBNORMAL, HALF, ONE, TWO - 1, GREATEST - 1] {
        hold(cases, "just above the mean", (mean, mean + 1, 2), (31, 0))?;
    }
    for endless in NANS.into_iter().chain([INFINITE]) {
        for endless in [endless, endless | MINUS] {
            for (mean, lowest) in [(endless, ONE), (ONE, endless), (endless, endless)] {
                hold(cases, "not finite", (mean, lowest, 2), (30, 0))?;
            }
            hold(cases, "30 comes before 31", (endless, MINUS | ONE, 2), (30, 0))?;
            hold(cases, "30 comes before 31", (MINUS | ONE, endless, 2), (30, 0))?;
            hold(cases, "4 comes before 30", (endless, endless, 1), (4, 0))?;
        }
    }
    for n in [0, 1, 1_001, 1_002, 65_535] {
        hold(cases, "rate outside its bounds", (ONE, ONE, n), (4, 0))?;
        hold(cases, "4 comes before 31", (ONE, TWO, n), (4, 0))?;
    }
    Ok(())
}

/// Every whole number that can be a speed, with its neighbours, and every rate.
pub fn whole_numbers(cases: &mut Cases) -> Result<(), String> {
    for k in 1..=1_000_u16 {
        let whole = f64::from(k).to_bits();
        for (lowest, speed) in [(whole - 1, k - 1), (whole, k), (whole + 1, k)] {
            let case = format!("around {}", k);
            hold(cases, &case, (GREATEST, lowest, 1_000), (0, speed))?;
        }
    }
    for n in 2..=1_000 {
        let case = format!("rate {}", n);
        let rate = f64::from(n).to_bits();
        hold(cases, &case, (GREATEST, GREATEST, n), (0, n))?;
        hold(cases, &case, (rate, rate - 1, n), (0, n - 1))?;
    }
    Ok(())
}

/// A log of these bits; its length field agrees.
fn log_of(readings: &[(u64, u64)]) -> Vec<u8> {
    let mut log = [&[1], &(17 * readings.len() as u32).to_be_bytes()[..]].concat();
    for (mean, lowest) in readings {
        log.extend([&[16], &mean.to_be_bytes()[..], &lowest.to_be_bytes()].concat());
    }
    log
}

/// Holds the call on a log to a number, an offset, and speeds in the front of its list. What follows
/// them stays.
fn hold_log(
    cases: &mut Cases,
    case: &str,
    (log, n, list): (&[u8], u16, usize),
    (number, offset): (u32, usize),
    speeds: &[u16],
) -> Result<(), String> {
    let log = log.to_vec();
    let mut lent = Metering::of(&LogInput { log, n, list });
    let got = cases.both.speeds(&mut lent);
    let single = (lent.count.contents()[0], lent.offset.contents()[0]);
    cases.expect(case, got, number)?;
    cases.expect(case, Ok(single), (speeds.len(), offset))?;
    let known = &lent.speeds.known_words()[speeds.len()..];
    cases.expect_list(case, lent.speeds.contents(), &[speeds, known].concat())
}

/// The readings of a small log, and their speeds at the rate 2.
const READINGS: [(u64, u64); 4] =
    [(THREE, NEARLY_TWO), (THREE, OVER_TWO), (HALF, HALF), (ZERO, MINUS)];
const READ: [u16; 4] = [1, 2, 0, 0];
/// Where its second reading begins, and in that the mean and the lowest rate.
const SECOND: usize = 22;
const MEAN: usize = SECOND + 1;
const LOWEST: usize = SECOND + 9;

/// Logs that are read, and rates outside their bounds, which come first.
pub fn logs(cases: &mut Cases) -> Result<(), String> {
    let log = log_of(&READINGS);
    hold_log(cases, "small log", (&log, 2, 4), (0, 0), &READ)?;
    hold_log(cases, "small log at 1,000", (&log, 1_000, 9), (0, 0), &READ)?;
    let three = log_of(&[(THREE, THREE)]);
    for n in [2, 3, 4, 1_000] {
        hold_log(cases, "cut to the rate", (&three, n, 1), (0, 0), &[n.min(3)])?;
    }
    hold_log(cases, "no reading", (&log_of(&[]), 2, 0), (0, 0), &[])?;
    hold_log(cases, "no reading, some places", (&log_of(&[]), 2, 3), (0, 0), &[])?;
    for n in [0, 1, 1_001, 65_535] {
        for log in [&log[..], &[], &[0], &log[..30]] {
            for list in [0, 4] {
                hold_log(cases, "rate outside its bounds", (log, n, list), (4, 0), &[])?;
            }
        }
    }
    Ok(())
}

/// The small log with other bytes from one on.
fn changed(at: usize, bytes: &[u8]) -> Vec<u8> {
    let mut log = log_of(&READINGS);
    log[at..at + bytes.len()].copy_from_slice(bytes);
    log
}

/// The small log with other bits from a byte on.
fn with_bits(at: usize, bits: u64) -> Vec<u8> {
    changed(at, &bits.to_be_bytes())
}

/// The first bytes of the small log, with a length field that agrees.
fn cut(length: usize) -> Vec<u8> {
    let mut log = log_of(&READINGS)[..length].to_vec();
    log[1..5].copy_from_slice(&(length as u32 - 5).to_be_bytes());
    log
}

/// What a log has, and where it is wrong.
type LogCase = (&'static str, Vec<u8>, u32, usize);

/// Versions, lengths, cuts and length bytes.
fn wrong_bytes() -> Vec<LogCase> {
    let log = log_of(&READINGS);
    vec![
        ("empty log", Vec::new(), 1, 0),
        ("version 0", changed(0, &[0]), 1, 0),
        ("version 2", changed(0, &[2]), 1, 0),
        ("version alone", log[..1].to_vec(), 2, 1),
        ("length cut", log[..4].to_vec(), 2, 1),
        ("length alone", log[..5].to_vec(), 2, 1),
        ("a byte missing", log[..72].to_vec(), 2, 1),
        ("a byte too many", [&log[..], &[16]].concat(), 2, 1),
        ("length with a high bit", changed(1, &[0x80]), 2, 1),
        ("reading without rates", cut(SECOND + 1), 2, MEAN),
        ("mean cut", cut(LOWEST - 1), 2, MEAN),
        ("mean without a lowest rate", cut(LOWEST), 2, LOWEST),
        ("lowest rate cut", cut(LOWEST + 7), 2, LOWEST),
        ("length byte 15", changed(SECOND, &[15]), 3, SECOND),
        ("length byte 17", changed(SECOND, &[17]), 3, SECOND),
        ("length byte 0", changed(SECOND, &[0]), 3, SECOND),
        ("length byte and mean", changed(SECOND, &[17, 0x7F, 0xF0]), 3, SECOND),
    ]
}

/// Readings that have no speed: told at their mean, whichever rate is wrong, and before all that follows.
fn wrong_readings() -> Vec<LogCase> {
    let mut before_a_cut = cut(72);
    before_a_cut[LOWEST] |= 0x80;
    vec![
        ("below zero before a cut", before_a_cut, 31, MEAN),
        ("infinite mean", with_bits(MEAN, INFINITE), 30, MEAN),
        ("infinite lowest rate", with_bits(LOWEST, INFINITE), 30, MEAN),
        ("negative infinity", with_bits(LOWEST, MINUS | INFINITE), 30, MEAN),
        ("NaN as mean", with_bits(MEAN, NANS[1]), 30, MEAN),
        ("NaN as lowest rate", with_bits(LOWEST, NANS[2]), 30, MEAN),
        ("below zero", with_bits(LOWEST, MINUS | LEAST), 31, MEAN),
        ("above the mean", with_bits(LOWEST, THREE + 1), 31, MEAN),
        ("mean below zero", with_bits(MEAN, MINUS | ONE), 31, MEAN),
        ("last reading above its mean", with_bits(65, LEAST), 31, 57),
    ]
}

/// Each refusal of what stands in a log, with its offset; a list that is too short comes after it.
pub fn refused_logs(cases: &mut Cases) -> Result<(), String> {
    for (case, log, number, offset) in [wrong_bytes(), wrong_readings()].concat() {
        for list in [0, 4, 5] {
            hold_log(cases, case, (&log, 2, list), (number, offset), &[])?;
        }
    }
    Ok(())
}

/// Lists around the length that a log's speeds need.
pub fn lists(cases: &mut Cases) -> Result<(), String> {
    let log = log_of(&READINGS);
    for list in 0..4 {
        hold_log(cases, "too few places", (&log, 2, list), (22, 0), &[])?;
    }
    for list in 4..8 {
        hold_log(cases, "enough places", (&log, 2, list), (0, 0), &READ)?;
    }
    Ok(())
}

/// The most readings of a log, one more, and bytes after the most. Their speeds go up to the rate, and
/// none of them fits a byte.
pub fn most_readings(cases: &mut Cases) -> Result<(), String> {
    let readings: Vec<(u64, u64)> = (745..1_003_u16)
        .map(|k| (GREATEST, f64::from(k).to_bits()))
        .collect();
    let speeds: Vec<u16> = (745..=1_000).collect();
    for count in [255, 256] {
        let log = log_of(&readings[..count]);
        hold_log(cases, "most readings", (&log, 1_000, 256), (0, 0), &speeds[..count])?;
        hold_log(cases, "a place too few", (&log, 1_000, count - 1), (22, 0), &[])?;
    }
    for count in [257, 258] {
        let log = log_of(&readings[..count]);
        for list in [0, 256, 257, 300] {
            hold_log(cases, "a reading too many", (&log, 1_000, list), (27, 4_357), &[])?;
        }
    }
    let mut log = log_of(&readings[..256]);
    log.push(0);
    hold_log(cases, "length before 27", (&log, 2, 256), (2, 1), &[])?;
    log[1..5].copy_from_slice(&4_353_u32.to_be_bytes());
    hold_log(cases, "a byte after the most", (&log, 2, 256), (27, 4_357), &[])?;
    log[4_340] = 15;
    hold_log(cases, "last length byte before 27", (&log, 2, 256), (3, 4_340), &[])
}
