//! The line meter: the speed of a reading, the reader of logs, each refusal with its place, and their
//! order.
//!
//! All numbers and offsets are written out by hand. A log of three readings:
//!
//! ```text
//!  0 version   1 length
//!  5 length byte    6 mean   14 lowest   (reading 0)
//! 22 length byte   23 mean   31 lowest   (reading 1)
//! 39 length byte   40 mean   48 lowest   (reading 2)
//! 56 end
//! ```

use crate::common::{replaced, sealed};
use reference::meter::{read_log, speed_of, write_log, LogRefusal, Reading};
use reference::refusal::{
    CUT_OR_LENGTH, LENGTH_BYTE, LOWEST_RATE, NOT_FINITE, RATES, TOO_MANY_SPEEDS, TOO_SHORT, VERSION,
};

/// What stands in a list before it is lent.
const MARK: u16 = 0xEEEE;
/// The least float above zero, and the greatest of all.
const LEAST: f64 = 5e-324;
const GREATEST: f64 = f64::MAX;
/// The neighbours of 1 and 2, as bits.
const BELOW_1: u64 = 0x3FEF_FFFF_FFFF_FFFF;
const ABOVE_1: u64 = 0x3FF0_0000_0000_0001;
const BELOW_2: u64 = 0x3FFF_FFFF_FFFF_FFFF;
const ABOVE_2: u64 = 0x4000_0000_0000_0001;
/// The bits of 1 and of 3.
const ONE: u64 = 0x3FF0_0000_0000_0000;
const THREE: u64 = 0x4008_0000_0000_0000;
const INFINITY: u64 = 0x7FF0_0000_0000_0000;

fn speed(mean: f64, lowest: f64, n: u16) -> Result<u16, u8> {
    speed_of(Reading { mean, lowest }, n)
}

/// The speed of a lowest rate that is the mean too.
fn steady(rate: f64, n: u16) -> Result<u16, u8> {
    speed(rate, rate, n)
}

/// Three readings with lowest rates of 1.999, 2.7 and 0.5, as bytes written by hand.
fn three() -> Vec<u8> {
    let parts: [&[u8]; 7] = [
        &[1, 0, 0, 0, 51],
        &[16, 0x40, 0x08, 0, 0, 0, 0, 0, 0],
        &[0x3F, 0xFF, 0xFB, 0xE7, 0x6C, 0x8B, 0x43, 0x96],
        &[16, 0x40, 0x08, 0, 0, 0, 0, 0, 0],
        &[0x40, 0x05, 0x99, 0x99, 0x99, 0x99, 0x99, 0x9A],
        &[16, 0x40, 0x08, 0, 0, 0, 0, 0, 0],
        &[0x3F, 0xE0, 0, 0, 0, 0, 0, 0],
    ];
    parts.concat()
}

fn three_with(at: usize, bytes: &[u8]) -> Vec<u8> {
    replaced(three(), at, bytes)
}

/// A log of `count` readings of 1.
fn ones(count: usize) -> Vec<u8> {
    write_log(&vec![(ONE, ONE); count])
}

/// The log with bytes after it, and a length field that agrees.
fn longer(log: &[u8], bytes: &[u8]) -> Vec<u8> {
    sealed([log, bytes].concat())
}

/// The refusal of a log with a list of this length, which it has to leave as it was.
fn refused(log: &[u8], n: u16, places: usize) -> LogRefusal {
    let mut list = vec![MARK; places];
    let refusal = read_log(log, n, &mut list).unwrap_err();
    assert_eq!(list, vec![MARK; places]);
    refusal
}

fn assert_refused(log: &[u8], number: u8, offset: usize) {
    let expected = LogRefusal {
        number,
        offset: Some(offset),
    };
    // A list too short is told of only if nothing else is wrong.
    for places in [300, 256, 1, 0] {
        assert_eq!(refused(log, 2, places), expected, "{:?}", log);
    }
}

/// Asserts the speeds of a log, with a list of their exact length and with longer ones.
fn assert_read(log: &[u8], n: u16, speeds: &[u16]) {
    for spare in [0, 1, 300] {
        let mut list = vec![MARK; speeds.len() + spare];
        assert_eq!(read_log(log, n, &mut list), Ok(speeds.len()));
        assert_eq!(list, [speeds, &vec![MARK; spare]].concat());
    }
}

#[test]
fn readings_of_the_paper_give_its_speeds() {
    assert_eq!(speed(3.0, 1.999, 2), Ok(1));
    assert_eq!(speed(3.0, 2.7, 2), Ok(2));
    assert_eq!(speed(3.0, 0.5, 2), Ok(0));
    assert_eq!(speed(3.0, -0.0, 2), Ok(0));
}

#[test]
fn whole_numbers_and_their_neighbours() {
    for (bits, expected) in [
        (BELOW_1, 0),
        (ONE, 1),
        (ABOVE_1, 1),
        (BELOW_2, 1),
        (0x4000_0000_0000_0000, 2),
        (ABOVE_2, 2),
        (THREE, 2),
    ] {
        assert_eq!(steady(f64::from_bits(bits), 2), Ok(expected), "{:x}", bits);
    }
    for k in 0..=1_000 {
        let whole = f64::from(k);
        assert_eq!(steady(whole, 1_000), Ok(k));
        assert_eq!(steady(whole + 0.5, 1_000), Ok(k));
        assert_eq!(
            steady(f64::from_bits(whole.to_bits() + 1), 1_000),
            Ok(k),
            "above {}",
            k
        );
        if k > 0 {
            let below = f64::from_bits(whole.to_bits() - 1);
            assert_eq!(steady(below, 1_000), Ok(k - 1), "below {}", k);
        }
    }
}

#[test]
fn speed_is_at_most_the_rate() {
    for n in 2..=1_000 {
        let rate = f64::from(n);
        assert_eq!(steady(rate, n), Ok(n));
        assert_eq!(steady(rate + 1.0, n), Ok(n));
        assert_eq!(steady(rate - 1.0, n), Ok(n - 1));
    }
    // Some of these are small in fewer bits.
    for huge in [
        1_001.0,
        65_535.0,
        65_536.0,
        65_537.0,
        4_294_967_297.0,
        1e19,
        2e19,
        1e39,
        1e300,
        GREATEST,
    ] {
        assert_eq!(steady(huge, 2), Ok(2), "{}", huge);
        assert_eq!(steady(huge, 1_000), Ok(1_000), "{}", huge);
    }
}

#[test]
fn tiny_rates_give_0() {
    for tiny in [LEAST, 1e-310, f64::MIN_POSITIVE, 1e-300, 1e-19, 0.999] {
        assert_eq!(steady(tiny, 2), Ok(0), "{}", tiny);
    }
}

#[test]
fn zeros_are_equal_and_not_below_zero() {
    for mean in [0.0, -0.0] {
        for lowest in [0.0, -0.0] {
            assert_eq!(speed(mean, lowest, 2), Ok(0));
        }
    }
}

#[test]
fn mean_has_no_part_in_the_speed() {
    for mean in [1.5, 2.0, 900.0, GREATEST] {
        assert_eq!(speed(mean, 1.5, 1_000), Ok(1));
    }
}

#[test]
fn rates_from_2_to_1000_are_allowed() {
    for n in 2..=1_000 {
        assert_eq!(steady(1.0, n), Ok(1));
    }
    for n in [0, 1, 1_001, 1_002, 1_024, 32_770, 65_535] {
        assert_eq!(steady(1.0, n), Err(RATES));
        assert_eq!(steady(f64::NAN, n), Err(RATES));
        assert_eq!(steady(-1.0, n), Err(RATES));
        assert_eq!(speed(1.0, 2.0, n), Err(RATES));
    }
}

#[test]
fn either_not_finite_is_30() {
    let nan = |bits: u64| f64::from_bits(bits);
    for wrong in [
        f64::INFINITY,
        f64::NEG_INFINITY,
        nan(0x7FF8_0000_0000_0000),
        nan(0xFFF8_0000_0000_0000),
        nan(0x7FF0_0000_0000_0001),
        nan(0xFFF0_0000_0000_0001),
        nan(0x7FFF_FFFF_FFFF_FFFF),
        nan(u64::MAX),
    ] {
        assert_eq!(steady(wrong, 2), Err(NOT_FINITE));
        // Also where the other one would be wrong by 31.
        for other in [0.0, 1.0, -1.0, GREATEST, -GREATEST] {
            assert_eq!(speed(wrong, other, 2), Err(NOT_FINITE));
            assert_eq!(speed(other, wrong, 2), Err(NOT_FINITE));
        }
    }
}

#[test]
fn lowest_below_zero_is_31() {
    for lowest in [-LEAST, -1e-310, -f64::MIN_POSITIVE, -0.5, -1.0, -GREATEST] {
        for mean in [lowest, -0.0, 0.0, 1.0, GREATEST, -GREATEST] {
            assert_eq!(speed(mean, lowest, 2), Err(LOWEST_RATE));
        }
    }
}

#[test]
fn lowest_above_the_mean_is_31_and_equal_to_it_is_not() {
    for (mean, lowest) in [(1.0, 1.5), (0.0, LEAST), (-0.0, LEAST), (0.0, GREATEST)] {
        assert_eq!(speed(mean, lowest, 2), Err(LOWEST_RATE));
    }
    for mean in [-LEAST, -1.0, -GREATEST] {
        assert_eq!(speed(mean, 0.0, 2), Err(LOWEST_RATE));
        assert_eq!(speed(mean, -0.0, 2), Err(LOWEST_RATE));
    }
    let (below, above) = (f64::from_bits(BELOW_1), f64::from_bits(ABOVE_1));
    assert_eq!(speed(1.0, above, 2), Err(LOWEST_RATE));
    assert_eq!(speed(below, 1.0, 2), Err(LOWEST_RATE));
    assert_eq!(speed(above, above, 2), Ok(1));
    assert_eq!(speed(below, below, 2), Ok(0));
}

#[test]
fn log_is_read_into_the_list() {
    assert_read(&three(), 2, &[1, 2, 0]);
    assert_read(&three(), 1_000, &[1, 2, 0]);
}

#[test]
fn log_without_readings_gives_no_speed() {
    assert_read(&[1, 0, 0, 0, 0], 2, &[]);
}

#[test]
fn written_log_is_byte_for_byte_the_one_by_hand() {
    let three_readings = [1.999, 2.7, 0.5].map(|lowest: f64| (THREE, lowest.to_bits()));
    assert_eq!(write_log(&three_readings), three());
    assert_eq!(write_log(&[]), [1, 0, 0, 0, 0]);
    assert_eq!(ones(256)[..5], [1, 0, 0, 0x11, 0]);
}

#[test]
fn wrong_version_is_1_at_0() {
    assert_refused(&[], VERSION, 0);
    for version in [0, 2, 16, 129, 255] {
        assert_refused(&[version], VERSION, 0);
        assert_refused(&three_with(0, &[version]), VERSION, 0);
    }
}

#[test]
fn wrong_length_field_is_2_at_1() {
    for end in 1..5 {
        assert_refused(&three()[..end], CUT_OR_LENGTH, 1);
    }
    for end in 5..56 {
        assert_refused(&three()[..end], CUT_OR_LENGTH, 1);
    }
    assert_refused(&[&three()[..], &[0]].concat(), CUT_OR_LENGTH, 1);
    for length in [0_u32, 50, 52, 51 + 256, 51 + (1 << 24), u32::MAX] {
        assert_refused(&three_with(1, &length.to_be_bytes()), CUT_OR_LENGTH, 1);
    }
    // Little-endian.
    assert_refused(&three_with(1, &[51, 0, 0, 0]), CUT_OR_LENGTH, 1);
}

#[test]
fn cut_field_is_2_at_its_first_byte() {
    for end in 5..56 {
        let log = sealed(three()[..end].to_vec());
        match end {
            5 => assert_read(&log, 2, &[]),
            22 => assert_read(&log, 2, &[1]),
            39 => assert_read(&log, 2, &[1, 2]),
            6..=13 => assert_refused(&log, CUT_OR_LENGTH, 6),
            14..=21 => assert_refused(&log, CUT_OR_LENGTH, 14),
            23..=30 => assert_refused(&log, CUT_OR_LENGTH, 23),
            31..=38 => assert_refused(&log, CUT_OR_LENGTH, 31),
            40..=47 => assert_refused(&log, CUT_OR_LENGTH, 40),
            _ => assert_refused(&log, CUT_OR_LENGTH, 48),
        }
    }
}

#[test]
fn wrong_length_byte_is_3_where_it_stands() {
    for at in [5, 22, 39] {
        for byte in (0..=255).filter(|&byte| byte != 16) {
            assert_refused(&three_with(at, &[byte]), LENGTH_BYTE, at);
        }
    }
    // One byte after the last reading begins another one.
    assert_refused(&longer(&three(), &[0]), LENGTH_BYTE, 56);
    assert_refused(&longer(&three(), &[16]), CUT_OR_LENGTH, 57);
}

#[test]
fn refused_reading_is_told_of_at_its_mean() {
    for mean_at in [6, 23, 40] {
        for at in [mean_at, mean_at + 8] {
            let log = three_with(at, &INFINITY.to_be_bytes());
            assert_refused(&log, NOT_FINITE, mean_at);
        }
        let log = three_with(mean_at + 8, &(-1.0_f64).to_be_bytes());
        assert_refused(&log, LOWEST_RATE, mean_at);
        let log = three_with(mean_at, &[0; 8]);
        assert_refused(&log, LOWEST_RATE, mean_at);
    }
}

#[test]
fn reading_is_30_before_31() {
    let mut log = three_with(23, &INFINITY.to_be_bytes());
    log = replaced(log, 31, &(-1.0_f64).to_be_bytes());
    assert_refused(&log, NOT_FINITE, 23);
}

#[test]
fn first_fault_in_the_log_decides() {
    let below_zero = (-1.0_f64).to_be_bytes();
    let log = replaced(three_with(14, &below_zero), 22, &[0]);
    assert_refused(&log, LOWEST_RATE, 6);
    let log = replaced(three_with(31, &below_zero), 6, &INFINITY.to_be_bytes());
    assert_refused(&log, NOT_FINITE, 6);
    let log = replaced(three_with(14, &below_zero), 23, &INFINITY.to_be_bytes());
    assert_refused(&log, LOWEST_RATE, 6);
    let log = replaced(three_with(22, &[17]), 40, &INFINITY.to_be_bytes());
    assert_refused(&log, LENGTH_BYTE, 22);
    // The length field comes before all readings, the version before it.
    let log = three_with(6, &INFINITY.to_be_bytes());
    assert_refused(&log[..55], CUT_OR_LENGTH, 1);
    assert_refused(&replaced(log, 0, &[2])[..55], VERSION, 0);
}

#[test]
fn cut_reading_is_2_whatever_its_first_float_is() {
    let log = three_with(40, &INFINITY.to_be_bytes());
    assert_refused(&sealed(log[..55].to_vec()), CUT_OR_LENGTH, 48);
    assert_refused(&sealed(log[..48].to_vec()), CUT_OR_LENGTH, 48);
    // A wrong length byte comes before the cut.
    let log = replaced(log, 39, &[15]);
    assert_refused(&sealed(log[..55].to_vec()), LENGTH_BYTE, 39);
}

#[test]
fn as_many_readings_as_speeds_of_a_shift_are_read() {
    for count in [255, 256] {
        assert_read(&ones(count), 2, &vec![1; count]);
    }
}

#[test]
fn reading_257_is_27_before_its_bytes() {
    for count in [257, 258, 300, 512] {
        assert_refused(&ones(count), TOO_MANY_SPEEDS, 4_357);
    }
    // Whatever the bytes are, and however few.
    let most = ones(256);
    for byte in 0..=255 {
        assert_refused(&longer(&most, &[byte]), TOO_MANY_SPEEDS, 4_357);
    }
    for more in 1..40 {
        let log = longer(&most, &vec![16; more]);
        assert_refused(&log, TOO_MANY_SPEEDS, 4_357);
    }
    let log = longer(&most, &[&[16][..], &[0xFF; 16]].concat());
    assert_refused(&log, TOO_MANY_SPEEDS, 4_357);
}

#[test]
fn faults_before_reading_257_come_before_27() {
    let log = ones(257);
    assert_refused(&log[..4_373], CUT_OR_LENGTH, 1);
    assert_refused(&replaced(log.clone(), 0, &[2]), VERSION, 0);
    // The last reading that is allowed begins at 4340.
    let changed = |at, bytes: &[u8]| replaced(log.clone(), at, bytes);
    assert_refused(&changed(4_340, &[15]), LENGTH_BYTE, 4_340);
    assert_refused(&changed(4_341, &[0xFF; 8]), NOT_FINITE, 4_341);
    assert_refused(&changed(4_349, &[0xC0]), LOWEST_RATE, 4_341);
    // A fault in the one after it does not.
    assert_refused(&changed(4_357, &[15]), TOO_MANY_SPEEDS, 4_357);
    assert_refused(&changed(4_358, &[0xFF; 8]), TOO_MANY_SPEEDS, 4_357);
}

#[test]
fn rate_is_looked_at_before_the_log_and_the_list() {
    let expected = LogRefusal {
        number: RATES,
        offset: None,
    };
    let mut logs = vec![three(), ones(257), Vec::new(), vec![2], vec![1]];
    logs.push(three_with(5, &[0]));
    logs.push(three_with(6, &INFINITY.to_be_bytes()));
    logs.push(vec![1, 0, 0, 0, 0]);
    for log in logs {
        for n in [0, 1, 1_001, 65_535] {
            for places in [0, 300] {
                assert_eq!(refused(&log, n, places), expected);
            }
        }
    }
}

#[test]
fn list_too_short_is_22_and_is_left() {
    let expected = LogRefusal {
        number: TOO_SHORT,
        offset: None,
    };
    for places in 0..3 {
        assert_eq!(refused(&three(), 2, places), expected);
    }
    assert_eq!(refused(&ones(256), 2, 255), expected);
    assert_eq!(refused(&ones(1), 2, 0), expected);
}
