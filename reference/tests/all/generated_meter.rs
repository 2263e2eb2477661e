//! The generated readings and logs of the meter: the same for the same seed, each kind of float, each
//! refusal at all its places, and the speeds that float arithmetic gives.

use std::collections::BTreeMap;
use std::fmt::Debug;

use reference::generate::{
    fixed_logs, fixed_readings, log_input, reading_input, LogInput, ReadingInput,
};
use reference::meter::{read_log, speed_of, LogRefusal, Reading};

const SEED: u64 = 29;
const DRAWN: u64 = 20_000;
/// How often each shape has to come.
const LEAST: u64 = 50;
/// What stands in a list before it is lent.
const MARK: u16 = 0xEEEE;

fn drawn_readings() -> Vec<ReadingInput> {
    let drawn = |number| reading_input(SEED, number);
    (0..DRAWN).map(drawn).collect()
}

fn drawn_logs() -> Vec<LogInput> {
    (0..DRAWN).map(|number| log_input(SEED, number)).collect()
}

fn speed(input: &ReadingInput) -> Result<u16, u8> {
    let reading = Reading {
        mean: f64::from_bits(input.mean),
        lowest: f64::from_bits(input.lowest),
    };
    speed_of(reading, input.n)
}

/// The answer and the list after a log is read.
fn read(input: &LogInput) -> (Result<usize, LogRefusal>, Vec<u16>) {
    let mut list = vec![MARK; input.list];
    let answer = read_log(&input.log, input.n, &mut list);
    (answer, list)
}

/// What a reading is to give, by the arithmetic of floats.
fn by_floats(mean: f64, lowest: f64, n: u16) -> Result<u16, u8> {
    if !(2..=1_000).contains(&n) {
        Err(4)
    } else if !mean.is_finite() || !lowest.is_finite() {
        Err(30)
    } else if lowest < 0.0 || lowest > mean {
        Err(31)
    } else {
        Ok(lowest.floor().min(f64::from(n)) as u16)
    }
}

/// What a log is to give, by its parts.
fn by_parts(input: &LogInput) -> Result<Vec<u16>, LogRefusal> {
    let refused = |number, offset| Err(LogRefusal { number, offset });
    let log = &input.log;
    if input.n < 2 || input.n > 1_000 {
        return refused(4, None);
    }
    if log.is_empty() || log[0] != 1 {
        return refused(1, Some(0));
    }
    if log.len() < 5 || log[1..5] != ((log.len() - 5) as u32).to_be_bytes() {
        return refused(2, Some(1));
    }
    let mut speeds = Vec::new();
    for (k, record) in log[5..].chunks(17).enumerate() {
        let at = 5 + 17 * k;
        if k == 256 {
            return refused(27, Some(at));
        }
        if record[0] != 16 {
            return refused(3, Some(at));
        }
        if record.len() < 17 {
            let field = if record.len() < 9 { at + 1 } else { at + 9 };
            return refused(2, Some(field));
        }
        let mean = f64::from_be_bytes(record[1..9].try_into().unwrap());
        let lowest = f64::from_be_bytes(record[9..].try_into().unwrap());
        match by_floats(mean, lowest, input.n) {
            Ok(speed) => speeds.push(speed),
            Err(number) => return refused(number, Some(at + 1)),
        }
    }
    if input.list < speeds.len() {
        return refused(22, None);
    }
    Ok(speeds)
}

fn assert_reads_by_parts(inputs: &[LogInput]) {
    for input in inputs {
        let mut expected = vec![MARK; input.list];
        let answer = by_parts(input).map(|speeds| {
            expected[..speeds.len()].copy_from_slice(&speeds);
            speeds.len()
        });
        assert_eq!(read(input), (answer, expected), "{:?}", input);
    }
}

/// Asserts that each of the shapes comes often, and no other.
fn assert_often<K: Ord + Debug>(counts: &BTreeMap<K, u64>, shapes: &[K]) {
    assert!(counts.keys().eq(shapes), "{:?}", counts);
    assert!(counts.values().all(|&count| count >= LEAST), "{:?}", counts);
}

fn numbers(inputs: &[LogInput]) -> BTreeMap<u8, u64> {
    let mut numbers = BTreeMap::new();
    for input in inputs {
        let number = read(input).0.map_or_else(|refusal| refusal.number, |_| 0);
        *numbers.entry(number).or_insert(0) += 1;
    }
    numbers
}

#[test]
fn same_seed_gives_the_same_inputs_and_another_seed_does_not() {
    let readings = |seed| -> Vec<ReadingInput> {
        (0..300).map(|number| reading_input(seed, number)).collect()
    };
    assert!(readings(1) == readings(1) && readings(1) != readings(2));
    let logs = |seed| -> Vec<LogInput> { (0..100).map(|number| log_input(seed, number)).collect() };
    assert!(logs(1) == logs(1) && logs(1) != logs(2));
}

#[test]
fn speeds_are_those_of_float_arithmetic() {
    for input in drawn_readings().into_iter().chain(fixed_readings()) {
        let (mean, lowest) = (f64::from_bits(input.mean), f64::from_bits(input.lowest));
        let expected = by_floats(mean, lowest, input.n);
        assert_eq!(speed(&input), expected, "{:x?}", input);
    }
}

#[test]
fn logs_are_read_by_their_parts() {
    assert_reads_by_parts(&drawn_logs());
    assert_reads_by_parts(&fixed_logs());
}

#[test]
fn each_answer_to_a_reading_comes_often() {
    let answers = |inputs: &[ReadingInput]| {
        let mut answers = BTreeMap::new();
        for input in inputs {
            let number = speed(input).err().unwrap_or(0);
            *answers.entry(number).or_insert(0_u64) += 1;
        }
        answers
    };
    assert_often(&answers(&drawn_readings()), &[0, 4, 30, 31]);
    let fixed = answers(&fixed_readings());
    assert!(fixed.keys().eq(&[0, 4, 30, 31]), "{:?}", fixed);
}

#[test]
fn speeds_are_0_the_rate_and_between() {
    let mut speeds = BTreeMap::new();
    for input in drawn_readings() {
        if let Ok(speed) = speed(&input) {
            let exact = f64::from_bits(input.lowest) == f64::from(speed);
            let kind = match speed {
                0 => "0",
                _ if speed == input.n => "rate",
                _ if speed + 1 == input.n => "one below the rate",
                _ => "between",
            };
            *speeds.entry((kind, exact)).or_insert(0_u64) += 1;
        }
    }
    let mut shapes = Vec::new();
    for kind in ["0", "between", "one below the rate", "rate"] {
        shapes.extend([(kind, false), (kind, true)]);
    }
    assert_often(&speeds, &shapes);
}

#[test]
fn floats_of_every_kind_come_often_in_either_place() {
    let mut kinds = BTreeMap::new();
    for input in drawn_readings() {
        for (place, bits) in [("mean", input.mean), ("lowest", input.lowest)] {
            let kind = match bits << 1 >> 1 {
                0 => "zero",
                1..=0x000F_FFFF_FFFF_FFFF => "subnormal",
                0x7FF0_0000_0000_0000 => "infinity",
                0x7FF0_0000_0000_0001..=0x7FF7_FFFF_FFFF_FFFF => "loud NaN",
                0x7FF8_0000_0000_0000..=u64::MAX => "quiet NaN",
                _ => "normal",
            };
            let sign = bits >> 63;
            *kinds.entry((place, kind, sign)).or_insert(0_u64) += 1;
        }
    }
    let mut shapes = Vec::new();
    for place in ["lowest", "mean"] {
        for kind in [
            "infinity",
            "loud NaN",
            "normal",
            "quiet NaN",
            "subnormal",
            "zero",
        ] {
            shapes.extend([(place, kind, 0), (place, kind, 1)]);
        }
    }
    assert_often(&kinds, &shapes);
}

#[test]
fn grounds_of_refused_readings_come_alone_and_together() {
    let mut grounds = BTreeMap::new();
    for input in drawn_readings() {
        let (mean, lowest) = (f64::from_bits(input.mean), f64::from_bits(input.lowest));
        let found = (
            (2..=1_000).contains(&input.n),
            (mean.is_finite(), lowest.is_finite()),
            (lowest < 0.0, lowest > mean),
        );
        *grounds.entry(found).or_insert(0_u64) += 1;
    }
    let finite = (true, true);
    for alone in [
        (false, finite, (false, false)),
        (true, (true, false), (false, false)),
        (true, (false, true), (false, false)),
        (true, (false, true), (true, false)),
        (true, (false, true), (true, true)),
        (true, finite, (true, false)),
        (true, finite, (false, true)),
        (true, finite, (true, true)),
    ] {
        assert!(grounds[&alone] >= LEAST, "{:?}", grounds);
    }
}

#[test]
fn lowest_rates_just_above_the_mean_and_equal_to_it_come_often() {
    let mut steps = BTreeMap::new();
    for input in drawn_readings() {
        let step = input.lowest.wrapping_sub(input.mean) as i64;
        *steps.entry(step).or_insert(0_u64) += 1;
    }
    for step in [-1, 0, 1] {
        assert!(steps[&step] >= LEAST, "{:?}", steps);
    }
}

#[test]
fn each_answer_to_a_log_comes_often() {
    assert_often(&numbers(&drawn_logs()), &[0, 1, 2, 3, 4, 22, 27, 30, 31]);
    let fixed = numbers(&fixed_logs());
    assert!(
        fixed.keys().eq(&[0, 1, 2, 3, 4, 22, 27, 30, 31]),
        "{:?}",
        fixed
    );
}

#[test]
fn refusals_come_at_the_first_reading_and_later_and_at_each_field() {
    let mut places = BTreeMap::new();
    for input in drawn_logs() {
        if let Err(LogRefusal {
            number,
            offset: Some(offset),
        }) = read(&input).0
        {
            // The head is before the first reading; fields are counted within a reading.
            let reading = offset.checked_sub(5).map(|at| (at >= 17, at % 17));
            *places.entry((number, reading)).or_insert(0_u64) += 1;
        }
    }
    let shapes = [
        (1, None),
        (2, None),
        (2, Some((false, 1))),
        (2, Some((false, 9))),
        (2, Some((true, 1))),
        (2, Some((true, 9))),
        (3, Some((false, 0))),
        (3, Some((true, 0))),
        (27, Some((true, 0))),
        (30, Some((false, 1))),
        (30, Some((true, 1))),
        (31, Some((false, 1))),
        (31, Some((true, 1))),
    ];
    assert_often(&places, &shapes);
}

#[test]
fn logs_of_every_length_and_lists_around_it_come_often() {
    let (mut counts, mut lists) = (BTreeMap::new(), BTreeMap::new());
    for input in drawn_logs() {
        let ample = LogInput {
            list: 300,
            ..input.clone()
        };
        if let Ok(count) = read(&ample).0 {
            *counts.entry(count).or_insert(0_u64) += 1;
            let list = match input.list {
                _ if input.list == count => "exact",
                _ if input.list + 1 == count => "one too short",
                _ if input.list > count => "longer",
                _ => "shorter",
            };
            *lists.entry((count == 256, list)).or_insert(0) += 1;
        }
    }
    for count in [0, 1, 2, 3, 4, 5, 6, 256] {
        assert!(counts[&count] >= LEAST, "{:?}", counts);
    }
    let mut shapes = Vec::new();
    for most in [false, true] {
        shapes.extend(["exact", "longer", "one too short", "shorter"].map(|list| (most, list)));
    }
    assert_often(&lists, &shapes);
}

#[test]
fn bytes_after_the_most_readings_are_no_reading_or_one_of_any_kind() {
    let mut kinds = BTreeMap::new();
    for input in drawn_logs() {
        if let Err(LogRefusal { number: 27, .. }) = read(&input).0 {
            let rest = &input.log[5 + 17 * 256..];
            let kind = match rest.len() {
                _ if rest[0] != 16 => "wrong length byte",
                0..=16 => "cut",
                _ => "whole",
            };
            *kinds.entry(kind).or_insert(0_u64) += 1;
        }
    }
    assert_often(&kinds, &["cut", "whole", "wrong length byte"]);
}
