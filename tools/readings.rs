//! Readings of the line meter as readable text, and the meter log that they stand for. FORM says how they are written.

use crate::encoding::VERSION;
use crate::{no_mark, text_of, values};

/// How readings are written.
pub const FORM: &str = include_str!("readings.txt");

pub(crate) const READING_LENGTH: u8 = 16;
/// The most readings of a log.
pub const MOST_READINGS: usize = 256;

/// A mean and a lowest rate.
pub type Reading = (f64, f64);

const FIELDS: [&str; 2] = ["MEAN", "LOWEST"];
// What a meter reports where it has no number.
const NO_NUMBERS: [(&str, f64); 3] = [("inf", f64::INFINITY), ("-inf", f64::NEG_INFINITY), ("nan", f64::NAN)];

// A decimal number has digits, and no letter but that of its exponent.
fn is_decimal(word: &str) -> bool {
    let is_part = |byte: u8| byte.is_ascii_digit() || b"+-.eE".contains(&byte);
    word.bytes().all(is_part) && word.bytes().any(|byte| byte.is_ascii_digit())
}

fn rate(field: &str, word: &str) -> Result<f64, String> {
    if let Some((_, rate)) = NO_NUMBERS.iter().find(|(known, _)| *known == word) {
        return Ok(*rate);
    }
    match word.parse::<f64>() {
        Ok(rate) if is_decimal(word) && rate.is_finite() => Ok(rate),
        Ok(_) if is_decimal(word) => Err(format!("{field}: `{word}` is too large for a float of eight bytes")),
        _ => Err(format!("{field}: `{word}` is not a decimal number")),
    }
}

fn line(readings: &mut Vec<Reading>, content: &str) -> Result<(), String> {
    let words: Vec<&str> = content.split_whitespace().collect();
    if words.first().map_or(true, |word| word.starts_with('#')) {
        return Ok(());
    }
    let [mean, lowest] = values("", &words, FIELDS)?;
    if readings.len() == MOST_READINGS {
        return Err(format!("a log has at most {MOST_READINGS} readings, and this is one more"));
    }
    readings.push((rate(FIELDS[0], mean)?, rate(FIELDS[1], lowest)?));
    Ok(())
}

/// Reads readings from the bytes of a text.
pub fn parse_bytes(bytes: &[u8]) -> Result<Vec<Reading>, String> {
    let text = text_of(bytes)?;
    no_mark(text)?;
    let mut readings = Vec::new();
    for (at, content) in text.lines().enumerate() {
        line(&mut readings, content).map_err(|fault| format!("line {}: {fault}", at + 1))?;
    }
    Ok(readings)
}

/// The meter log.
pub fn log_bytes(readings: &[Reading]) -> Vec<u8> {
    let mut body = Vec::new();
    for (mean, lowest) in readings {
        body.push(READING_LENGTH);
        body.extend(mean.to_be_bytes());
        body.extend(lowest.to_be_bytes());
    }
    let mut log = vec![VERSION];
    log.extend((body.len() as u32).to_be_bytes());
    log.extend(body);
    log
}

#[cfg(test)]
mod tests {
    use super::*;

    fn fault(text: &str) -> String {
        parse_bytes(text.as_bytes()).err().unwrap_or_default()
    }

    // The bits of what is read.
    fn bits(text: &str) -> Vec<[u64; 2]> {
        let readings = parse_bytes(text.as_bytes()).unwrap_or_default();
        readings.iter().map(|(mean, lowest)| [mean.to_bits(), lowest.to_bits()]).collect()
    }

    #[test]
    fn every_line_is_read() {
        let read = bits("# words\n\n3 1.999\r\n  1e3\t.5\n-0.0 +2.\n");
        assert_eq!(read, [[3.0, 1.999], [1_000.0, 0.5], [-0.0, 2.0]].map(|pair| pair.map(f64::to_bits)));
        assert_eq!(bits("5e-324 1.9999999999999998"), [[1, 2_f64.to_bits() - 1]]);
        assert_eq!(bits("# nothing\n").len(), 0);
    }

    #[test]
    fn what_is_no_number_is_written_as_a_meter_reports_it() {
        assert_eq!(bits("inf -inf"), [[f64::INFINITY.to_bits(), f64::NEG_INFINITY.to_bits()]]);
        assert_eq!(bits("nan 1"), [[f64::NAN.to_bits(), 1_f64.to_bits()]]);
        for word in ["NaN", "infinity", "+inf", "two", "1,5", "0x1", "--1", "1e", "."] {
            assert_eq!(fault(&format!("3 {word}")), format!("line 1: LOWEST: `{word}` is not a decimal number"));
        }
    }

    #[test]
    fn a_rate_is_never_made_infinite() {
        assert_eq!(fault("1 1\n1e309 1"), "line 2: MEAN: `1e309` is too large for a float of eight bytes");
        assert_eq!(fault("1.7976931348623157e308 1"), "");
    }

    #[test]
    fn a_line_has_two_rates() {
        assert_eq!(fault("\n3"), "line 2: LOWEST is missing: expected MEAN LOWEST");
        assert_eq!(fault("3 2 1"), "line 1: `1` is too much: expected MEAN LOWEST");
        assert_eq!(fault("3 2 # the first"), "line 1: a comment follows on the same line: it needs a line of its own");
    }

    #[test]
    fn a_log_has_at_most_256_readings() {
        let most = "2 1\n".repeat(MOST_READINGS);
        assert_eq!(parse_bytes(most.as_bytes()).map(|readings| readings.len()), Ok(256));
        assert_eq!(fault(&format!("# words\n{most}2 1")), "line 258: a log has at most 256 readings, and this is one more");
        assert_eq!(fault(&format!("{most}\n# words\n")), "");
    }

    #[test]
    fn a_text_is_one_in_utf_8() {
        assert!(fault("\u{feff}3 2").starts_with("line 1: the text begins with a byte order mark"));
        assert_eq!(parse_bytes(b"3 \xFF").err().as_deref(), Some("not a text in UTF-8"));
    }

    #[test]
    fn a_log_has_its_length_and_the_bits_of_each_rate() {
        let log = log_bytes(&[(3.0, 1.0)]);
        assert_eq!(log, [1, 0, 0, 0, 17, 16, 0x40, 8, 0, 0, 0, 0, 0, 0, 0x3F, 0xF0, 0, 0, 0, 0, 0, 0]);
        assert_eq!(log_bytes(&[]), [1, 0, 0, 0, 0]);
    }
}
