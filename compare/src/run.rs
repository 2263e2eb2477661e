//! A run over inputs, or a share of one, and a single input once more.

use std::io::{self, BufRead};
use std::ops::Range;

use crate::both::Both;
use crate::cases;
use crate::inputs::{Drawn, Fixed, Source};
use crate::report::Report;
use crate::show::{show_desk, show_file, show_hand, show_list, show_log, show_reading, show_text};

/// A line on standard error after every this many inputs.
const INPUTS_TO_A_LINE: u64 = 100_000;

/// One of several processes that divide the inputs among them.
#[derive(Clone, Copy)]
pub struct Share {
    pub number: u64,
    pub of: u64,
}

impl Share {
    /// The numbers that fall to it.
    fn stretch(self, count: u64) -> Range<u64> {
        count * self.number / self.of..count * (self.number + 1) / self.of
    }
}

/// The cases, all of them in the first share, then the fixed inputs, then those of each seed.
pub fn work(share: Share, drawn: &Drawn) -> Result<Report, String> {
    let mut report = Report::default();
    if share.number == 0 {
        report.cases = cases::all()?;
    }
    let fixed = Fixed::new();
    let numbers = share.stretch(fixed.count());
    report.fixed = numbers.end - numbers.start;
    let fixed = Source::Fixed(fixed);
    for number in numbers {
        compare(&fixed, &mut Both::default(), number)?;
    }
    let mut both = Both::default();
    for source in drawn.sources() {
        for number in share.stretch(drawn.count) {
            compare(&source, &mut both, number)?;
            if (number + 1) % INPUTS_TO_A_LINE == 0 {
                eprintln!(
                    "compare: {}, input {} and no difference",
                    source.name(),
                    number
                );
            }
        }
    }
    report.tally = both.tally;
    Ok(report)
}

/// Adds up the reports of all shares, which come from standard input.
pub fn sum() -> Result<Report, String> {
    let mut report = Report::default();
    for line in io::stdin().lock().lines() {
        let line = line.map_err(|error| error.to_string())?;
        if !report.add(&line) {
            return Err(format!("no line of a share: {}", line));
        }
    }
    Ok(report)
}

/// Shows an input and tells every call on it.
pub fn once_more(source: &Source, number: u64) -> Result<String, String> {
    let input = source.input(number);
    input.file.iter().for_each(show_file);
    input.hand.iter().for_each(show_hand);
    input.desk.iter().for_each(show_desk);
    input.texts.iter().for_each(|text| show_text(text));
    input.list.iter().for_each(show_list);
    input.reading.iter().for_each(show_reading);
    input.log.iter().for_each(show_log);
    let mut both = Both {
        tells: true,
        ..Both::default()
    };
    compare(source, &mut both, number)?;
    Ok("compare: no difference".to_string())
}

fn compare(source: &Source, both: &mut Both, number: u64) -> Result<(), String> {
    let told = |difference| format!("{}, input {}: {}", source.name(), number, difference);
    source.compare(both, number).map_err(told)
}
