//! Shows that the comparison sees wrong answers: words of each call's answers are changed on purpose,
//! one at a time, and each has to be noticed.

use reference::refusal::{DONE, HEADER, JOB_COUNT, LINE, LOWEST_RATE, NOT_FINITE, NO_TIMETABLE};
use reference::refusal::{RATES, ROW_ORDER, TIMES_OR_SIZE, TOO_MANY_SPEEDS, TOO_SHORT, VERSION};

use crate::both::{Both, Part, Spoil, WRAPPED_OFFSET};
use crate::buffer::SPOTS;
use crate::inputs::{Fixed, Source};
use crate::tally::{Call, CALLS};
use crate::words::PAIR_WORDS;

/// Inputs in which every call is made and done.
const INPUTS: [u64; 3] = [0, 1, 2];

/// How many pointers the call takes.
fn pointers(call: Call) -> usize {
    match call {
        Call::Name | Call::Speed => 1,
        Call::Draw | Call::Shortage | Call::End | Call::Outcome => 2,
        Call::Judge | Call::Import | Call::Export => 3,
        Call::Read | Call::Write | Call::Slack | Call::Start | Call::Step | Call::Speeds => 4,
        Call::Shift => 6,
    }
}

/// The number, the wrapper's answer, what single calls come to, what the judge says of a timetable, and
/// of each buffer the first and last word and the words of the border next to them.
fn parts(call: Call) -> Vec<Part> {
    let mut parts = vec![Part::Number, Part::Wrapped(0)];
    if matches!(call, Call::Shift | Call::Speeds) {
        parts.push(Part::Singly(0));
    }
    if call == Call::Draw {
        parts.push(Part::Judged);
    }
    for pointer in 0..pointers(call) {
        parts.extend(SPOTS.map(|spot| Part::Word(pointer, spot)));
    }
    parts
}

/// The words of a pair by which there is no timetable, and those that the wrapper makes of them.
fn pair_parts() -> impl Iterator<Item = Part> {
    let last = |word| Part::Last(NO_TIMETABLE.into(), word);
    (0..PAIR_WORDS).flat_map(move |word| [last(word), Part::Wrapped(1 + word)])
}

/// How many changed words were noticed, or one that was not.
pub fn self_test() -> Result<String, String> {
    let fixed = Fixed::new();
    let offsets = [reads(&fixed)?, imports(&fixed)?, logs(&fixed)?].concat();
    let short = fixed.first_drawn_as(NO_TIMETABLE);
    let short = short.ok_or("no fixed desk is without a timetable")?;
    let fixed = Source::Fixed(fixed);
    if let Some(seen) = first_seen(&fixed, &INPUTS, None) {
        return Err(format!("a difference where nothing was changed: {}", seen));
    }
    let mut noticed = 0;
    for call in CALLS {
        for part in parts(call) {
            noticed += notice(&fixed, &INPUTS, Spoil { call, part })?;
        }
    }
    for (call, number, input) in offsets {
        for part in [Part::Last(number, 0), Part::Wrapped(WRAPPED_OFFSET)] {
            noticed += notice(&fixed, &[input], Spoil { call, part })?;
        }
    }
    for part in pair_parts() {
        let call = Call::Shortage;
        noticed += notice(&fixed, &[short], Spoil { call, part })?;
    }
    Ok(format!(
        "compare: {} wrong words noticed, and no difference where nothing was changed",
        noticed
    ))
}

/// A number that read, import or speeds answers with an offset, and an input that brings it.
type Offset = (Call, u32, u64);

/// All of the reader's numbers.
fn reads(fixed: &Fixed) -> Result<Vec<Offset>, String> {
    let numbers = [DONE, TOO_SHORT].into_iter().chain(VERSION..=ROW_ORDER);
    let input_of = |number: u8| {
        let input = fixed.first_read_as(number);
        let input = input.ok_or_else(|| format!("no fixed input is read as {}", number))?;
        Ok((Call::Read, number.into(), input))
    };
    numbers.map(input_of).collect()
}

/// All of import's numbers. Each text is also imported into too few words, so the first brings 22.
fn imports(fixed: &Fixed) -> Result<Vec<Offset>, String> {
    let numbers = [DONE, LINE, HEADER].into_iter().chain(JOB_COUNT..=TIMES_OR_SIZE);
    let input_of = |number: u8| {
        let input = fixed.first_imported_as(number);
        let input = input.ok_or_else(|| format!("no fixed text is imported as {}", number))?;
        Ok((Call::Import, number.into(), input))
    };
    let short = Ok((Call::Import, TOO_SHORT.into(), INPUTS[0]));
    numbers.map(input_of).chain([short]).collect()
}

/// All of the log reader's numbers.
fn logs(fixed: &Fixed) -> Result<Vec<Offset>, String> {
    let others = [DONE, TOO_SHORT, TOO_MANY_SPEEDS, NOT_FINITE, LOWEST_RATE];
    let input_of = |number: u8| {
        let input = fixed.first_metered_as(number);
        let input = input.ok_or_else(|| format!("no fixed log is read as {}", number))?;
        Ok((Call::Speeds, number.into(), input))
    };
    others.into_iter().chain(VERSION..=RATES).map(input_of).collect()
}

/// 1 for a changed word that is noticed in its own call.
fn notice(source: &Source, inputs: &[u64], spoil: Spoil) -> Result<u32, String> {
    match first_seen(source, inputs, Some(spoil)) {
        Some(seen) if seen == spoil.call.to_string() => Ok(1),
        other => Err(format!(
            "{:?} of {} was changed: {:?}",
            spoil.part, spoil.call, other
        )),
    }
}

/// The call in which the first difference was seen.
fn first_seen(source: &Source, inputs: &[u64], spoil: Option<Spoil>) -> Option<String> {
    let mut both = Both {
        spoil,
        ..Both::default()
    };
    let differs = |&number| source.compare(&mut both, number).err();
    let difference = inputs.iter().find_map(differs)?;
    Some(difference.call.to_string())
}
