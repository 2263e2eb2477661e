//! Counts what each call answered, and knows what it has to answer sooner or later.

use std::collections::BTreeMap;
use std::fmt;

use reference::refusal::{
    ABOVE_RATE, AT_LAST_DEADLINE, CANNOT_END, DONE, FLOOR_RULE, HEADER, JOB_COUNT, LINE,
    LOWEST_RATE, NOT_FINITE, NO_SUCH_POSITION, NO_TIMETABLE, OUTSIDE_WINDOW, RATES, RELEASES_DIFFER,
    ROW_ORDER, TIMES_OR_SIZE, TOO_MANY_SPEEDS, TOO_SHORT, UNSOUND, VERSION,
};

use crate::model::{DISCARDED, ENDED, MET, MISSED, NONE_ESSENTIAL, OPEN};

/// The calls for hosts.
#[derive(Clone, Copy, Debug, PartialEq, Eq, PartialOrd, Ord)]
pub enum Call {
    Read,
    Name,
    Write,
    Judge,
    Slack,
    Draw,
    Shortage,
    Start,
    Step,
    Shift,
    End,
    Outcome,
    Import,
    Export,
    Speed,
    Speeds,
}

pub const CALLS: [Call; 16] = [
    Call::Read,
    Call::Name,
    Call::Write,
    Call::Judge,
    Call::Slack,
    Call::Draw,
    Call::Shortage,
    Call::Start,
    Call::Step,
    Call::Shift,
    Call::End,
    Call::Outcome,
    Call::Import,
    Call::Export,
    Call::Speed,
    Call::Speeds,
];

/// A text that is taken.
const IMPORTED: u32 = DONE as u32;

/// How a lookup is counted: it answers where a name begins, or that there is none.
pub const NO_NAME: u32 = 0;
pub const NAME_SHOWN: u32 = 1;

impl fmt::Display for Call {
    fn fmt(&self, f: &mut fmt::Formatter<'_>) -> fmt::Result {
        let word = match self {
            Call::Read => "read",
            Call::Name => "name",
            Call::Write => "write",
            Call::Judge => "judge",
            Call::Slack => "slack",
            Call::Draw => "draw",
            Call::Shortage => "shortage",
            Call::Start => "start",
            Call::Step => "step",
            Call::Shift => "shift",
            Call::End => "end",
            Call::Outcome => "outcome",
            Call::Import => "import",
            Call::Export => "export",
            Call::Speed => "speed",
            Call::Speeds => "speeds",
        };
        f.pad(word)
    }
}

fn wide(numbers: impl IntoIterator<Item = u8>) -> Vec<u32> {
    numbers.into_iter().map(u32::from).collect()
}

/// Every number that a call can answer.
fn numbers(call: Call) -> Vec<u32> {
    let judged = |last: u8| {
        wide(
            [DONE, UNSOUND, TOO_SHORT]
                .into_iter()
                .chain(OUTSIDE_WINDOW..=last),
        )
    };
    match call {
        Call::Read => wide([DONE, TOO_SHORT].into_iter().chain(VERSION..=ROW_ORDER)),
        Call::Name => vec![NO_NAME, NAME_SHOWN],
        Call::Write | Call::Export => wide([DONE, UNSOUND, TOO_SHORT]),
        Call::Judge | Call::Start => judged(FLOOR_RULE),
        Call::Slack => [judged(ABOVE_RATE), vec![NONE_ESSENTIAL]].concat(),
        Call::Draw | Call::Shortage => {
            wide([DONE, UNSOUND, TOO_SHORT, RELEASES_DIFFER, NO_TIMETABLE])
        }
        Call::Step => wide([DONE].into_iter().chain(AT_LAST_DEADLINE..=TOO_SHORT)),
        Call::Shift => wide([DONE, UNSOUND, TOO_SHORT, TOO_MANY_SPEEDS]),
        Call::End => wide([DONE, UNSOUND, TOO_SHORT, NO_SUCH_POSITION, CANNOT_END]),
        Call::Outcome => [
            wide([UNSOUND, TOO_SHORT]),
            vec![MET, ENDED, DISCARDED, MISSED, OPEN],
        ]
        .concat(),
        Call::Import => wide(
            [DONE, TOO_SHORT, LINE, HEADER]
                .into_iter()
                .chain(JOB_COUNT..=TIMES_OR_SIZE),
        ),
        Call::Speed => wide([DONE, RATES, NOT_FINITE, LOWEST_RATE]),
        Call::Speeds => wide(
            [DONE, TOO_SHORT, TOO_MANY_SPEEDS, NOT_FINITE, LOWEST_RATE]
                .into_iter()
                .chain(VERSION..=RATES),
        ),
    }
}

/// Every call with every number that it can answer.
pub fn all_answers() -> Vec<(Call, u32)> {
    let of_call = |call| numbers(call).into_iter().map(move |number| (call, number));
    CALLS.into_iter().flat_map(of_call).collect()
}

/// What the two calls on files can answer if the reader refuses the file.
pub fn refused_reads() -> Vec<(Call, u32)> {
    let mut answers = all_answers();
    let shown = [(Call::Read, DONE.into()), (Call::Name, NAME_SHOWN)];
    answers.retain(|answer| matches!(answer.0, Call::Read | Call::Name) && !shown.contains(answer));
    answers
}

/// What the two calls on job lists can answer.
pub fn listed() -> Vec<(Call, u32)> {
    let mut answers = all_answers();
    answers.retain(|answer| matches!(answer.0, Call::Import | Call::Export));
    answers
}

/// A number as people read it.
fn shown(call: Call, number: u32) -> String {
    match (call, number) {
        (Call::Name, NO_NAME) => "none".to_string(),
        (Call::Name, _) => "shown".to_string(),
        (Call::Import, IMPORTED) => "taken".to_string(),
        (_, NONE_ESSENTIAL) => "none essential".to_string(),
        (_, MET) => "met".to_string(),
        (_, ENDED) => "ended".to_string(),
        (_, DISCARDED) => "discarded".to_string(),
        (_, MISSED) => "missed".to_string(),
        (_, OPEN) => "open".to_string(),
        _ => number.to_string(),
    }
}

/// How often each call answered each number.
#[derive(Default)]
pub struct Tally {
    counts: BTreeMap<(Call, u32), u64>,
}

impl Tally {
    pub fn add(&mut self, call: Call, number: u32, count: u64) {
        *self.counts.entry((call, number)).or_insert(0) += count;
    }

    /// Each call and number with its count.
    pub fn all(&self) -> impl Iterator<Item = (Call, u32, u64)> + '_ {
        let counts = self.counts.iter();
        counts.map(|(&(call, number), &count)| (call, number, count))
    }

    /// How many inputs a call was compared on.
    pub fn inputs(&self, call: Call) -> u64 {
        self.of(call).map(|(_, count)| count).sum()
    }

    fn of(&self, call: Call) -> impl Iterator<Item = (u32, u64)> + '_ {
        let own = self.all().filter(move |(other, _, _)| *other == call);
        own.map(|(_, number, count)| (number, count))
    }

    /// Those of these answers that never came.
    pub fn missing(&self, answers: &[(Call, u32)]) -> Vec<String> {
        let never_came = |answer: &&(Call, u32)| !self.counts.contains_key(answer);
        let told = |&(call, number): &(Call, u32)| format!("{} {}", call, shown(call, number));
        answers.iter().filter(never_came).map(told).collect()
    }
}

/// One line for each call that was made: its inputs, then each number with how often it came.
impl fmt::Display for Tally {
    fn fmt(&self, f: &mut fmt::Formatter<'_>) -> fmt::Result {
        writeln!(f, "call       inputs  answers, each with how often it came")?;
        for call in CALLS.into_iter().filter(|&call| self.inputs(call) > 0) {
            write!(f, "{:<8} {:>8}", call, self.inputs(call))?;
            for (number, count) in self.of(call) {
                write!(f, "  {}: {}", shown(call, number), count)?;
            }
            writeln!(f)?;
        }
        Ok(())
    }
}
