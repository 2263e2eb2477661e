//! Shifts that go on from a run: by the archive, by the wrapper, and by single calls at the same
//! speeds, which have to come to the same.

use reference::generate::{Prng, ShiftInput};
use reference::refusal::DONE;

use crate::both::{Both, Difference};
use crate::memory::{Memory, Shift};
use crate::night::{singly, Course, Wrapped};
use crate::words::RUN_WORDS;
use crate::wrapper;

/// Places beyond those that a shift in a night needs.
const SPARE_PLACES: [usize; 4] = [0, 0, 1, 33];

/// What speeds came to, one after the other: of each its number, and of a slot that is done the
/// grants.
#[derive(Default)]
pub struct Trace {
    words: Vec<u64>,
}

impl Trace {
    fn slot(&mut self, number: u32, grants: &[u32]) {
        self.words.push(number.into());
        if number == u32::from(DONE) {
            self.words.extend(grants.iter().map(|&grant| u64::from(grant)));
        }
    }

    /// A slot whose grants are in memory.
    pub fn step(&mut self, number: u32, memory: &Memory) {
        let grants = memory.grants.contents();
        self.slot(number, &grants[..grants.len().min(memory.jobs())]);
    }

    /// Each slot of a shift. What refuses the shift refuses each of its speeds.
    fn shift(&mut self, number: u32, memory: &Memory, shift: &Shift) {
        let (rows, numbers, jobs) =
            (shift.rows.contents(), shift.numbers.contents(), memory.jobs());
        for k in 0..shift.speeds.lent() {
            if number == u32::from(DONE) {
                self.slot(numbers[k].into(), &rows[k * jobs..(k + 1) * jobs]);
            } else {
                self.slot(number, &[]);
            }
        }
    }

    /// All of it, and the run that is in memory afterwards.
    pub fn with_run(mut self, memory: &Memory) -> Vec<u64> {
        let run = &memory.run.contents()[..RUN_WORDS];
        self.words.extend(run.iter().map(|&word| u64::from(word)));
        self.words
    }
}

/// Whether enough grants are lent for a step, so that it does what a shift does.
pub fn has_grants(memory: &Memory) -> bool {
    memory.grants.contents().len() >= memory.jobs()
}

/// A drawn shift from the run in memory, which is then put back. If it is done, single calls at its
/// speeds come to the same.
pub fn drawn(
    both: &mut Both,
    prng: &mut Prng,
    memory: &mut Memory,
    input: &ShiftInput,
    wrapped: &Wrapped,
) -> Result<(), Difference> {
    let before = memory.run.contents().to_vec();
    memory.lend_enough(prng);
    let shift = &mut Shift::of(input);
    let number = both.shift(memory, shift)?;
    if let Some((plan, run)) = wrapped {
        wrapper::shift(both, plan, &mut run.clone(), number, memory, shift)?;
    }
    if number == u32::from(DONE) && has_grants(memory) {
        let course = Course { speeds: &input.speeds, words: Vec::new() };
        let mut trace = Trace::default();
        trace.shift(number, memory, shift);
        let shifted = trace.with_run(memory);
        memory.run.put(0, &before);
        singly(both, memory, &course, input.speeds.len(), shifted)?;
    }
    memory.run.put(0, &before);
    Ok(())
}

/// A shift at these speeds of a night; the wrapper's run goes along. Its outputs are long enough.
pub fn of_night(
    both: &mut Both,
    prng: &mut Prng,
    memory: &mut Memory,
    speeds: &[u16],
    wrapped: &mut Wrapped,
    trace: &mut Trace,
) -> Result<u32, Difference> {
    memory.lend_enough(prng);
    let shift = &mut Shift::at(speeds, memory.jobs(), prng.pick(&SPARE_PLACES));
    let number = both.shift(memory, shift)?;
    if let Some((plan, run)) = wrapped {
        wrapper::shift(both, plan, run, number, memory, shift)?;
    }
    trace.shift(number, memory, shift);
    Ok(number)
}
