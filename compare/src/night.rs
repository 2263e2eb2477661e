//! A run advanced by slots and shifts, with words of the host and refused calls between them.

use gateway::{Plan, Run};
use reference::edition::{MOST_JOBS, MOST_SHIFT_SPEEDS};
use reference::generate::{Prng, Word};
use reference::refusal::UNSOUND;

use crate::between::refused;
use crate::both::{Both, Difference};
use crate::memory::Memory;
use crate::shifts::{has_grants, of_night, Trace};
use crate::wrapper;

/// One slot or shift in this many comes after a refused call.
const SLOTS_TO_A_REFUSAL: u64 = 3;
/// After one slot or shift in this many it is asked how all jobs stand.
const SLOTS_TO_STANDINGS: u64 = 8;
/// One time in this many a shift is carried, and no slot.
const SLOTS_TO_A_SHIFT: u64 = 4;
/// One shift in this many goes up to the next word of the host.
const SHIFTS_TO_A_LONG_ONE: u64 = 3;
/// Most speeds of any other.
const SHORT_SHIFT: u64 = 6;

/// A run that is unsound stays so. After this many slots or shifts that say it the night ends.
const MOST_UNSOUND: u32 = 3;

/// Positions that no job has, for types that are too narrow.
const FAR_POSITIONS: [usize; 3] = [MOST_JOBS, 1 << 32, usize::MAX];

/// The wrapper's plan and run, if it can hold them.
pub type Wrapped<'a> = Option<(&'a Plan, Run)>;

/// What comes in a night: the speed of each slot, and the words of the host between the slots.
pub struct Course<'a> {
    pub speeds: &'a [u16],
    pub words: Vec<Word>,
}

impl Course<'_> {
    /// The positions that are told of after so many slots.
    fn told_after(&self, slots: usize) -> impl Iterator<Item = usize> + '_ {
        let words = self.words.iter().filter(move |word| word.after == slots);
        words.map(|word| word.position as usize)
    }

    /// The speeds of a shift after so many slots, at least one: all up to the next word of the host,
    /// or a few of them.
    fn for_shift(&self, prng: &mut Prng, slots: usize) -> &[u16] {
        let all = self.speeds.len();
        let words = self.words.iter().map(|word| word.after.min(all));
        let end = words.filter(|&after| after > slots).min().unwrap_or(all);
        let most = (end - slots).min(MOST_SHIFT_SPEEDS);
        let few = (prng.between(1, SHORT_SHIFT) as usize).min(most);
        let count = if prng.once_in(SHIFTS_TO_A_LONG_ONE) { most } else { few };
        &self.speeds[slots..slots + count]
    }
}

/// Takes a slot at each speed, beginning with the run in memory, some of them in shifts; the
/// wrapper's run goes along. Then a night with shifts is carried once more by single calls.
pub fn night(
    both: &mut Both,
    prng: &mut Prng,
    memory: &mut Memory,
    course: &Course,
    mut wrapped: Wrapped,
) -> Result<(), Difference> {
    let before = memory.run.contents().to_vec();
    let (mut trace, mut has_shifts) = (Trace::default(), false);
    let (mut slots, mut unsound) = (0, 0);
    while slots < course.speeds.len() && unsound < MOST_UNSOUND {
        tell(both, prng, memory, course.told_after(slots), &mut wrapped)?;
        if prng.once_in(SLOTS_TO_A_REFUSAL) {
            refused(both, prng, memory)?;
        }
        let number = if has_grants(memory) && prng.once_in(SLOTS_TO_A_SHIFT) {
            let speeds = course.for_shift(prng, slots);
            (slots, has_shifts) = (slots + speeds.len(), true);
            of_night(both, prng, memory, speeds, &mut wrapped, &mut trace)?
        } else {
            let speed = course.speeds[slots];
            slots += 1;
            slot(both, prng, memory, speed, &mut wrapped, &mut trace)?
        };
        unsound += u32::from(number == u32::from(UNSOUND));
        if prng.once_in(SLOTS_TO_STANDINGS) {
            standings(both, prng, memory, &wrapped)?;
        }
    }
    let after_all = course.told_after(course.speeds.len());
    tell(both, prng, memory, after_all, &mut wrapped)?;
    standings(both, prng, memory, &wrapped)?;
    if !has_shifts {
        return Ok(());
    }
    let shifted = trace.with_run(memory);
    memory.run.put(0, &before);
    singly(both, memory, course, slots, shifted)
}

/// Takes one slot; the wrapper's run goes along.
fn slot(
    both: &mut Both,
    prng: &mut Prng,
    memory: &mut Memory,
    speed: u16,
    wrapped: &mut Wrapped,
    trace: &mut Trace,
) -> Result<u32, Difference> {
    if prng.once_in(2) {
        memory.grants.renew();
    }
    memory.lend_enough(prng);
    let number = both.step(memory, speed)?;
    if let Some((plan, run)) = wrapped {
        wrapper::step(both, plan, run, speed, number, memory)?;
    }
    trace.step(number, memory);
    Ok(number)
}

/// So many slots of a night by single calls, and the words of the host: each speed has to come to
/// what it came to in the night with shifts, and the same run has to be left.
pub fn singly(
    both: &mut Both,
    memory: &mut Memory,
    course: &Course,
    slots: usize,
    shifted: Vec<u64>,
) -> Result<(), Difference> {
    memory.lend_all();
    let mut trace = Trace::default();
    for (slot, &speed) in course.speeds[..slots].iter().enumerate() {
        for position in course.told_after(slot) {
            both.end(memory, position)?;
        }
        let number = both.step(memory, speed)?;
        trace.step(number, memory);
    }
    for position in course.told_after(course.speeds.len()) {
        both.end(memory, position)?;
    }
    both.agree_singly(trace.with_run(memory), shifted)
}

/// Says of each of these positions that its job has ended; the wrapper's run goes along.
fn tell(
    both: &mut Both,
    prng: &mut Prng,
    memory: &mut Memory,
    positions: impl Iterator<Item = usize>,
    wrapped: &mut Wrapped,
) -> Result<(), Difference> {
    for position in positions {
        memory.lend_enough(prng);
        let number = both.end(memory, position)?;
        if let Some((plan, run)) = wrapped {
            wrapper::end(both, plan, run, position, number, memory)?;
        }
    }
    Ok(())
}

/// How the job stands at every position that a job has, at the first that none has, and at one far
/// beyond. Where plan or run are unsound, the first two positions speak for all.
pub fn standings(
    both: &mut Both,
    prng: &mut Prng,
    memory: &mut Memory,
    wrapped: &Wrapped,
) -> Result<(), Difference> {
    let far = prng.pick(&FAR_POSITIONS);
    let is_unsound = both.outcome(memory, 0)? == u32::from(UNSOUND);
    let last = memory.jobs().min(if is_unsound { 1 } else { MOST_JOBS });
    for position in (0..=last).chain([far]) {
        standing(both, memory, position, wrapped)?;
    }
    Ok(())
}

/// The outcome at a position, and the word that its job has ended; then the run is put back.
fn standing(
    both: &mut Both,
    memory: &mut Memory,
    position: usize,
    wrapped: &Wrapped,
) -> Result<(), Difference> {
    let outcome = both.outcome(memory, position)?;
    let before = memory.run.contents().to_vec();
    let word = both.end(memory, position)?;
    if let Some((plan, run)) = wrapped {
        wrapper::outcome(both, plan, run, position, outcome)?;
        wrapper::end(both, plan, &mut run.clone(), position, word, memory)?;
    }
    memory.run.put(0, &before);
    Ok(())
}
