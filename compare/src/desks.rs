//! The two calls of the desk on a plan in hand, by the archive and by the wrapper.

use gateway::Plan;
use reference::desk::draw_up;
use reference::generate::{desk_input, DeskInput, Lent, Prng};
use reference::refusal::{DONE, NO_TIMETABLE, RELEASES_DIFFER, TOO_SHORT, UNSOUND};

use crate::both::{Both, Difference};
use crate::inputs::ENOUGH;
use crate::memory::Memory;
use crate::shorts::{short, Which};
use crate::tally::Call;
use crate::twist::twist;
use crate::words::words_of_plan;
use crate::wrapper;

/// Each call with each buffer that it asks for.
const SHORTS: [(Call, Which); 4] = [
    (Call::Draw, Which::Plan),
    (Call::Draw, Which::Table),
    (Call::Shortage, Which::Plan),
    (Call::Shortage, Which::Pair),
];

/// The seed of the inputs that are the same for every seed.
const FIXED_SEED: u64 = 0;
/// What each of them is answered.
const FIXED: [u8; 5] = [DONE, NO_TIMETABLE, RELEASES_DIFFER, UNSOUND, TOO_SHORT];

/// What the reference's desk answers to an input.
pub fn answer(input: &DeskInput) -> u8 {
    draw_up(&input.plan, &mut input.table.clone())
}

/// The first input for each answer.
pub fn fixed_desks() -> Vec<DeskInput> {
    let first = |number| {
        let mut inputs = (0..).map(|at| desk_input(FIXED_SEED, at));
        inputs.find(|input| answer(input) == number)
    };
    FIXED.into_iter().filter_map(first).collect()
}

/// Both calls on a plan and a table as they are lent, now and then once more with twisted words.
pub fn on_desk(both: &mut Both, prng: &mut Prng, input: &DeskInput) -> Result<(), Difference> {
    let lent = Lent {
        table: input.table.len(),
        ..ENOUGH
    };
    let mut memory = Memory::known(prng, &lent);
    memory.plan.put(0, &words_of_plan(&input.plan));
    memory.table.put(0, &input.table);
    calls(both, prng, &mut memory)?;
    if prng.once_in(3) {
        memory.table.put(0, &input.table);
        twist(prng, &mut memory);
        calls(both, prng, &mut memory)?;
    }
    Ok(())
}

/// Asks why there is no timetable, and draws one up; before that each call with each buffer too short.
fn calls(both: &mut Both, prng: &mut Prng, memory: &mut Memory) -> Result<(), Difference> {
    let plan = wrapper::in_hand(memory);
    for call in SHORTS {
        short(both, prng, memory, call)?;
    }
    memory.lend_enough(prng);
    let number = both.shortage(memory)?;
    if let Some(plan) = &plan {
        wrapper::shortage(both, plan, number, memory)?;
    }
    memory.lend_enough(prng);
    draw(both, memory, plan)
}

/// Draws up a timetable, which the judge has to accept, and once more over it.
fn draw(both: &mut Both, memory: &mut Memory, plan: Option<Plan>) -> Result<(), Difference> {
    let number = both.draw(memory)?;
    if let Some(plan) = plan {
        wrapper::draw(both, plan, number, memory)?;
    }
    if number == u32::from(DONE) {
        let verdict = both.judge(memory)?;
        both.agree_drawn(verdict)?;
        both.draw(memory)?;
    }
    Ok(())
}
