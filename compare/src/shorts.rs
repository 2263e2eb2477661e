//! Calls to which one buffer is lent too short, each buffer of each call in turn.

use reference::edition::TABLE_PLACES;
use reference::generate::Prng;

use crate::both::{Both, Difference};
use crate::buffer::Buffer;
use crate::memory::{Memory, Shift};
use crate::tally::Call;
use crate::words::{LOCATION_WORDS, PAIR_WORDS, PLAN_WORDS, RUN_WORDS};

/// The buffers that have a least length.
#[derive(Clone, Copy, Debug, PartialEq, Eq)]
pub enum Which {
    Plan,
    Table,
    Run,
    Grants,
    Rows,
    Numbers,
    Location,
    Pair,
    Out,
}

/// Each call on a plan in memory with each buffer that it asks for.
pub const SHORTS: [(Call, Which); 30] = [
    (Call::Write, Which::Plan),
    (Call::Write, Which::Table),
    (Call::Write, Which::Out),
    (Call::Judge, Which::Plan),
    (Call::Judge, Which::Table),
    (Call::Judge, Which::Location),
    (Call::Slack, Which::Plan),
    (Call::Slack, Which::Table),
    (Call::Slack, Which::Location),
    (Call::Draw, Which::Plan),
    (Call::Draw, Which::Table),
    (Call::Shortage, Which::Plan),
    (Call::Shortage, Which::Pair),
    (Call::Start, Which::Plan),
    (Call::Start, Which::Table),
    (Call::Start, Which::Run),
    (Call::Start, Which::Location),
    (Call::Step, Which::Plan),
    (Call::Step, Which::Table),
    (Call::Step, Which::Run),
    (Call::Step, Which::Grants),
    (Call::Shift, Which::Plan),
    (Call::Shift, Which::Table),
    (Call::Shift, Which::Run),
    (Call::Shift, Which::Rows),
    (Call::Shift, Which::Numbers),
    (Call::End, Which::Plan),
    (Call::End, Which::Run),
    (Call::Outcome, Which::Plan),
    (Call::Outcome, Which::Run),
];

/// No sound plan has a normal rate below 2, so no step at this speed is refused for it.
pub const SPEED: u16 = 1;
/// The speeds of a shift.
const SPEEDS: [u16; 3] = [SPEED; 3];

/// Makes one of these calls. Nothing happens where the buffer cannot be shorter.
pub fn short(
    both: &mut Both,
    prng: &mut Prng,
    memory: &mut Memory,
    (call, which): (Call, Which),
) -> Result<(), Difference> {
    memory.lend_all();
    let shift = &mut Shift::at(&SPEEDS, memory.jobs(), 0);
    if !lend_short(prng, memory, shift, which) {
        return Ok(());
    }
    match call {
        Call::Write => both.write(memory)?,
        Call::Judge => both.judge(memory)?,
        Call::Slack => both.slack(memory)?,
        Call::Draw => both.draw(memory)?,
        Call::Shortage => both.shortage(memory)?,
        Call::Start => both.start(memory)?,
        Call::Step => both.step(memory, SPEED)?,
        Call::Shift => both.shift(memory, shift)?,
        Call::End => both.end(memory, 0)?,
        Call::Outcome => both.outcome(memory, 0)?,
        Call::Read | Call::Name => unreachable!("these take a file"),
        Call::Import | Call::Export => unreachable!("these take a list"),
        Call::Speed | Call::Speeds => unreachable!("these take no plan"),
    };
    memory.lend_all();
    Ok(())
}

/// Reads a file into a plan or a table that is too short.
pub fn short_read(
    both: &mut Both,
    prng: &mut Prng,
    file: &mut Buffer<u8>,
    memory: &mut Memory,
) -> Result<(), Difference> {
    let which = prng.pick(&[Which::Plan, Which::Table]);
    lend_short(prng, memory, &mut Shift::at(&[], 0, 0), which);
    both.read(file, memory)?;
    memory.lend_all();
    Ok(())
}

/// Lends too few elements. Whether any are needed.
fn lend_short(prng: &mut Prng, memory: &mut Memory, shift: &mut Shift, which: Which) -> bool {
    let needed = match which {
        Which::Plan => PLAN_WORDS,
        Which::Table => TABLE_PLACES,
        Which::Run => RUN_WORDS,
        Which::Grants => memory.jobs(),
        Which::Rows => shift.rows.lent(),
        Which::Numbers => shift.numbers.lent(),
        Which::Location => LOCATION_WORDS,
        Which::Pair => PAIR_WORDS,
        Which::Out => memory.exact,
    };
    if needed == 0 {
        return false;
    }
    let length = too_few(prng, needed);
    match which {
        Which::Plan => memory.plan.lend(length),
        Which::Table => memory.table.lend(length),
        Which::Run => memory.run.lend(length),
        Which::Grants => memory.grants.lend(length),
        Which::Rows => shift.rows.lend(length),
        Which::Numbers => shift.numbers.lend(length),
        Which::Location => memory.location.lend(length),
        Which::Pair => memory.pair.lend(length),
        Which::Out => memory.out.lend(length),
    }
    true
}

/// Mostly one element less than is needed, which is at least one.
pub fn too_few(prng: &mut Prng, needed: usize) -> usize {
    if prng.once_in(4) {
        prng.index(needed)
    } else {
        needed - 1
    }
}
