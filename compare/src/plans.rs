//! Write, judge, slack and start on a plan and its table, and export of its jobs, by the archive and
//! by the wrapper.

use gateway::{Plan, Run};
use reference::generate::Prng;
use reference::refusal::DONE;

use crate::both::{Both, Difference};
use crate::lists::of_plan;
use crate::memory::Memory;
use crate::wrapper;

/// Makes the five calls. Gives what start answered, and the wrapper's run if there is one.
pub fn compare(
    both: &mut Both,
    prng: &mut Prng,
    memory: &mut Memory,
    wrapped: Option<&Plan>,
) -> Result<(u32, Option<Run>), Difference> {
    write(both, memory, wrapped)?;
    of_plan(both, prng, memory)?;
    memory.lend_enough(prng);
    let number = both.judge(memory)?;
    if let Some(plan) = wrapped {
        wrapper::judge(both, plan, number, memory)?;
    }
    memory.lend_enough(prng);
    let number = both.slack(memory)?;
    if let Some(plan) = wrapped {
        wrapper::slack(both, plan, number, memory)?;
    }
    memory.lend_enough(prng);
    let number = both.start(memory)?;
    match wrapped {
        Some(plan) => Ok((number, wrapper::start(both, plan, number, memory)?)),
        None => Ok((number, None)),
    }
}

/// Writes into the output as it is lent, and once more into one that is just long enough.
fn write(both: &mut Both, memory: &mut Memory, wrapped: Option<&Plan>) -> Result<(), Difference> {
    let number = both.write(memory)?;
    if let Some(plan) = wrapped {
        wrapper::write(both, plan, number, memory)?;
    }
    if number == u32::from(DONE) {
        memory.exact = memory.written.contents()[0];
        memory.out.lend(memory.exact);
        both.write(memory)?;
        memory.out.lend_all();
    }
    Ok(())
}
