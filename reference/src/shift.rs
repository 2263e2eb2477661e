//! A whole shift: a list of speeds in one call.

use crate::edition::{MOST_SHIFT_SPEEDS, TABLE_PLACES};
use crate::plan::Plan;
use crate::refusal;
use crate::run::{sound_to_run, step, Run};

/// A list of speeds, one after the other, by the plainest means: the single call, again and again.
///
/// It answers 0 when its own checks pass, else the refusal number with run and outputs as they were.
/// Each speed has a row with one grant per job and a number, which is the single call's answer. A
/// refused speed leaves its row and the run as they were, and the next one is tried.
pub fn shift(
    plan: &Plan,
    table: &[u32],
    run: &mut Run,
    speeds: &[u16],
    rows: &mut [u32],
    numbers: &mut [u8],
) -> u8 {
    if !sound_to_run(plan, run) {
        return refusal::UNSOUND;
    }
    if speeds.len() > MOST_SHIFT_SPEEDS {
        return refusal::TOO_MANY_SPEEDS;
    }
    let jobs = plan.counted().len();
    let outputs_hold = speeds.len() * jobs <= rows.len() && speeds.len() <= numbers.len();
    if table.len() < TABLE_PLACES || !outputs_hold {
        return refusal::TOO_SHORT;
    }
    for (k, &speed) in speeds.iter().enumerate() {
        let row = &mut rows[k * jobs..(k + 1) * jobs];
        numbers[k] = step(plan, table, run, speed, row);
    }
    refusal::DONE
}
