//! Makes the speeds of a run: normal, slow, below the floor, above the rate, past the end, and speeds
//! around what is due in each slot.

use super::prng::Prng;
use crate::edition::MOST_JOBS;
use crate::plan::{boundaries, Plan};
use crate::refusal::DONE;
use crate::run::{step, Run};

/// Most speeds of one input.
const MOST_SPEEDS: u64 = 200;
/// Slots after which a run of a long plan is left, to keep inputs short.
const LONG_RUN: u64 = 40;

/// Speeds for a run of a sound plan from its first release.
pub fn speeds(prng: &mut Prng, plan: &Plan) -> Vec<u16> {
    let bounds = boundaries(plan.counted());
    let span = u64::from(bounds[bounds.len() - 1] - bounds[0]);
    let count = match prng.below(12) {
        0 => prng.below(3),
        1 => prng.between(0, span.min(LONG_RUN)),
        _ if span + 3 > MOST_SPEEDS => prng.between(1, LONG_RUN),
        _ => span + prng.below(4),
    };
    speeds_of(prng, plan, count)
}

/// So many speeds of one style; in most styles they change somewhere. The rates in hand may be any.
pub fn speeds_of(prng: &mut Prng, plan: &Plan, count: u64) -> Vec<u16> {
    let change = prng.between(0, count);
    let style = prng.below(12);
    (0..count)
        .map(|slot| speed(prng, plan, style, slot >= change))
        .collect()
}

/// One speed in the style of its run, before or after the change.
fn speed(prng: &mut Prng, plan: &Plan, style: u64, changed: bool) -> u16 {
    let (n, d) = (u64::from(plan.n), u64::from(plan.d));
    let speed = match (style, changed) {
        (0 | 1, _) => n,
        (2, true) => d,
        (3, true) => prng.between(d.min(n), n),
        (4, true) => prng.between(0, n),
        (5, true) => prng.between(0, d.saturating_sub(1)),
        (6, _) => prng.between(d.min(n), n),
        (7, _) => prng.between(0, n + 1),
        (8, true) => prng.pick(&[n, n, d, n + 1, u64::from(u16::MAX)]),
        (9, true) => 0,
        // Slower slots here and there, some of which have nothing to send.
        (10, _) if prng.once_in(4) => prng.between(d.min(n), n),
        (11, _) if prng.once_in(6) => prng.between(0, n),
        _ => n,
    };
    speed as u16
}

/// Speeds in place of others for the same run, in half of all cases: as many, but around what is due
/// in each slot. Plan, table and run in hand may be any.
pub fn or_around_dues(
    prng: &mut Prng,
    speeds: Vec<u16>,
    plan: &Plan,
    table: &[u32],
    run: &Run,
) -> Vec<u16> {
    if prng.once_in(2) {
        return speeds;
    }
    let (change, style) = (prng.index(speeds.len() + 1), prng.below(8));
    let mut run = run.clone();
    let mut drawn = Vec::new();
    for slot in 0..speeds.len() {
        let speed = match wanted(plan, table, &run) {
            Some(units) => around(prng, plan, style, slot >= change, units),
            None => prng.pick(&[0, plan.n, plan.n.saturating_add(1)]),
        };
        step(plan, table, &mut run, speed, &mut [0; MOST_JOBS]);
        drawn.push(speed);
    }
    drawn
}

/// What a slot at full speed grants in all, none if it is refused. As long as the slow mark is clear
/// this is the lesser of n and the dues, so a slot at a lower speed than this sets it.
fn wanted(plan: &Plan, table: &[u32], run: &Run) -> Option<u64> {
    let mut grants = [0; MOST_JOBS];
    let answer = step(plan, table, &mut run.clone(), plan.n, &mut grants);
    let units = grants.iter().map(|&grant| u64::from(grant)).sum();
    (answer == DONE).then_some(units)
}

/// One speed in the style of its run, before or after the change, for a slot that wants so many units.
fn around(prng: &mut Prng, plan: &Plan, style: u64, changed: bool, wanted: u64) -> u16 {
    let (n, d) = (u64::from(plan.n), u64::from(plan.d));
    let enough = prng.between(wanted, n);
    let one_short = wanted.saturating_sub(1);
    let speed = match (style, changed) {
        // The slow mark stays clear for the whole run.
        (0, _) => wanted,
        (1, _) => enough,
        // Nor is any speed below the floor.
        (2, _) => enough.max(d),
        (3, true) => one_short,
        (4, true) => one_short.max(d),
        (5, true) => d,
        (6, true) => prng.between(0, n),
        (7, _) if prng.once_in(8) => one_short,
        (4 | 5, false) => enough.max(d),
        (6, false) => wanted,
        _ => enough,
    };
    speed as u16
}
