//! The plans in hand that are the same for every seed: buffers around the needed lengths, each
//! twist at each place, runs at their bounds, runs with ended jobs, and speeds around the dues.

use super::damaged::sound_base;
use super::draft::{job, plan_e, Draft, ANY, EVERYWHERE};
use super::fixed_files::{lents, SEED};
use super::hand::{in_hand, rubbish, twist_input, TWISTS};
use super::input::HandInput;
use super::prng::{Prng, Purpose};
use crate::edition::{HI, LO};

/// Draws for each twist and place in hand.
const DRAWS_OF_TWIST: u64 = 6;

/// All of them, in their order.
pub fn fixed_hands() -> Vec<HandInput> {
    let parts = [
        short_buffers(),
        twists(),
        hand_bounds(),
        ended_jobs(),
        speeds_around_dues(),
    ];
    parts.concat()
}

/// Plan E with its clock at the last deadline and each of the buffers around the exact lengths.
fn short_buffers() -> Vec<HandInput> {
    let at_the_end = |lent| {
        let mut input = in_hand(&plan_e(), &[2, 3]);
        input.lent = lent;
        input.table.truncate(input.lent.table);
        input.run.clock = 10;
        input
    };
    let exact = plan_e().file().len();
    lents(exact).into_iter().map(at_the_end).collect()
}

/// Each twist of a plan in hand at the first, a middle and the last place, alone.
fn twists() -> Vec<HandInput> {
    let mut inputs = Vec::new();
    for twist in TWISTS {
        for place in EVERYWHERE {
            for _ in 0..DRAWS_OF_TWIST {
                let mut prng = Prng::new(SEED, Purpose::Fixed, inputs.len() as u64);
                let draft = sound_base(&mut prng, &ANY);
                let (n, d) = (draft.plan.n, draft.plan.d);
                let mut input = in_hand(&draft, &[n, n, n + 1, n, d, d]);
                twist_input(&mut prng, &mut input, twist, place);
                inputs.push(input);
            }
        }
    }
    inputs
}

/// Runs in hand at the bounds of clock, carried units and records beyond the count.
fn hand_bounds() -> Vec<HandInput> {
    let mut inputs = Vec::new();
    for clock in [0, 1, 4, 5, 9, 10, 11, u32::MAX] {
        for carried in [
            [0, 0],
            [6, 8],
            [5, 8],
            [6, 7],
            [7, 0],
            [0, 9],
            [u32::MAX, 0],
        ] {
            for slow in [false, true] {
                let mut input = in_hand(&plan_e(), &[2, 3, 2, 0, 1]);
                input.run.clock = clock;
                input.run.slow = slow;
                input.run.carried[..2].copy_from_slice(&carried);
                rubbish(
                    &mut Prng::new(SEED, Purpose::Fixed, inputs.len() as u64),
                    &mut input,
                );
                inputs.push(input);
            }
        }
    }
    inputs
}

/// Runs in hand with each choice of ended marks, one of which belongs to no job.
fn ended_jobs() -> Vec<HandInput> {
    let mut inputs = Vec::new();
    for clock in [0, 1, 4, 5, 9, 10, 11] {
        for carried in [[0, 0], [6, 8], [5, 7]] {
            for slow in [false, true] {
                for marks in 1..8 {
                    let mut input = in_hand(&plan_e(), &[2, 2, 2, 1, 1]);
                    input.run.clock = clock;
                    input.run.slow = slow;
                    input.run.carried[..2].copy_from_slice(&carried);
                    for position in 0..3 {
                        input.run.ended[position] = marks >> position & 1 == 1;
                    }
                    inputs.push(input);
                }
            }
        }
    }
    inputs
}

/// An essential job that has half of its units allotted in each interval, and another in the first.
fn half_by_half() -> Draft {
    let jobs = [job(b"other--1", LO, 0, 4, 4), job(b"essent-1", HI, 0, 6, 8)];
    Draft::new(5, 2, &jobs).with_rows(&[&[4, 0], &[3, 3]])
}

/// Every speed on many sums of dues, with each job ended or not, and then two slots at full speed.
fn speeds_around_dues() -> Vec<HandInput> {
    let mut inputs = Vec::new();
    for other in [0, 2, 3, 4] {
        for essential in [0, 2, 3, 5] {
            for speed in 0..=5 {
                for marks in 0..4 {
                    let mut input = in_hand(&half_by_half(), &[speed, 5, 5]);
                    input.run.clock = 1;
                    input.run.carried[..2].copy_from_slice(&[other, essential]);
                    input.run.ended[..2].copy_from_slice(&[marks % 2 == 1, marks / 2 == 1]);
                    inputs.push(input);
                }
            }
        }
    }
    inputs
}
