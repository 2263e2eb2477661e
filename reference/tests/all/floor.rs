//! The floor rule: HI deadlines alone give the verdict and first place of all later boundaries.

use reference::generate::{file, fixed_files, fixed_hands, hand};
use reference::judge::{floor_rule, judge};
use reference::plan::{boundaries, Plan};
use reference::reader::reader;
use reference::refusal::{DONE, OUTSIDE_WINDOW, TOO_SHORT, UNSOUND};
use reference::slack::essential_deadlines;

/// Inputs drawn of each kind.
const DRAWN: u64 = 4_000;
const SEED: u64 = 5;

/// All sound plans among generated inputs that give no job units outside its window.
fn plans() -> Vec<(Plan, Vec<u32>)> {
    let mut plans = Vec::new();
    let drawn = (0..DRAWN).map(|number| file(SEED, number));
    for input in fixed_files().into_iter().chain(drawn) {
        let mut table = vec![0; 2_016];
        let answer = reader(&input.file, &mut table);
        if answer.number == DONE {
            plans.push((answer.plan, table));
        }
    }
    let drawn = (0..DRAWN).map(|number| hand(SEED, number));
    let hands = fixed_hands().into_iter().chain(drawn);
    plans.extend(hands.map(|input| (input.plan, input.table)));
    plans.retain(|(plan, table)| keeps_windows(plan, table));
    plans
}

/// Sizes and intervals may be wrong: what the floor rule says does not depend on them.
fn keeps_windows(plan: &Plan, table: &[u32]) -> bool {
    match judge(plan, table) {
        Ok(()) => true,
        Err(refusal) => ![TOO_SHORT, UNSOUND, OUTSIDE_WINDOW].contains(&refusal.number),
    }
}

#[test]
fn essential_deadlines_alone_give_the_same_verdict_and_first_place() {
    let mut refused = 0;
    let plans = plans();
    for (plan, table) in &plans {
        let all = floor_rule(plan, table, &boundaries(plan.counted()));
        let essential = floor_rule(plan, table, &essential_deadlines(plan.counted()));
        assert_eq!(all, essential);
        refused += u32::from(all.is_err());
    }
    // Both verdicts have to be frequent for this to show anything.
    assert!(
        refused > 100 && plans.len() > 1_000,
        "{} of {}",
        refused,
        plans.len()
    );
}
