//! The slack figure: the judge's work up to the floor rule, then the least slack with its first pair.

use crate::judge::{each_sum, Fault, Judged};
use crate::plan::{Plan, MOST_INTERVALS};

#[derive(Clone, Copy, Debug, PartialEq, Eq)]
pub enum Slack {
    NoneEssential,
    Least {
        slack: i64,
        interval: usize,
        deadline: u32,
    },
    Refused(Fault),
}

/// The least slack over all intervals and all later HI deadlines.
pub fn slack(plan: &Plan, table: &[u32]) -> Slack {
    match Judged::new(plan, table) {
        Ok(judged) => least(&judged),
        Err(fault) => Slack::Refused(fault),
    }
}

fn least(judged: &Judged) -> Slack {
    let mut spare = judged.floor_units();
    let mut lowest = MOST_INTERVALS;
    let mut best = (i32::MAX, 0, 0);
    for job in judged.essential() {
        let (first, end) = judged.take_row(&mut spare, job);
        // Before the first HI release slack only grows towards earlier intervals.
        lowest = lowest.min(first);
        let mut slack = i32::MAX;
        each_sum(&spare[lowest..end], |sum| slack = slack.min(sum));
        if slack <= best.0 {
            let interval = first_with(&spare[..end], slack);
            if (slack, interval) < (best.0, best.1) {
                best = (slack, interval, end);
            }
        }
    }
    if best.0 == i32::MAX {
        return Slack::NoneEssential;
    }
    Slack::Least {
        slack: best.0.into(),
        interval: best.1,
        deadline: judged.time(best.2),
    }
}

/// The first place from which the sum to the end is the given one, which is the least.
fn first_with(spare: &[i32], least: i32) -> usize {
    let mut sum: i32 = spare.iter().sum();
    let from = |units: &i32| {
        let found = sum == least;
        sum -= units;
        found
    };
    spare.iter().position(from).unwrap_or(0)
}
