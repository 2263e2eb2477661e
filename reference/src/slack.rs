//! The slack of an interval and a deadline, and the slack figure of a plan.

use crate::edition::HI;
use crate::judge::{essential_units, floor_units, judge_without_floor};
use crate::plan::{intervals, Job, Plan};
use crate::refusal::Refusal;

/// The slack figure of a plan that is not refused.
#[derive(Clone, Debug, PartialEq, Eq)]
pub enum SlackFigure {
    NoneEssential,
    Least {
        slack: i64,
        interval: u64,
        deadline: u32,
    },
}

/// What the floor rate has to spare between the start of an interval and a later boundary.
///
/// Asked only of a plan whose numbers hold and of an interval and a boundary that it has.
pub fn slack_of_pair(plan: &Plan, table: &[u32], interval: usize, deadline: u32) -> i64 {
    let intervals = intervals(plan.counted());
    let allowed = floor_units(plan, &intervals[interval], deadline);
    let needed = essential_units(plan.counted(), table, &intervals, interval, deadline);
    // Both are sums of at most 2,016 numbers of 32 bits, so neither nears 2^63.
    allowed as i64 - needed as i64
}

/// The distinct deadlines of HI jobs, rising.
pub fn essential_deadlines(jobs: &[Job]) -> Vec<u32> {
    let essential = jobs.iter().filter(|job| job.grade == HI);
    let mut deadlines: Vec<u32> = essential.map(|job| job.deadline).collect();
    deadlines.sort_unstable();
    deadlines.dedup();
    deadlines
}

/// The least slack with its first pair, "none essential", or a refusal.
pub fn slack_figure(plan: &Plan, table: &[u32]) -> Result<SlackFigure, Refusal> {
    judge_without_floor(plan, table)?;
    let mut figure = SlackFigure::NoneEssential;
    for (j, interval) in intervals(plan.counted()).iter().enumerate() {
        for deadline in essential_deadlines(plan.counted()) {
            if deadline > interval.start {
                let slack = slack_of_pair(plan, table, j, deadline);
                if is_less(slack, &figure) {
                    figure = SlackFigure::Least {
                        slack,
                        interval: j as u64,
                        deadline,
                    };
                }
            }
        }
    }
    Ok(figure)
}

/// Whether a slack is below the least one found so far; the first of equals stays.
fn is_less(slack: i64, figure: &SlackFigure) -> bool {
    match figure {
        SlackFigure::NoneEssential => true,
        SlackFigure::Least { slack: least, .. } => slack < *least,
    }
}
