//! What a run of the comparison, or a share of it, has to tell at its end.

use std::fmt::Write;

use crate::inputs::{Drawn, Kind};
use crate::tally::{all_answers, listed, refused_reads, Tally, CALLS};

/// A run of this many inputs has to bring every number that a call can answer.
const ENOUGH_FOR_ALL: u64 = 20_000;

#[derive(Default)]
pub struct Report {
    /// Answers that were held to written ones.
    pub cases: u64,
    /// Inputs that are the same for every seed.
    pub fixed: u64,
    /// What was answered to drawn inputs. Fixed ones and cases are left out: they would hide that a
    /// number is no longer drawn.
    pub tally: Tally,
}

impl Report {
    /// A line for each count, which another process can add up.
    pub fn lines(&self) -> String {
        let mut lines = format!("cases {}\nfixed {}\n", self.cases, self.fixed);
        for (call, number, count) in self.tally.all() {
            let _ = writeln!(lines, "{} {} {}", call, number, count);
        }
        lines
    }

    /// Adds a line of another report. Whether it is one.
    pub fn add(&mut self, line: &str) -> bool {
        let words: Vec<&str> = line.split(' ').collect();
        let numbers: Vec<u64> = words[1..]
            .iter()
            .filter_map(|word| word.parse().ok())
            .collect();
        let call = CALLS.into_iter().find(|call| call.to_string() == words[0]);
        match (words[0], call, numbers.as_slice()) {
            ("cases", _, [count]) => self.cases += count,
            ("fixed", _, [count]) => self.fixed += count,
            (_, Some(call), [number, count]) => self.tally.add(call, *number as u32, *count),
            _ => return false,
        }
        true
    }

    /// What was compared besides the drawn inputs.
    fn others(&self) -> String {
        let (cases, fixed) = (self.cases, self.fixed);
        format!(
            "{} answers written by hand, {} fixed inputs\n",
            cases, fixed
        )
    }

    /// The table and the last line, or why the run shows too little.
    pub fn end(&self, drawn: &Drawn) -> Result<String, String> {
        let total = drawn.count * drawn.seeds.len() as u64;
        let (answers, inputs) = match drawn.kind {
            Kind::Every => (all_answers(), format!("inputs of each of {} calls", CALLS.len())),
            Kind::Damaged => (refused_reads(), "damaged files".to_string()),
            Kind::Texts => (listed(), "texts of job lists".to_string()),
        };
        if let Some((call, _)) = answers.iter().find(|(call, _)| self.tally.inputs(*call) < total) {
            return Err(format!("fewer than {} inputs of {}", total, call));
        }
        let missing = self.tally.missing(&answers);
        if total >= ENOUGH_FOR_ALL && !missing.is_empty() {
            return Err(format!("these answers never came: {}", missing.join(", ")));
        }
        Ok(format!(
            "{}{}compare: {} {}, {}, no difference",
            self.tally,
            self.others(),
            drawn.count,
            inputs,
            seeds_told(&drawn.seeds)
        ))
    }
}

fn seeds_told(seeds: &[u64]) -> String {
    let names: Vec<String> = seeds.iter().map(u64::to_string).collect();
    let which = if seeds.len() == 1 {
        "seed"
    } else {
        "each of the seeds"
    };
    format!("{} {}", which, names.join(" "))
}
