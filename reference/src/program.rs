//! The program `runplan` as one call: whole standard input in, whole output out.

use crate::edition::{HEAD_BYTES, LARGEST_FILE, TABLE_PLACES};
use crate::plan::{Job, Plan};
use crate::reader::reader;
use crate::refusal::DONE;
use crate::run::{outcome, start, step, Outcome, Run};

/// All that the program prints for an input.
pub fn runplan(input: &[u8]) -> Vec<u8> {
    let (file, speeds) = input.split_at(file_length(input));
    let mut table = vec![0; TABLE_PLACES];
    let answer = reader(file, &mut table);
    if answer.number != DONE {
        return refused(answer.number);
    }
    let plan = answer.plan;
    let mut run = match start(&plan, &table) {
        Ok(run) => run,
        Err(refusal) => return refused(refusal.number),
    };
    let mut output = b"slot speed mode grants\n".to_vec();
    for pair in speeds.chunks_exact(2) {
        let speed = u16::from_be_bytes([pair[0], pair[1]]);
        output.extend(slot_line(&plan, &table, &mut run, speed));
    }
    if speeds.len() % 2 == 1 {
        output.extend(b"stray byte\n");
    }
    output.extend(b"job outcome carried\n");
    for position in 0..plan.counted().len() {
        output.extend(job_line(&plan, &run, position));
    }
    output
}

/// How many bytes of the input go to the reader.
fn file_length(input: &[u8]) -> usize {
    if input.len() < HEAD_BYTES {
        return input.len();
    }
    let length = u32::from_be_bytes([input[1], input[2], input[3], input[4]]);
    let wanted = HEAD_BYTES as u64 + u64::from(length);
    wanted.min(LARGEST_FILE as u64).min(input.len() as u64) as usize
}

fn refused(number: u8) -> Vec<u8> {
    format!("refused {}\n", number).into_bytes()
}

/// Takes one slot and gives its line.
fn slot_line(plan: &Plan, table: &[u32], run: &mut Run, speed: u16) -> Vec<u8> {
    let clock = run.clock;
    let mut grants = vec![0; plan.counted().len()];
    let answer = step(plan, table, run, speed, &mut grants);
    if answer != DONE {
        return format!("{} {} R {}\n", clock, speed, answer).into_bytes();
    }
    let mode = if run.slow { "D" } else { "N" };
    let mut line = format!("{} {} {} ", clock, speed, mode).into_bytes();
    line.extend(grants_text(plan.counted(), &grants));
    line.push(b'\n');
    line
}

/// The grants that are not 0 in job order, or a dash.
fn grants_text(jobs: &[Job], grants: &[u32]) -> Vec<u8> {
    let mut texts: Vec<Vec<u8>> = Vec::new();
    for (job, &grant) in jobs.iter().zip(grants) {
        if grant != 0 {
            // Names go out byte for byte.
            let mut text = job.name.to_vec();
            text.extend(format!("={}", grant).into_bytes());
            texts.push(text);
        }
    }
    if texts.is_empty() {
        return b"-".to_vec();
    }
    texts.join(&b' ')
}

fn job_line(plan: &Plan, run: &Run, position: usize) -> Vec<u8> {
    let outcome = outcome(plan, run, position as u64).expect("a started run stays sound");
    let word = match outcome {
        Outcome::Met => "met",
        Outcome::Ended => "ended",
        Outcome::Discarded => "discarded",
        Outcome::Missed => "missed",
        Outcome::Open => "open",
    };
    let mut line = plan.counted()[position].name.to_vec();
    line.extend(format!(" {} {}\n", word, run.carried[position]).into_bytes());
    line
}
