//! Repeats one call on a fixed input, so that its executed instructions can be counted.

use std::env;
use std::hint::black_box;
use std::process::ExitCode;

use bench::inputs::{logs, Input, Shape, LARGEST_FILE, METERED};
use bench::{draw_up, judge, read, read_log, shift, slack, step, write};
use bench::{MOST_JOBS, MOST_SPEEDS, PLACES};

const USAGE: &str = "usage: calls read|write|judge|slack|step|shift 1|8|16|32|largest REPEAT
       calls draw 1|8|16|32 REPEAT
       calls speeds 2|100|1000 REPEAT";

fn main() -> ExitCode {
    let words: Vec<String> = env::args().skip(1).collect();
    let words: Vec<&str> = words.iter().map(String::as_str).collect();
    if run(&words).is_none() {
        eprintln!("{}", USAGE);
        return ExitCode::from(2);
    }
    ExitCode::SUCCESS
}

/// Does what the words say; none if they say nothing right.
fn run(words: &[&str]) -> Option<()> {
    let [what, jobs, repeat] = <[&str; 3]>::try_from(words).ok()?;
    if what == "speeds" {
        let n = jobs.parse().ok().filter(|n| METERED.contains(n))?;
        logs_read(n, repeat.parse().ok()?);
        return Some(());
    }
    let call = call_of(what)?;
    let input = input_of(what, jobs)?;
    let repeat = repeat.parse().ok()?;
    println!(
        "jobs {} intervals {} rows {} file {} bytes",
        input.plan.count,
        input.intervals,
        input.rows,
        input.file.len()
    );
    call(&input, repeat);
    Some(())
}

fn input_of(what: &str, jobs: &str) -> Option<Input> {
    match (what, jobs) {
        ("draw", "1" | "8" | "16" | "32") => Some(Input::for_desk(jobs.parse().ok()?)),
        ("draw", _) => None,
        (_, "1" | "8" | "16" | "32") => Some(Input::new(jobs.parse().ok()?, Shape::Usual)),
        ("read" | "write", "largest") => Some(Input::new(MOST_JOBS, Shape::LargestFile)),
        (_, "largest") => Some(Input::new(MOST_JOBS, Shape::Fullest)),
        _ => None,
    }
}

fn call_of(what: &str) -> Option<fn(&Input, u64)> {
    match what {
        "read" => Some(reads),
        "write" => Some(writes),
        "judge" => Some(judges),
        "slack" => Some(slacks),
        "step" => Some(steps),
        "shift" => Some(shifts),
        "draw" => Some(draws),
        _ => None,
    }
}

fn reads(input: &Input, repeat: u64) {
    let mut table = vec![0; PLACES];
    for _ in 0..repeat {
        black_box(&read(black_box(&input.file), black_box(&mut table)));
    }
}

fn writes(input: &Input, repeat: u64) {
    let mut output = vec![0; LARGEST_FILE];
    for _ in 0..repeat {
        let answer = write(
            black_box(&input.plan),
            black_box(&input.table),
            black_box(&mut output),
        );
        black_box(&answer);
    }
}

fn judges(input: &Input, repeat: u64) {
    for _ in 0..repeat {
        black_box(&judge(black_box(&input.plan), black_box(&input.table)));
    }
}

fn slacks(input: &Input, repeat: u64) {
    for _ in 0..repeat {
        black_box(&slack(black_box(&input.plan), black_box(&input.table)));
    }
}

fn steps(input: &Input, repeat: u64) {
    let mut grants = [0; MOST_JOBS];
    for _ in 0..repeat {
        // Each call gets the same run, so a copy of the record is counted with it.
        let mut run = input.run;
        let answer = step(
            black_box(&input.plan),
            black_box(&input.table),
            black_box(&mut run),
            black_box(input.plan.n),
            black_box(&mut grants),
        );
        black_box(&answer);
    }
}

fn shifts(input: &Input, repeat: u64) {
    let night = &input.nights()[0];
    let (mut rows, mut numbers) = ([0; MOST_JOBS * MOST_SPEEDS], [0; MOST_SPEEDS]);
    for _ in 0..repeat {
        let mut run = night.run;
        let answer = shift(
            black_box(&night.plan),
            black_box(&night.table),
            black_box(&mut run),
            black_box(&night.speeds),
            black_box(&mut rows),
            black_box(&mut numbers),
        );
        black_box(&answer);
    }
}

fn draws(input: &Input, repeat: u64) {
    let mut table = vec![0; PLACES];
    for _ in 0..repeat {
        black_box(&draw_up(black_box(&input.plan), black_box(&mut table)));
    }
}

fn logs_read(n: u16, repeat: u64) {
    let [log, _] = logs(n);
    println!("readings {} log {} bytes", MOST_SPEEDS, log.bytes.len());
    let mut list = [0; MOST_SPEEDS];
    for _ in 0..repeat {
        let answer = read_log(black_box(&log.bytes), black_box(n), black_box(&mut list));
        black_box(&answer);
    }
}
