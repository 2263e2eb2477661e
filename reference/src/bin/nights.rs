//! Feeds inputs of `runplan` to a program and compares what it prints with what the reference prints.
//!
//! The bad inputs come first, then nights drawn from a seed. Two inputs are in the works at a time.

use std::io::{self, Write};
use std::process::{exit, Command, ExitStatus, Stdio};
use std::sync::atomic::{AtomicU64, Ordering};
use std::thread;

use reference::generate::{bad_inputs, night};
use reference::program::runplan;

const HELP: &str = "\
usage: nights COUNT SEED COMMAND [ARGUMENT..]   runs the command on bad inputs and on COUNT nights
       nights --input SEED NUMBER               writes one of these inputs to standard output";

/// Processes at a time.
const WORKERS: usize = 2;

fn main() {
    let arguments: Vec<String> = std::env::args().skip(1).collect();
    let words: Vec<&str> = arguments.iter().map(String::as_str).collect();
    match words.as_slice() {
        ["--input", seed, number] => {
            let input = input(number_of(seed), number_of(number)).1;
            io::stdout().write_all(&input).expect("an open output");
        }
        [count, seed, command @ ..] if !command.is_empty() => {
            compare_all(number_of(count), number_of(seed), command);
        }
        _ => wrong_use(),
    }
}

fn wrong_use() -> ! {
    eprintln!("{}", HELP);
    exit(2);
}

fn number_of(word: &str) -> u64 {
    word.parse().unwrap_or_else(|_| wrong_use())
}

/// An input and what it is called.
fn input(seed: u64, number: u64) -> (String, Vec<u8>) {
    let mut bad = bad_inputs();
    if number < bad.len() as u64 {
        let (name, input) = bad.swap_remove(number as usize);
        return (name.to_string(), input);
    }
    (format!("drawn from seed {}", seed), night(seed, number))
}

/// Compares on all inputs; ends with status 1 at a difference.
fn compare_all(count: u64, seed: u64, command: &[&str]) {
    let total = bad_inputs().len() as u64 + count;
    let next = AtomicU64::new(0);
    let worker = || loop {
        let number = next.fetch_add(1, Ordering::Relaxed);
        if number >= total {
            break;
        }
        if let Err(text) = compare(seed, number, command) {
            eprintln!("nights: {}", text);
            exit(1);
        }
    };
    thread::scope(|scope| {
        for _ in 0..WORKERS {
            scope.spawn(worker);
        }
    });
    println!(
        "nights: {} bad inputs and {} nights of seed {}, no difference",
        total - count,
        count,
        seed
    );
}

/// Compares on one input: the printed bytes and the exit status.
fn compare(seed: u64, number: u64, command: &[&str]) -> Result<(), String> {
    let (name, input) = input(seed, number);
    let (status, printed) =
        run(command, &input).map_err(|error| format!("{}: {}", command[0], error))?;
    let expected = runplan(&input);
    let told = |what: String| {
        Err(format!(
            "input {} of seed {} ({}): {}",
            number, seed, name, what
        ))
    };
    if !status.success() {
        return told(format!("the program ended with {}", status));
    }
    if printed != expected {
        return told(first_difference(&expected, &printed));
    }
    Ok(())
}

/// Runs the command with these bytes as its standard input.
fn run(command: &[&str], input: &[u8]) -> io::Result<(ExitStatus, Vec<u8>)> {
    let mut child = Command::new(command[0])
        .args(&command[1..])
        .stdin(Stdio::piped())
        .stdout(Stdio::piped())
        .spawn()?;
    let mut pipe = child.stdin.take().expect("a pipe was asked for");
    thread::scope(|scope| {
        // A program that refuses a plan may leave the rest of its input unread, so a broken pipe is no fault.
        scope.spawn(move || pipe.write_all(input));
        let output = child.wait_with_output()?;
        Ok((output.status, output.stdout))
    })
}

/// The first line that differs.
fn first_difference(expected: &[u8], printed: &[u8]) -> String {
    let line = |bytes: &[u8], number: usize| -> Option<String> {
        let line = bytes.split(|&byte| byte == b'\n').nth(number)?;
        Some(String::from_utf8_lossy(line).into_owned())
    };
    let differs = |&number: &usize| line(expected, number) != line(printed, number);
    let number = (0..=expected.len()).find(differs).unwrap_or(0);
    let (expected, printed) = (line(expected, number), line(printed, number));
    format!(
        "line {}: expected {:?}, got {:?}",
        number + 1,
        expected,
        printed
    )
}
