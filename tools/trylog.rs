//! Reads a meter log through the archive, and prints its speeds as a description has them, or where the log is wrong and how.

use description::logfault;
use gateway::{read_log, Refusal, MOST_SPEEDS};
use std::io::Write as _;
use std::process::exit;

const USAGE: &str = "usage: try-log NORMAL LOG";

// What the exit status says.
const TAKEN: i32 = 0;
const REFUSED: i32 = 1;
const WRONG_USE: i32 = 2;

// A line of a description, which has at least one speed.
fn speeds_line(speeds: &[u16]) -> String {
    let words: Vec<String> = speeds.iter().map(u16::to_string).collect();
    if words.is_empty() { String::new() } else { format!("speeds {}\n", words.join(" ")) }
}

// The rate alone is refused at no byte: the list has room for every log.
fn refused_words(refused: &Refusal, normal: u16, log: &[u8]) -> String {
    match refused.offset() {
        Some(offset) => logfault::sentence(log, refused.number(), offset),
        None => format!("the normal rate is {normal}, and must be from 2 to 1,000"),
    }
}

fn tried(normal: u16, log: &[u8]) -> (String, i32) {
    let mut speeds = [0; MOST_SPEEDS];
    match read_log(log, normal, &mut speeds) {
        Ok(count) => {
            let s = if count == 1 { "" } else { "s" };
            (format!("taken: {count} reading{s}\n{}", speeds_line(&speeds[..count])), TAKEN)
        }
        Err(refused) => (format!("refused {}: {}\n  {}\n", refused.number(), refused.words(), refused_words(&refused, normal, log)), REFUSED),
    }
}

fn wrong_use(fault: &str) -> ! {
    eprintln!("{fault}");
    exit(WRONG_USE)
}

fn main() {
    let arguments: Vec<String> = std::env::args().skip(1).collect();
    let (normal, path) = match &arguments[..] {
        [normal, path] => (normal.parse().unwrap_or_else(|_| wrong_use(USAGE)), path),
        _ => wrong_use(USAGE),
    };
    let log = std::fs::read(path).unwrap_or_else(|fault| wrong_use(&format!("try-log: {path}: {fault}")));
    let (printed, status) = tried(normal, &log);
    if let Err(fault) = std::io::stdout().write_all(printed.as_bytes()) {
        wrong_use(&format!("try-log: {fault}"));
    }
    exit(status);
}
