//! Compares the calls for hosts, as the archive answers them, with the reference.
//!
//! The same inputs go into both, and every number and every lent word is compared in memory.

mod between;
mod both;
mod buffer;
mod calls;
mod cases;
mod desks;
mod inputs;
mod lists;
mod memory;
mod meters;
mod model;
mod night;
mod plans;
mod report;
mod run;
mod selftest;
mod shifts;
mod shorts;
mod show;
mod tally;
mod texts;
mod twist;
mod words;
mod wrapper;

use std::process::exit;

use inputs::{Drawn, Fixed, Kind, Source};
use run::Share;

const HELP: &str = "\
usage: compare COUNT [SEED..]             COUNT inputs of each call for each seed
       compare --damaged COUNT [SEED..]   COUNT files that the reader refuses, for each seed
       compare --texts COUNT [SEED..]     COUNT texts of job lists, right and wrong, for each seed
       compare --share K OF WORDS..       share K (from 0) of OF shares of any; prints counts
       compare --sum WORDS..              adds up the counts of all shares from standard input
       compare --input SEED NUMBER        one input again, every call told
       compare --input damaged|texts SEED NUMBER, compare --input fixed NUMBER   the same of these
       compare --self-test                changes answers on purpose; each must be noticed";

const DEFAULT_SEED: u64 = 1;

fn main() {
    let arguments: Vec<String> = std::env::args().skip(1).collect();
    let words: Vec<&str> = arguments.iter().map(String::as_str).collect();
    match answer(&words) {
        Ok(text) => println!("{}", text.trim_end()),
        Err(text) => {
            eprintln!("compare: {}", text);
            exit(1);
        }
    }
}

/// What the program prints, or why it fails.
fn answer(words: &[&str]) -> Result<String, String> {
    match words {
        ["--self-test"] => selftest::self_test(),
        ["--input", "fixed", number] => {
            run::once_more(&Source::Fixed(Fixed::new()), number_of(number))
        }
        ["--input", "damaged", seed, number] => once_more(Kind::Damaged, seed, number),
        ["--input", "texts", seed, number] => once_more(Kind::Texts, seed, number),
        ["--input", seed, number] => once_more(Kind::Every, seed, number),
        ["--share", share, of, words @ ..] => {
            let share = share_of(number_of(share), number_of(of));
            run::work(share, &drawn_of(words)).map(|report| report.lines())
        }
        ["--sum", words @ ..] => {
            let drawn = drawn_of(words);
            run::sum()?.end(&drawn)
        }
        words => {
            let drawn = drawn_of(words);
            run::work(share_of(0, 1), &drawn)?.end(&drawn)
        }
    }
}

fn once_more(kind: Kind, seed: &str, number: &str) -> Result<String, String> {
    run::once_more(&Source::Drawn(kind, number_of(seed)), number_of(number))
}

/// What is drawn: the kind, the count and the seeds.
fn drawn_of(words: &[&str]) -> Drawn {
    let (kind, count, seeds) = match words {
        ["--damaged", count, seeds @ ..] => (Kind::Damaged, count, seeds),
        ["--texts", count, seeds @ ..] => (Kind::Texts, count, seeds),
        [count, seeds @ ..] => (Kind::Every, count, seeds),
        [] => wrong_use(),
    };
    Drawn {
        kind,
        count: number_of(count),
        seeds: seeds_of(seeds),
    }
}

fn wrong_use() -> ! {
    eprintln!("{}", HELP);
    exit(2);
}

fn number_of(word: &str) -> u64 {
    word.parse().unwrap_or_else(|_| wrong_use())
}

fn seeds_of(words: &[&str]) -> Vec<u64> {
    match words {
        [] => vec![DEFAULT_SEED],
        _ => words.iter().map(|word| number_of(word)).collect(),
    }
}

fn share_of(number: u64, of: u64) -> Share {
    if number >= of {
        wrong_use();
    }
    Share { number, of }
}
