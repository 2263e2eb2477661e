//! Turns a readable description of a plan and its speeds into the bytes that `runplan` reads, and back.

use description::encoding::{described, plan_bytes, read, speed_bytes};
use description::FORM;
use std::io::Write as _;
use std::process::exit;

const USAGE: &str = "usage: planbytes plan DESCRIPTION           the plan file's bytes
       planbytes speeds DESCRIPTION         the speeds' bytes
       planbytes input DESCRIPTION          both, as runplan reads them
       planbytes describe PLANFILE [SPEEDS] the description of such files
       planbytes --help                     how a description is written";

fn load(path: &str) -> Result<Vec<u8>, String> {
    std::fs::read(path).map_err(|fault| format!("{path}: {fault}"))
}

fn made(words: &[&str]) -> Result<Vec<u8>, String> {
    if let ["describe", plan, speeds @ ..] = words {
        let speeds = speeds.first().map_or(Ok(Vec::new()), |path| load(path))?;
        return Ok(described(&read(&load(plan)?, &speeds)?).into_bytes());
    }
    let d = description::load(words[1])?;
    Ok(match words[0] {
        "plan" => plan_bytes(&d),
        "speeds" => speed_bytes(&d),
        _ => [plan_bytes(&d), speed_bytes(&d)].concat(),
    })
}

fn main() {
    let arguments: Vec<String> = std::env::args().skip(1).collect();
    let words: Vec<&str> = arguments.iter().map(String::as_str).collect();
    let result = match words[..] {
        ["plan" | "speeds" | "input", _] | ["describe", _] | ["describe", _, _] => made(&words),
        ["--help"] => Ok(format!("{USAGE}\n\n{FORM}").into_bytes()),
        _ => {
            eprintln!("{USAGE}");
            exit(2);
        }
    };
    let written = result.and_then(|bytes| std::io::stdout().write_all(&bytes).map_err(|fault| fault.to_string()));
    if let Err(fault) = written {
        eprintln!("planbytes: {fault}");
        exit(1);
    }
}
