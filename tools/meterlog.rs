//! Turns a readable text of readings of the line meter into a meter log.

use description::readings::{log_bytes, parse_bytes, FORM};
use std::process::exit;

const USAGE: &str = "usage: meterlog READINGS LOG    writes the meter log of readings
       meterlog --help          how readings are written";

const WRONG_USE: i32 = 2;

fn write(text: &str, log: &str) -> Result<(), String> {
    let bytes = std::fs::read(text).map_err(|fault| format!("{text}: {fault}"))?;
    let readings = parse_bytes(&bytes).map_err(|fault| format!("{text}: {fault}"))?;
    std::fs::write(log, log_bytes(&readings)).map_err(|fault| format!("{log}: {fault}"))
}

fn main() {
    let arguments: Vec<String> = std::env::args().skip(1).collect();
    let done = match &arguments[..] {
        [text, log] => write(text, log).map_err(|fault| format!("meter-log: {fault}")),
        [option] if option == "--help" => {
            print!("{USAGE}\n\n{FORM}");
            Ok(())
        }
        _ => Err(USAGE.to_string()),
    };
    if let Err(fault) = done {
        eprintln!("{fault}");
        exit(WRONG_USE);
    }
}
