//! An input as people read it.

use reference::desk::shortage;
use reference::edition::{MOST_INTERVALS, TABLE_PLACES};
use reference::generate::{DeskInput, FileInput, HandInput, Lent, ListInput};
use reference::generate::{LogInput, ReadingInput};
use reference::joblist::import;
use reference::meter::read_log;
use reference::plan::{Job, Plan};
use reference::reader::reader;

/// Bytes of a file on one line.
const BYTES_ON_A_LINE: usize = 16;

pub fn show_file(input: &FileInput) {
    println!("plan file of {} bytes", input.file.len());
    show_bytes(&input.file);
    let mut table = vec![0; TABLE_PLACES];
    let answer = reader(&input.file, &mut table);
    match answer.offset {
        Some(offset) => println!("the reader answers {} at byte {}", answer.number, offset),
        None => println!("the reader answers {}", answer.number),
    }
    show_plan(&answer.plan);
    show_table(&table);
    show_rest(&input.lent, &input.speeds);
}

fn show_bytes(file: &[u8]) {
    for (line, bytes) in file.chunks(BYTES_ON_A_LINE).enumerate() {
        let hex: Vec<String> = bytes.iter().map(|byte| format!("{:02x}", byte)).collect();
        println!("  {:5}  {}", line * BYTES_ON_A_LINE, hex.join(" "));
    }
}

pub fn show_hand(input: &HandInput) {
    println!("plan in hand, before its words are twisted");
    show_plan(&input.plan);
    show_table(&input.table);
    let run = &input.run;
    println!(
        "run at {}, slow {}, below floor {}, carried {:?}",
        run.clock, run.slow, run.below_floor, run.carried
    );
    let ended: Vec<usize> = (0..run.ended.len()).filter(|&i| run.ended[i]).collect();
    println!("ended marks at {:?}", ended);
    show_rest(&input.lent, &input.speeds);
}

pub fn show_desk(input: &DeskInput) {
    println!("plan in hand for the desk, before its words are twisted");
    show_plan(&input.plan);
    println!("lent: {} places of the table", input.table.len());
    println!("why there is no timetable: {:?}", shortage(&input.plan));
}

pub fn show_text(text: &[u8]) {
    println!("text of {} bytes", text.len());
    for line in text.split_inclusive(|&byte| byte == b'\n') {
        println!("  {}", line.iter().map(shown).collect::<String>());
    }
    match import(text) {
        Ok(jobs) => {
            println!("it has {} jobs", jobs.len());
            show_jobs(&jobs);
        }
        Err(fault) => println!("import answers {} at byte {}", fault.number, fault.offset),
    }
}

/// A byte as it is, if it can be seen.
fn shown(byte: &u8) -> String {
    match byte {
        b' '..=b'~' => char::from(*byte).to_string(),
        _ => byte.escape_ascii().to_string(),
    }
}

pub fn show_list(input: &ListInput) {
    println!("list in hand, before its words are twisted");
    println!("{} jobs", input.list.count);
    show_jobs(&input.list.jobs);
    println!("lent: {} bytes of output", input.output);
}

pub fn show_reading(input: &ReadingInput) {
    let (mean, lowest) = (f64::from_bits(input.mean), f64::from_bits(input.lowest));
    println!("reading: mean {:e}, lowest {:e}, normal rate {}", mean, lowest, input.n);
}

pub fn show_log(input: &LogInput) {
    println!("meter log of {} bytes, normal rate {}", input.log.len(), input.n);
    show_bytes(&input.log);
    let mut list = vec![0; input.list];
    match read_log(&input.log, input.n, &mut list) {
        Ok(count) => println!("speeds {:?}", &list[..count]),
        Err(refusal) => println!("the log reader answers {:?}", refusal),
    }
    println!("lent: {} places for speeds", input.list);
}

/// Rates, count, and the records that are not all zeros.
fn show_plan(plan: &Plan) {
    println!("rates {} and {}, {} jobs", plan.n, plan.d, plan.count);
    show_jobs(&plan.jobs);
}

fn show_jobs(jobs: &[Job]) {
    for (i, job) in jobs.iter().enumerate() {
        if *job != Job::zeros() {
            let name = String::from_utf8_lossy(&job.name);
            println!(
                "  job {}: {:?} grade {}, release {}, size {}, deadline {}",
                i, name, job.grade, job.release, job.size, job.deadline
            );
        }
    }
}

fn show_table(table: &[u32]) {
    for (place, units) in table.iter().enumerate().filter(|(_, &units)| units != 0) {
        println!(
            "  job {}, interval {}: {} units",
            place / MOST_INTERVALS,
            place % MOST_INTERVALS,
            units
        );
    }
}

fn show_rest(lent: &Lent, speeds: &[u16]) {
    println!(
        "lent: {} places of the table, {} bytes of output, {} grants",
        lent.table, lent.output, lent.grants
    );
    println!("speeds {:?}", speeds);
}
