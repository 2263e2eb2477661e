//! Every call on thousands of generated inputs: answers, places, plans, runs and buffers equal the reference's.

use std::collections::HashMap;
use std::process::Command;

use bench::inputs::{logs, readings, Desk, Input as Measured, Night, Shape, LARGEST_FILE, METERED};
use bench::words::{plan_words, run_words, shift_words, step_words};
use bench::{Fault, Job, Plan, Run, Slack, Verdict, LARGEST_LOG, MOST_JOBS, MOST_SPEEDS, PLACES};
use reference::desk::draw_up;
use reference::generate::{
    desk_input, file, fixed_files, fixed_hands, fixed_logs, fixed_readings, hand, log_input,
    reading_input, shift_input, FileInput, HandInput, Lent, LogInput, ReadingInput, ShiftInput,
};
use reference::judge::judge;
use reference::meter::{read_log, speed_of, Reading};
use reference::reader::{reader, Answer};
use reference::refusal::{self, Refusal};
use reference::run::{start, step};
use reference::shift::shift;
use reference::slack::{slack_figure, SlackFigure};
use reference::writer::writer;

/// Added to a place's number, it marks what a buffer held before a call.
const MARK: u32 = 3_000_000_000;

/// The drawn inputs: their seed, and how many there are of each kind.
const SEED: u64 = 7_411;
const DRAWN: u64 = 20_000;

fn plan_of(plan: &reference::plan::Plan) -> Plan {
    let job_of = |job: &reference::plan::Job| Job {
        name: u64::from_be_bytes(job.name),
        grade: job.grade,
        release: job.release,
        size: job.size,
        deadline: job.deadline,
    };
    Plan {
        n: plan.n,
        d: plan.d,
        count: plan.count as usize,
        jobs: plan.jobs.map(|job| job_of(&job)),
    }
}

fn run_of(run: &reference::run::Run) -> Run {
    Run {
        clock: run.clock,
        slow: run.slow,
        below_floor: run.below_floor,
        carried: run.carried,
        ended: run.ended,
    }
}

fn reference_plan(plan: &Plan) -> reference::plan::Plan {
    let job_of = |job: &Job| reference::plan::Job {
        name: job.name.to_be_bytes(),
        grade: job.grade,
        release: job.release,
        size: job.size,
        deadline: job.deadline,
    };
    reference::plan::Plan {
        n: plan.n,
        d: plan.d,
        count: plan.count as u64,
        jobs: plan.jobs.map(|job| job_of(&job)),
    }
}

fn reference_run(run: &Run) -> reference::run::Run {
    reference::run::Run {
        clock: run.clock,
        slow: run.slow,
        below_floor: run.below_floor,
        carried: run.carried,
        ended: run.ended,
    }
}

fn refusal_of(fault: Fault) -> Refusal {
    let places = match fault {
        Fault::TooShort | Fault::Unsound => vec![],
        Fault::OutsideWindow { job, interval } => vec![job as u64, interval as u64],
        Fault::NotTheSize { job } => vec![job as u64],
        Fault::AboveRate { interval } => vec![interval as u64],
        Fault::FloorRule { interval, deadline } => vec![interval as u64, deadline.into()],
    };
    Refusal::at(fault.number(), &places)
}

fn verdict_of(verdict: Verdict) -> Result<(), Refusal> {
    match verdict {
        Verdict::Accepted => Ok(()),
        Verdict::Refused(fault) => Err(refusal_of(fault)),
    }
}

fn figure_of(slack: Slack) -> Result<SlackFigure, Refusal> {
    match slack {
        Slack::NoneEssential => Ok(SlackFigure::NoneEssential),
        Slack::Least {
            slack,
            interval,
            deadline,
        } => Ok(SlackFigure::Least {
            slack,
            interval: interval as u64,
            deadline,
        }),
        Slack::Refused(fault) => Err(refusal_of(fault)),
    }
}

fn marked(places: usize) -> Vec<u32> {
    (0..places as u32).map(|place| MARK + place).collect()
}

fn marked_numbers(speeds: usize) -> Vec<u8> {
    (0..speeds).map(|place| (100 + place % 150) as u8).collect()
}

fn marked_output(bytes: usize) -> Vec<u8> {
    (0..bytes).map(|place| (1 + place % 250) as u8).collect()
}

fn compare_plan(plan: &reference::plan::Plan, table: &[u32], lent: &Lent) {
    let ours = plan_of(plan);
    assert_eq!(verdict_of(bench::judge(&ours, table)), judge(plan, table));
    assert_eq!(
        figure_of(bench::slack(&ours, table)),
        slack_figure(plan, table)
    );
    let (mut output, mut expected) = (marked_output(lent.output), marked_output(lent.output));
    let answer = bench::write(&ours, table, &mut output);
    assert_eq!(answer, writer(plan, table, &mut expected));
    assert!(output == expected);
}

fn compare_steps(
    plan: &reference::plan::Plan,
    table: &[u32],
    mut run: reference::run::Run,
    lent: &Lent,
    speeds: &[u16],
) {
    let ours = plan_of(plan);
    let mut our_run = run_of(&run);
    let (mut our_grants, mut grants) = (marked(lent.grants), marked(lent.grants));
    let words = plan_words(&ours);
    let (mut lent_run, mut lent_grants) = (run_words(&our_run), grants.clone());
    for &speed in speeds {
        let answer = bench::step(&ours, table, &mut our_run, speed, &mut our_grants);
        let on_words = step_words(&words, table, &mut lent_run, speed, &mut lent_grants);
        let expected = step(plan, table, &mut run, speed, &mut grants);
        assert_eq!(answer.err().unwrap_or(refusal::DONE), expected);
        assert_eq!(on_words, answer);
        assert_eq!(our_run, run_of(&run));
        assert_eq!(lent_run, run_words(&our_run));
        assert_eq!(our_grants, grants);
        assert_eq!(lent_grants, grants);
    }
}

/// The answer is what the reference leaves: rows and numbers.
fn compare_shift(
    plan: &reference::plan::Plan,
    table: &[u32],
    run: &reference::run::Run,
    input: &ShiftInput,
) -> (Vec<u32>, Vec<u8>) {
    let ours = plan_of(plan);
    let speeds = &input.speeds;
    let before = (
        run_of(run),
        marked(input.rows),
        marked_numbers(input.numbers),
    );
    let (mut run, mut rows, mut numbers) = (run.clone(), before.1.clone(), before.2.clone());
    let expected = shift(plan, table, &mut run, speeds, &mut rows, &mut numbers);

    let (mut our_run, mut our_rows, mut our_numbers) = before.clone();
    let run_after = &mut our_run;
    let answer = bench::shift(
        &ours,
        table,
        run_after,
        speeds,
        &mut our_rows,
        &mut our_numbers,
    );
    assert_eq!(answer.err().unwrap_or(refusal::DONE), expected);
    assert_eq!(our_run, run_of(&run));
    assert!(our_rows == rows && our_numbers == numbers);

    let (mut lent_run, mut our_rows, mut our_numbers) = (run_words(&before.0), before.1, before.2);
    let words = plan_words(&ours);
    let lent = &mut lent_run;
    let on_words = shift_words(&words, table, lent, speeds, &mut our_rows, &mut our_numbers);
    assert_eq!(on_words, answer);
    assert_eq!(lent_run, run_words(&our_run));
    assert!(our_rows == rows && our_numbers == numbers);
    (rows, numbers)
}

/// The answer is the reference's.
fn compare_desk(plan: &reference::plan::Plan, table: &[u32]) -> u8 {
    let (mut our_table, mut expected) = (table.to_vec(), table.to_vec());
    let answer = bench::draw_up(&plan_of(plan), &mut our_table);
    let number = draw_up(plan, &mut expected);
    assert_eq!(answer.err().unwrap_or(refusal::DONE), number);
    assert!(our_table == expected);
    number
}

/// Its shift is the one that belongs to this number.
fn compare_file(input: &FileInput, number: u64) {
    let (mut our_table, mut table) = (marked(input.lent.table), marked(input.lent.table));
    let answer = bench::read(&input.file, &mut our_table);
    let read = reader(&input.file, &mut table);
    assert!(our_table == table);
    if read.number != refusal::DONE {
        assert_eq!(answer, Err(read.number));
        return;
    }
    let plan = read.plan;
    assert_eq!(answer, Ok(plan_of(&plan)));
    compare_plan(&plan, &table, &input.lent);
    if let Ok(run) = start(&plan, &table) {
        compare_shift(&plan, &table, &run, &shift_input(SEED, number, &plan, &run));
        compare_steps(&plan, &table, run, &input.lent, &input.speeds);
    }
}

fn compare_hand(input: &HandInput, number: u64) {
    let mut table = marked(input.lent.table);
    table[..input.table.len()].copy_from_slice(&input.table);
    compare_plan(&input.plan, &table, &input.lent);
    let drawn = shift_input(SEED, number, &input.plan, &input.run);
    compare_shift(&input.plan, &table, &input.run, &drawn);
    compare_steps(
        &input.plan,
        &table,
        input.run.clone(),
        &input.lent,
        &input.speeds,
    );
}

#[test]
fn fixed_inputs() {
    for (number, input) in (0..).zip(&fixed_files()) {
        compare_file(input, number);
    }
    for (number, input) in (0..).zip(&fixed_hands()) {
        compare_hand(input, number);
    }
}

#[test]
fn drawn_inputs() {
    for number in 0..DRAWN {
        compare_file(&file(SEED, number), number);
        compare_hand(&hand(SEED, number), number);
    }
}

#[test]
fn drawn_desks() {
    let mut answers = HashMap::new();
    for number in 0..DRAWN {
        let input = desk_input(SEED, number);
        *answers
            .entry(compare_desk(&input.plan, &input.table))
            .or_insert(0) += 1;
    }
    for number in [
        refusal::DONE,
        refusal::UNSOUND,
        refusal::TOO_SHORT,
        refusal::RELEASES_DIFFER,
        refusal::NO_TIMETABLE,
    ] {
        assert!(answers[&number] > DRAWN / 50, "{:?}", answers);
    }
    assert_eq!(answers.len(), 5);
}

/// The answer is the reference's.
fn compare_reading(input: &ReadingInput) -> u8 {
    let (mean, lowest) = (f64::from_bits(input.mean), f64::from_bits(input.lowest));
    let expected = speed_of(Reading { mean, lowest }, input.n);
    let answer = bench::speed_of(bench::Reading { mean, lowest }, input.n);
    assert_eq!(answer, expected);
    expected.err().unwrap_or(refusal::DONE)
}

fn compare_log(input: &LogInput) -> u8 {
    let marked: Vec<u16> = (0..input.list as u16).map(|place| 40_000 + place).collect();
    let (mut ours, mut list) = (marked.clone(), marked);
    let expected = read_log(&input.log, input.n, &mut list).map_err(|fault| fault.number);
    assert_eq!(bench::read_log(&input.log, input.n, &mut ours), expected);
    assert_eq!(ours, list);
    expected.err().unwrap_or(refusal::DONE)
}

#[test]
fn fixed_and_drawn_meters() {
    fixed_readings().iter().for_each(|input| {
        compare_reading(input);
    });
    fixed_logs().iter().for_each(|input| {
        compare_log(input);
    });
    let (mut of_readings, mut of_logs) = (HashMap::new(), HashMap::new());
    for number in 0..DRAWN {
        let reading = compare_reading(&reading_input(SEED, number));
        *of_readings.entry(reading).or_insert(0) += 1;
        let log = compare_log(&log_input(SEED, number));
        *of_logs.entry(log).or_insert(0) += 1;
    }
    assert_eq!((of_readings.len(), of_logs.len()), (4, 9));
    assert!(of_readings.values().all(|&often| often > DRAWN / 50));
    assert!(
        of_logs.values().all(|&often| often > DRAWN / 50),
        "{:?}",
        of_logs
    );
}

/// What the reference answers to the logs for measuring, and to each of their readings.
#[test]
fn meters_for_measuring() {
    for n in METERED {
        let [read, refused] = logs(n).map(|log| LogInput {
            log: log.bytes,
            n: log.n,
            list: MOST_SPEEDS,
        });
        assert_eq!(read.log.len(), LARGEST_LOG);
        assert_eq!(
            (compare_log(&read), compare_log(&refused)),
            (refusal::DONE, refusal::LOWEST_RATE)
        );
        let mut speeds = HashMap::new();
        for reading in readings(n) {
            let (mean, lowest) = (reading.mean.to_bits(), reading.lowest.to_bits());
            assert_eq!(
                compare_reading(&ReadingInput { mean, lowest, n }),
                refusal::DONE
            );
            *speeds.entry(bench::speed_of(reading, n)).or_insert(0) += 1;
        }
        assert_eq!(
            (speeds[&Ok(0)] > 0, speeds[&Ok(n)] > MOST_SPEEDS / 6),
            (true, true)
        );
    }
}

/// An input for measuring, taken up by the reference from its file.
fn compare_measured(input: &Measured, is_accepted: bool) {
    let lent = Lent {
        table: PLACES,
        output: LARGEST_FILE,
        grants: MOST_JOBS,
    };
    let whole = FileInput {
        lent,
        file: input.file.clone(),
        speeds: vec![input.plan.n; 700],
    };
    compare_file(&whole, 0);
    let mut table = marked(PLACES);
    let Answer { number, plan, .. } = reader(&input.file, &mut table);
    assert_eq!(number, refusal::DONE);
    assert_eq!(plan_of(&plan), input.plan);
    assert_eq!(table, input.table);
    assert_eq!(judge(&plan, &table).is_ok(), is_accepted);
    let run = reference_run(&input.run);
    for speed in [plan.n, plan.n - 1, plan.d - 1, plan.n + 1] {
        compare_steps(&plan, &table, run.clone(), &lent, &[speed, plan.n]);
    }
}

#[test]
fn inputs_for_measuring() {
    for jobs in [1, 2, 4, 8, 16, 32] {
        compare_measured(&Measured::new(jobs, Shape::Usual), true);
        compare_measured(&Measured::new(jobs, Shape::Fullest), true);
    }
    let file = Measured::new(MOST_JOBS, Shape::LargestFile);
    compare_measured(&file, false);
    assert_eq!(file.file.len(), LARGEST_FILE);
}

/// The inputs whose slots and nights are measured.
fn inputs_of_slots() -> [Measured; 5] {
    let usual = |jobs| Measured::new(jobs, Shape::Usual);
    let fullest = Measured::new(MOST_JOBS, Shape::Fullest);
    [usual(1), usual(8), usual(16), usual(32), fullest]
}

/// What the reference answers in each slot for measuring.
#[test]
fn slots_for_measuring() {
    let lent = Lent {
        table: PLACES,
        output: LARGEST_FILE,
        grants: MOST_JOBS,
    };
    for input in inputs_of_slots() {
        for slot in input.slots() {
            let plan = reference_plan(&slot.plan);
            compare_steps(
                &plan,
                &slot.table,
                reference_run(&slot.run),
                &lent,
                &[slot.speed],
            );
            let refused = slot
                .name
                .strip_prefix("refused-by-")
                .map(|number| number[..2].parse());
            let mut run = reference_run(&slot.run);
            let answer = step(
                &plan,
                &slot.table,
                &mut run,
                slot.speed,
                &mut [0; MOST_JOBS],
            );
            let sets_the_mark = ["sets-the-mark", "standing"].contains(&slot.name);
            assert_eq!(run.slow && !slot.run.slow, sets_the_mark, "{}", slot.name);
            assert_eq!(slot.run.slow, slot.name.starts_with("slow"));
            assert_eq!(
                Ok(answer),
                refused.unwrap_or(Ok(refusal::DONE)),
                "{}",
                slot.name
            );
        }
    }
}

/// The numbers of each night for measuring, whether it sets the slow mark, and how many slots of the crowded one use the speed up.
#[test]
fn nights_for_measuring() {
    let used_up = inputs_of_slots().map(|input| {
        let nights = input.nights();
        let slots = nights
            .iter()
            .map(|night| (night.name, compare_night(night)));
        slots.collect::<HashMap<_, _>>()["crowded"]
    });
    assert_eq!(used_up, [3, 101, 113, 115, 256]);
}

/// How many slots use the speed up.
fn compare_night(night: &Night) -> usize {
    let jobs = night.plan.count;
    let plan = reference_plan(&night.plan);
    // With one job nothing is due in the middle.
    let becomes_slow = jobs > 1 && night.name == "slow-half-way";
    assert_eq!(sets_the_mark(night, &plan), becomes_slow, "{}", night.name);
    let (rows, numbers) = compare_shift(
        &plan,
        &night.table,
        &reference_run(&night.run),
        &ShiftInput {
            speeds: night.speeds.to_vec(),
            rows: jobs * MOST_SPEEDS,
            numbers: MOST_SPEEDS,
        },
    );
    let (done, refused) = match night.name {
        "past-the-last-deadline" => (MOST_SPEEDS / 2, refusal::AT_LAST_DEADLINE),
        "refused-by-20" => (0, refusal::SPEED),
        _ => (MOST_SPEEDS, refusal::DONE),
    };
    assert!(numbers[..done]
        .iter()
        .all(|&number| number == refusal::DONE));
    assert!(numbers[done..].iter().all(|&number| number == refused));
    let rows = rows.chunks_exact(jobs).take(done).zip(night.speeds);
    rows.filter(|(row, speed)| row.iter().sum::<u32>() == u32::from(*speed))
        .count()
}

/// Whether a slot of a night sets the slow mark.
fn sets_the_mark(night: &Night, plan: &reference::plan::Plan) -> bool {
    let mut run = reference_run(&night.run);
    for &speed in &night.speeds {
        step(plan, &night.table, &mut run, speed, &mut [0; MOST_JOBS]);
    }
    run.slow && !night.run.slow
}

/// What the reference answers to each desk for measuring, and how many rows its timetables have.
#[test]
fn desks_for_measuring() {
    let rows = [1, 2, 4, 8, 16, 32].map(|jobs| {
        let input = Measured::for_desk(jobs);
        compare_measured(&input, true);
        let ends = input.plan.jobs[..jobs].iter().map(|job| job.deadline);
        let slots = u64::from(ends.max().expect("a job") - input.plan.jobs[0].release);
        let units: u64 = input.plan.jobs[..jobs].iter().map(|job| job.size).sum();
        let is_filled = 100 * units >= 96 * u64::from(input.plan.n) * slots;
        assert!(is_filled || jobs == 1);
        let desks = input.desks();
        desks.iter().for_each(compare_desk_kind);
        assert_eq!(desks.len(), if jobs == 1 { 2 } else { 3 });
        input.rows
    });
    assert_eq!(rows, [1, 3, 7, 15, 31, 62]);
}

fn compare_desk_kind(desk: &Desk) {
    let number = match desk.name {
        "filled" => refusal::DONE,
        name => name["refused-by-".len()..].parse().expect("a number"),
    };
    let plan = reference_plan(&desk.plan);
    for places in [PLACES, PLACES + 5] {
        assert_eq!(compare_desk(&plan, &marked(places)), number);
    }
    assert_eq!(compare_desk(&plan, &marked(PLACES - 1)), refusal::TOO_SHORT);
}

/// Too few words, marks that are none, and words that a field has no room for.
#[test]
fn words_that_hold_no_plan_or_run() {
    let input = Measured::new(8, Shape::Usual);
    let (plan, run) = (plan_words(&input.plan), run_words(&input.run));
    let n = input.plan.n;
    let answer = |plan: &[u64], run: &[u32]| {
        let (mut lent, mut grants) = (run.to_vec(), marked(MOST_JOBS));
        let answer = step_words(plan, &input.table, &mut lent, n, &mut grants);
        assert!(answer.is_ok() || lent == run && grants == marked(MOST_JOBS));
        let (mut after, mut row, mut number) = (run.to_vec(), marked(MOST_JOBS), [9]);
        let of_shift = shift_words(plan, &input.table, &mut after, &[n], &mut row, &mut number);
        assert!(of_shift == answer && after == lent && row == grants);
        assert_eq!(number[0], if answer.is_ok() { refusal::DONE } else { 9 });
        answer
    };
    assert_eq!(answer(&plan, &run), Ok(()));
    assert_eq!(answer(&plan[1..], &run), Err(refusal::TOO_SHORT));
    assert_eq!(answer(&plan, &run[1..]), Err(refusal::TOO_SHORT));
    // The marks of the run, and the ended marks of the first and the last job.
    for mark in [1, 2, 35, 66] {
        let mut run = run;
        run[mark] = 2;
        assert_eq!(answer(&plan, &run), Err(refusal::UNSOUND));
    }
    // All but the name of the first job.
    for word in [0, 1, 2, 4, 5, 6, 7] {
        let mut plan = plan;
        plan[word] += 1 << 32;
        assert_eq!(answer(&plan, &run), Err(refusal::UNSOUND));
    }
}

#[test]
fn wrong_use_of_calls_ends_with_2() {
    let status = |words: &[&str]| {
        let mut calls = Command::new(env!("CARGO_BIN_EXE_calls"));
        let output = calls.args(words).output().expect("the program runs");
        output.status.code()
    };
    assert_eq!(status(&["read", "8", "3"]), Some(0));
    assert_eq!(status(&["step", "largest", "0"]), Some(0));
    assert_eq!(status(&["shift", "8", "1"]), Some(0));
    assert_eq!(status(&["draw", "8", "1"]), Some(0));
    assert_eq!(status(&["speeds", "100", "1"]), Some(0));
    for words in [
        vec![],
        vec!["read", "8"],
        vec!["read", "8", "3", "4"],
        vec!["reads", "8", "3"],
        vec!["read", "7", "3"],
        vec!["draw", "largest", "3"],
        vec!["speeds", "3", "3"],
        vec!["read", "8", "-1"],
    ] {
        assert_eq!(status(&words), Some(2));
    }
}
