//! Makes the calls of `libgateway.a` and the plain ones of this package on the same inputs. `bench/measure` counts its instructions; the
//! time of the calls it takes itself.
//!
//! It first compares what both answer, and stops if they differ.

// Not every call of the library is measured.
#[allow(dead_code)]
#[path = "../hosts/rust/calls.rs"]
mod calls;

use std::arch::global_asm;
use std::collections::BTreeSet;
use std::env;
use std::hint::black_box;
use std::process::ExitCode;
use std::time::{Duration, Instant};

use bench::inputs::{logs, readings, Desk, Input, Log, Night, Shape, Slot, LARGEST_FILE, METERED};
use bench::refusal::TOO_SHORT;
use bench::words::{plan_words, run_words, shift_words, step_words};
use bench::{draw_up, judge, read, read_log, slack, speed_of, write, Plan, Reading, Slack, Verdict, MOST_JOBS, MOST_SPEEDS, PLACES};
use calls::*;

const USAGE: &str = "usage: both count|time usual|full|file|desk JOBS
       both count|time meter 2|100|1000
       both slots|nights usual|full JOBS
       both stack";

fn main() -> ExitCode {
    let words: Vec<String> = env::args().skip(1).collect();
    let words: Vec<&str> = words.iter().map(String::as_str).collect();
    let done = match words[..] {
        ["slots", shape, jobs] => input_of(shape, jobs).map(|(input, _)| count_slots(&input)),
        ["nights", shape, jobs] => input_of(shape, jobs).map(|(input, _)| count_nights(&input)),
        [how, "desk", jobs] => how_of(how).zip(jobs_of(jobs)).map(|(how, jobs)| measure_desks(how, &Input::for_desk(jobs))),
        [how, "meter", n] => how_of(how).zip(rate_of(n)).map(|(how, n)| measure_meter(how, n)),
        [how, shape, jobs] => how_of(how).zip(input_of(shape, jobs)).map(|(how, (input, judged))| measure(how, &Both::new(input), judged)),
        ["stack"] => Some(stacks()),
        _ => None,
    };
    if done.is_none() {
        eprintln!("{USAGE}");
        return ExitCode::from(2);
    }
    ExitCode::SUCCESS
}

fn how_of(how: &str) -> Option<How> {
    match how {
        "count" => Some(How::Count),
        "time" => Some(How::Time),
        _ => None,
    }
}

fn jobs_of(jobs: &str) -> Option<usize> {
    jobs.parse().ok().filter(|jobs: &usize| jobs.is_power_of_two() && *jobs <= MOST_JOBS)
}

fn rate_of(n: &str) -> Option<u16> {
    n.parse().ok().filter(|n| METERED.contains(n))
}

/// An input, and whether the judge accepts it.
fn input_of(shape: &str, jobs: &str) -> Option<(Input, bool)> {
    let jobs = jobs_of(jobs)?;
    match shape {
        "usual" => Some((Input::new(jobs, Shape::Usual), true)),
        "full" => Some((Input::new(jobs, Shape::Fullest), true)),
        "file" => Some((Input::new(jobs, Shape::LargestFile), false)),
        _ => None,
    }
}

/// An input for both sides: the plain one's, and the words that a host lends.
struct Both {
    plain: Input,
    plan: [u64; PLAN_WORDS],
    run: [u32; RUN_WORDS],
}

impl Both {
    fn new(plain: Input) -> Both {
        Both { plan: plan_words(&plain.plan), run: run_words(&plain.run), plain }
    }

    fn read(&self, plan: &mut [u64; PLAN_WORDS], table: &mut [u32], offset: &mut usize) -> u32 {
        let file = &self.plain.file;
        // SAFETY: here and below each pointer is valid for the length beside it, and what is written overlaps nothing else.
        unsafe { gateway_read(file.as_ptr(), file.len(), plan.as_mut_ptr(), PLAN_WORDS, table.as_mut_ptr(), table.len(), offset) }
    }

    fn write(&self, table: &[u32], out: &mut [u8], written: &mut usize) -> u32 {
        unsafe { gateway_write(self.plan.as_ptr(), PLAN_WORDS, table.as_ptr(), table.len(), out.as_mut_ptr(), out.len(), written) }
    }

    fn judge(&self, location: &mut [u64; LOCATION_WORDS]) -> u32 {
        let table = &self.plain.table;
        unsafe { gateway_judge(self.plan.as_ptr(), PLAN_WORDS, table.as_ptr(), table.len(), location.as_mut_ptr(), LOCATION_WORDS) }
    }

    fn slack(&self, least: &mut i64, location: &mut [u64; LOCATION_WORDS]) -> u32 {
        let table = &self.plain.table;
        unsafe { gateway_slack(self.plan.as_ptr(), PLAN_WORDS, table.as_ptr(), table.len(), least, location.as_mut_ptr(), LOCATION_WORDS) }
    }
}

/// A slot for both sides: the words that a host lends.
struct Lent {
    name: &'static str,
    plan: [u64; PLAN_WORDS],
    table: Vec<u32>,
    run: [u32; RUN_WORDS],
    speed: u16,
}

impl Lent {
    fn new(slot: Slot) -> Lent {
        Lent { name: slot.name, plan: plan_words(&slot.plan), table: slot.table, run: run_words(&slot.run), speed: slot.speed }
    }

    fn all(input: &Input) -> Vec<Lent> {
        input.slots().into_iter().map(Lent::new).collect()
    }

    fn step(&self, run: &mut [u32; RUN_WORDS], grants: &mut [u32; MOST_JOBS]) -> u32 {
        let Lent { plan, table, speed, .. } = self;
        unsafe { gateway_step(plan.as_ptr(), PLAN_WORDS, table.as_ptr(), table.len(), run.as_mut_ptr(), RUN_WORDS, *speed, grants.as_mut_ptr(), MOST_JOBS) }
    }

    fn plain_step(&self, run: &mut [u32; RUN_WORDS], grants: &mut [u32; MOST_JOBS]) -> u32 {
        step_words(&self.plan, &self.table, run, self.speed, grants).err().unwrap_or(0).into()
    }

    fn outcome(&self, position: usize) -> u32 {
        unsafe { gateway_outcome(self.plan.as_ptr(), PLAN_WORDS, self.run.as_ptr(), RUN_WORDS, position) }
    }
}

/// A night for both sides: the words that a host lends, and as many places as the call needs.
struct LentNight {
    name: &'static str,
    plan: [u64; PLAN_WORDS],
    table: Vec<u32>,
    run: [u32; RUN_WORDS],
    speeds: [u16; MOST_SPEEDS],
    jobs: usize,
}

/// What the calls of a night leave, and what the one call for all speeds answers.
#[derive(PartialEq)]
struct Left {
    answer: u32,
    run: [u32; RUN_WORDS],
    rows: Vec<u32>,
    numbers: [u8; MOST_SPEEDS],
}

impl LentNight {
    fn new(night: Night) -> LentNight {
        let Night { name, plan, table, run, speeds } = night;
        LentNight { name, plan: plan_words(&plan), table, run: run_words(&run), speeds, jobs: plan.count }
    }

    fn all(input: &Input) -> Vec<LentNight> {
        input.nights().into_iter().map(LentNight::new).collect()
    }

    /// With marks in the places that a refusal leaves.
    fn before(&self) -> Left {
        Left { answer: 0, run: self.run, rows: vec![7; self.jobs * MOST_SPEEDS], numbers: [77; MOST_SPEEDS] }
    }

    fn shift(&self, left: &mut Left) {
        let LentNight { plan, table, speeds, .. } = self;
        let Left { run, rows, numbers, .. } = left;
        left.answer = unsafe {
            gateway_shift(
                plan.as_ptr(),
                PLAN_WORDS,
                table.as_ptr(),
                table.len(),
                run.as_mut_ptr(),
                RUN_WORDS,
                speeds.as_ptr(),
                MOST_SPEEDS,
                rows.as_mut_ptr(),
                rows.len(),
                numbers.as_mut_ptr(),
                MOST_SPEEDS,
            )
        };
    }

    /// The same by a call for each speed.
    fn single_calls(&self, left: &mut Left) {
        let LentNight { plan, table, .. } = self;
        let Left { run, rows, numbers, .. } = left;
        for ((row, number), &speed) in rows.chunks_exact_mut(self.jobs).zip(numbers).zip(&self.speeds) {
            let answer = unsafe {
                gateway_step(plan.as_ptr(), PLAN_WORDS, table.as_ptr(), table.len(), run.as_mut_ptr(), RUN_WORDS, speed, row.as_mut_ptr(), row.len())
            };
            *number = answer as u8;
        }
    }

    fn plain_shift(&self, left: &mut Left) {
        let Left { run, rows, numbers, .. } = left;
        left.answer = shift_words(&self.plan, &self.table, run, &self.speeds, rows, numbers).err().unwrap_or(0).into();
    }
}

/// A desk for both sides: the plain one's plan, and the words that a host lends.
struct LentDesk {
    name: &'static str,
    plain: Plan,
    plan: [u64; PLAN_WORDS],
}

impl LentDesk {
    fn new(desk: Desk) -> LentDesk {
        LentDesk { name: desk.name, plan: plan_words(&desk.plan), plain: desk.plan }
    }

    fn all(input: &Input) -> Vec<LentDesk> {
        input.desks().into_iter().map(LentDesk::new).collect()
    }

    fn draw(&self, table: &mut [u32]) -> u32 {
        unsafe { gateway_draw(self.plan.as_ptr(), PLAN_WORDS, table.as_mut_ptr(), table.len()) }
    }

    fn plain_draw(&self, table: &mut [u32]) -> u32 {
        draw_up(&self.plain, table).err().unwrap_or(0).into()
    }
}

fn meter(reading: Reading, n: u16, speed: &mut u16) -> u32 {
    unsafe { gateway_meter(reading.mean, reading.lowest, n, speed) }
}

/// What the log reader leaves.
#[derive(PartialEq)]
struct Metered {
    answer: u32,
    speeds: [u16; MOST_SPEEDS],
    count: usize,
}

impl Metered {
    fn new() -> Metered {
        Metered { answer: 0, speeds: [7; MOST_SPEEDS], count: 0 }
    }

    fn read(&mut self, log: &Log, offset: &mut usize) {
        let Metered { speeds, count, .. } = self;
        self.answer = unsafe { gateway_speeds(log.bytes.as_ptr(), log.bytes.len(), log.n, speeds.as_mut_ptr(), MOST_SPEEDS, count, offset) };
    }

    fn plain_read(&mut self, log: &Log) {
        let read = read_log(&log.bytes, log.n, &mut self.speeds);
        self.answer = read.err().unwrap_or(0).into();
        self.count = read.unwrap_or(0);
    }
}

// What lies between these two is counted. Their bodies differ, so that no compiler makes one function of them.
#[no_mangle]
#[inline(never)]
extern "C" fn section_begins() {
    black_box(1);
}

#[no_mangle]
#[inline(never)]
extern "C" fn section_ends() {
    black_box(2);
}

#[derive(Clone, Copy)]
enum How {
    Count,
    Time,
}

fn section(how: How, call: &str, who: &str, make: impl FnMut()) {
    match how {
        // Half of the difference is one call.
        How::Count => counted(call, who, [1, 3], make),
        How::Time => timed(call, who, make),
    }
}

/// Two sections with so many calls, so that their difference is calls without what is around them.
fn counted(call: &str, who: &str, repeats: [i32; 2], mut make: impl FnMut()) {
    for repeat in repeats {
        section_begins();
        for _ in 0..black_box(repeat) {
            make();
        }
        section_ends();
        println!("section {call} {who} {repeat}");
    }
}

const BATCHES: usize = 300;
const CALLS: u32 = 100;

/// The time of a call in the fastest of many batches, since what else the machine does can only add to it.
fn timed(call: &str, who: &str, mut make: impl FnMut()) {
    let mut least = Duration::MAX;
    for _ in 0..BATCHES {
        let begun = Instant::now();
        for _ in 0..CALLS {
            make();
        }
        least = least.min(begun.elapsed());
    }
    println!("time {call} {who} {:.1}", least.as_nanos() as f64 / f64::from(CALLS));
}

fn measure(how: How, both: &Both, judged: bool) {
    let plain = &both.plain;
    println!("input {} {} {} {}", plain.plan.count, plain.intervals, plain.rows, plain.file.len());
    measure_read(how, both);
    measure_write(how, both);
    if judged {
        measure_judge(how, both);
        measure_slack(how, both);
        measure_step(how, "step", &Lent::all(plain)[0]);
    }
}

fn measure_read(how: How, both: &Both) {
    let plain = &both.plain;
    let (mut plan, mut table, mut offset, mut other) = ([1; PLAN_WORDS], vec![1; PLACES], 1, vec![1; PLACES]);
    assert_eq!(both.read(&mut plan, &mut table, &mut offset), 0);
    assert_eq!(offset, 0);
    assert_eq!(read(&plain.file, &mut other).map(|plan| plan_words(&plan)), Ok(plan));
    assert!(table == other && table == plain.table && plan == both.plan);
    section(how, "read", "plain", || {
        black_box(&read(black_box(&plain.file), black_box(&mut other)));
    });
    section(how, "read", "ours", || {
        black_box(black_box(both).read(black_box(&mut plan), black_box(&mut table), black_box(&mut offset)));
    });
}

fn measure_write(how: How, both: &Both) {
    let plain = &both.plain;
    let (mut out, mut written, mut other) = (vec![0; LARGEST_FILE], 0, vec![0; LARGEST_FILE]);
    assert_eq!(both.write(&plain.table, &mut out, &mut written), 0);
    assert_eq!(write(&plain.plan, &plain.table, &mut other), Ok(written));
    assert!(out == other && out[..written] == plain.file);
    section(how, "write", "plain", || {
        black_box(&write(black_box(&plain.plan), black_box(&plain.table), black_box(&mut other)));
    });
    section(how, "write", "ours", || {
        black_box(black_box(both).write(black_box(&plain.table), black_box(&mut out), black_box(&mut written)));
    });
    // A table without places is refused as soon as the plan is there: what is left is the way from words to a plan.
    assert_eq!(both.write(&[], &mut out, &mut written), TOO_SHORT.into());
    section(how, "decode", "ours", || {
        black_box(black_box(both).write(black_box(&[]), black_box(&mut out), black_box(&mut written)));
    });
}

fn measure_judge(how: How, both: &Both) {
    let plain = &both.plain;
    let mut location = [0; LOCATION_WORDS];
    assert_eq!(both.judge(&mut location), 0);
    assert_eq!(judge(&plain.plan, &plain.table), Verdict::Accepted);
    section(how, "judge", "plain", || {
        black_box(&judge(black_box(&plain.plan), black_box(&plain.table)));
    });
    section(how, "judge", "ours", || {
        black_box(black_box(both).judge(black_box(&mut location)));
    });
}

fn measure_slack(how: How, both: &Both) {
    let plain = &both.plain;
    let (mut least, mut location) = (0, [0; LOCATION_WORDS]);
    assert_eq!(both.slack(&mut least, &mut location), 0);
    let ours = Slack::Least { slack: least, interval: location[0] as usize, deadline: location[1] as u32 };
    assert_eq!(slack(&plain.plan, &plain.table), ours);
    section(how, "slack", "plain", || {
        black_box(&slack(black_box(&plain.plan), black_box(&plain.table)));
    });
    section(how, "slack", "ours", || {
        black_box(black_box(both).slack(black_box(&mut least), black_box(&mut location)));
    });
}

/// The step takes the words that a host lends on both sides.
fn measure_step(how: How, call: &str, lent: &Lent) {
    let (mut grants, mut other) = ([7; MOST_JOBS], [7; MOST_JOBS]);
    let (mut run, mut other_run) = (lent.run, lent.run);
    assert_eq!(lent.step(&mut run, &mut grants), lent.plain_step(&mut other_run, &mut other), "{}", lent.name);
    assert!(run == other_run && grants == other, "{}", lent.name);
    // Each call gets the same run, so a copy of its words is counted with it, on both sides.
    section(how, call, "plain", || {
        let mut run = lent.run;
        black_box(black_box(lent).plain_step(black_box(&mut run), black_box(&mut other)));
    });
    section(how, call, "ours", || {
        let mut run = lent.run;
        black_box(black_box(lent).step(black_box(&mut run), black_box(&mut grants)));
    });
}

/// Counts the step in every slot for measuring, and the outcome of the last job.
fn count_slots(input: &Input) {
    println!("input {} {} {} {}", input.plan.count, input.intervals, input.rows, input.file.len());
    let slots = Lent::all(input);
    for slot in &slots {
        measure_step(How::Count, &format!("step:{}", slot.name), slot);
    }
    let last = input.plan.count - 1;
    section(How::Count, "outcome", "ours", || {
        black_box(black_box(&slots[0]).outcome(black_box(last)));
    });
}

/// Counts all calls of each night for measuring: the shift, the calls for each speed, and the plain shift.
fn count_nights(input: &Input) {
    println!("input {} {} {} {}", input.plan.count, input.intervals, input.rows, input.file.len());
    for night in LentNight::all(input) {
        let name = night.name;
        let sides: [(&str, fn(&LentNight, &mut Left)); 3] =
            [("ours", LentNight::shift), ("single", LentNight::single_calls), ("plain", LentNight::plain_shift)];
        let lefts = sides.map(|(_, make)| {
            let mut left = night.before();
            make(&night, &mut left);
            left
        });
        assert!(lefts[0].answer == 0 && lefts[0] == lefts[1] && lefts[0] == lefts[2], "{name}");
        println!("night {name} {}", lefts[0].numbers.iter().filter(|&&number| number == 0).count());
        for ((who, make), mut left) in sides.into_iter().zip(lefts) {
            // Each gets the same run, so a copy of its words is counted with it. A night is long: one of it, beside none, is enough.
            counted(&format!("shift:{name}"), who, [0, 1], || {
                left.run = night.run;
                make(black_box(&night), black_box(&mut left));
            });
        }
    }
}

/// Measures the desk's call on each desk for measuring.
fn measure_desks(how: How, input: &Input) {
    println!("input {} {} {} {}", input.plan.count, input.intervals, input.rows, input.file.len());
    for desk in LentDesk::all(input) {
        let (call, mut table, mut other) = (format!("draw:{}", desk.name), vec![7; PLACES], vec![7; PLACES]);
        assert_eq!(desk.draw(&mut table), desk.plain_draw(&mut other), "{}", desk.name);
        assert!(table == other, "{}", desk.name);
        section(how, &call, "plain", || {
            black_box(&draw_up(black_box(&desk.plain), black_box(&mut other)));
        });
        section(how, &call, "ours", || {
            black_box(black_box(&desk).draw(black_box(&mut table)));
        });
    }
}

/// Measures the call on a reading, and the log reader on each log for measuring.
fn measure_meter(how: How, n: u16) {
    println!("input {n} {MOST_SPEEDS} {MOST_SPEEDS} {}", logs(n)[0].bytes.len());
    let reading = readings(n)[MOST_SPEEDS / 2];
    let mut speed = 7;
    assert_eq!((meter(reading, n, &mut speed), Ok(speed)), (0, speed_of(reading, n)));
    section(how, "meter", "plain", || {
        black_box(&speed_of(black_box(reading), black_box(n)));
    });
    section(how, "meter", "ours", || {
        black_box(meter(black_box(reading), black_box(n), black_box(&mut speed)));
    });
    for log in logs(n) {
        let (call, mut offset) = (format!("speeds:{}", log.name), 7);
        let (mut ours, mut plain) = (Metered::new(), Metered::new());
        ours.read(&log, &mut offset);
        plain.plain_read(&log);
        assert!(ours == plain, "{}", log.name);
        section(how, &call, "plain", || black_box(&mut plain).plain_read(black_box(&log)));
        section(how, &call, "ours", || black_box(&mut ours).read(black_box(&log), black_box(&mut offset)));
    }
}

// Makes a call on another stack: rdi is the function, rsi the other stack's top, rdx points to fourteen words. Of the first twelve six go to
// registers, and the last two are floats.
global_asm!(
    ".globl call_on",
    "call_on:",
    "push rbp",
    "push rbx",
    "mov rbp, rsp",
    "mov rsp, rsi",
    "mov rax, rdi",
    "mov rbx, rdx",
    "push qword ptr [rbx + 88]",
    "push qword ptr [rbx + 80]",
    "push qword ptr [rbx + 72]",
    "push qword ptr [rbx + 64]",
    "push qword ptr [rbx + 56]",
    "push qword ptr [rbx + 48]",
    "mov rdi, [rbx]",
    "mov rsi, [rbx + 8]",
    "mov rdx, [rbx + 16]",
    "mov rcx, [rbx + 24]",
    "mov r8, [rbx + 32]",
    "mov r9, [rbx + 40]",
    "movq xmm0, qword ptr [rbx + 96]",
    "movq xmm1, qword ptr [rbx + 104]",
    "call rax",
    "mov rsp, rbp",
    "pop rbx",
    "pop rbp",
    "ret",
);

extern "C" {
    fn call_on(function: *const (), top: *mut u8, words: *const [u64; ARGUMENTS + FLOATS]) -> u64;
}

/// Words that `call_on` hands over, and floats after them.
const ARGUMENTS: usize = 12;
const FLOATS: usize = 2;
/// Bytes of the painted stack.
const PAINTED: usize = 1 << 16;
/// What `call_on` puts on it before the call.
const PUSHED: usize = 48;

/// What a call answers, and how many bytes of stack it wrote: its arguments there, its return address and all below.
fn stack_of(function: *const (), arguments: &[u64]) -> (u64, usize) {
    stack_with(function, arguments, [0.0; FLOATS])
}

/// The same of a call with floats.
fn stack_with(function: *const (), arguments: &[u64], floats: [f64; FLOATS]) -> (u64, usize) {
    let mut words = [0; ARGUMENTS + FLOATS];
    words[..arguments.len()].copy_from_slice(arguments);
    words[ARGUMENTS..].copy_from_slice(&floats.map(f64::to_bits));
    let mut answer = 0;
    let mut deepest = 0;
    // Two paints, since a call may write one of them itself.
    for paint in [0xA5, 0x5A] {
        let painted = u128::from_ne_bytes([paint; 16]);
        let mut stack = vec![painted; PAINTED / 16];
        let bottom = stack.as_mut_ptr() as *mut u8;
        // SAFETY: the function is one of the library's with its own arguments, and the top is aligned.
        answer = unsafe { call_on(function, bottom.add(PAINTED), &words) };
        let whole = stack.iter().take_while(|&&word| word == painted).count();
        let kept = 16 * whole + stack[whole].to_ne_bytes().iter().take_while(|&&byte| byte == paint).count();
        deepest = deepest.max(PAINTED - PUSHED - kept);
    }
    (answer & 0xFFFF_FFFF, deepest + 8 * arguments.len().saturating_sub(6))
}

/// The deepest stack of each call, in the order of the table, and all answers.
struct Deepest {
    calls: [(&'static str, usize); 14],
    answers: BTreeSet<u64>,
}

impl Deepest {
    fn note(&mut self, call: &str, bytes: usize) {
        let (_, kept) = self.calls.iter_mut().find(|(name, _)| *name == call).expect("a call of the table");
        *kept = bytes.max(*kept);
    }

    fn note_answer(&mut self, call: &str, (answer, bytes): (u64, usize)) {
        self.answers.insert(answer);
        self.note(call, bytes);
    }
}

/// The calls whose stack is painted, in the order of the table.
const PAINTED_CALLS: [&str; 14] =
    ["read", "write", "name", "judge", "slack", "draw", "shortage", "start", "step", "shift", "outcome", "meter", "speeds", "lent-step"];

/// Prints the deepest stack of each call, over plans of all sizes, over slots, nights, desks and logs of all kinds and over ways to refuse them.
fn stacks() {
    let mut deepest = Deepest { calls: PAINTED_CALLS.map(|call| (call, 0)), answers: BTreeSet::new() };
    METERED.into_iter().chain([1]).for_each(|n| stacks_of_meter(&mut deepest, n));
    for jobs in [1, 8, 16, 32] {
        for desk in LentDesk::all(&Input::for_desk(jobs)) {
            stacks_of_desk(&mut deepest, &desk.plan);
        }
    }
    for shape in ["usual", "full", "file"] {
        for jobs in ["1", "8", "16", "32"] {
            let (input, _) = input_of(shape, jobs).expect("an input");
            for slot in Lent::all(&input) {
                stacks_of_slot(&mut deepest, &slot);
            }
            for night in LentNight::all(&input) {
                for speeds in [&night.speeds[..], &[0; MOST_SPEEDS + 1]] {
                    let Left { mut run, mut rows, mut numbers, .. } = night.before();
                    deepest.note_answer("shift", stack_of_shift(&night.plan, &night.table, &mut run, speeds, &mut rows, &mut numbers));
                }
            }
            for change in 0..CHANGES {
                let mut both = Both::new(Input { table: input.table.clone(), file: input.file.clone(), ..input });
                let speed = change_input(&mut both, change);
                let slot = Lent { name: "changed", plan: both.plan, table: both.plain.table.clone(), run: both.run, speed };
                stacks_of_slot(&mut deepest, &slot);
                stacks_of_desk(&mut deepest, &both.plan);
                stacks_of(&mut deepest, &mut both);
            }
        }
    }
    for (call, bytes) in deepest.calls {
        println!("stack {call} {bytes}");
    }
    let answers: Vec<String> = deepest.answers.iter().map(u64::to_string).collect();
    println!("answers {}", answers.join(" "));
}

const CHANGES: usize = 12;

/// Spoils an input in one of several ways; the answer is the speed of its slot.
fn change_input(both: &mut Both, change: usize) -> u16 {
    let n = both.plain.plan.n;
    let length = both.plain.file.len();
    match change {
        1 => both.plan[1] = 1,                // the floor rule
        2 => both.plan[..2].copy_from_slice(&[2, 1]), // over capacity
        3 => both.plan[6] += 1,               // a wrong total
        4 => both.plan[7] += 1_000,           // a later boundary, so that the table no longer fits
        5 => both.plan[2] = 33,               // a wrong count
        6 => both.run[0] = both.plan[7] as u32, // another clock
        7 => return n + 1,                    // a speed above normal
        8 => return n / 2,                    // a slow slot
        9 => both.run[1] = 2,                 // no mark
        10 => both.plain.file[length - 1] ^= 0xFF, // another last row
        11 => both.plain.file.truncate(length - 1),
        _ => {}
    }
    n
}

/// The stack of the calls that a slot does not need.
fn stacks_of(deepest: &mut Deepest, both: &mut Both) {
    let mut plan = both.plan;
    let mut table = both.plain.table.clone();
    let mut out = vec![0_u8; LARGEST_FILE];
    let (mut written, mut least, mut offset) = (0_usize, 0_i64, 0_usize);
    let mut location = [0_u64; LOCATION_WORDS];
    let [file, file_length] = [both.plain.file.as_ptr() as u64, both.plain.file.len() as u64];
    let [words, cells] = [plan.as_mut_ptr() as u64, table.as_mut_ptr() as u64];
    let [plan_length, places] = [PLAN_WORDS, PLACES].map(|length| length as u64);
    let in_hand = [words, plan_length, cells, places];
    let location = [location.as_mut_ptr() as u64, LOCATION_WORDS as u64];
    let run = [both.run.as_mut_ptr() as u64, RUN_WORDS as u64];
    let out = [out.as_mut_ptr() as u64, LARGEST_FILE as u64, &mut written as *mut usize as u64];
    let least = [&mut least as *mut i64 as u64];
    deepest.note_answer("write", stack_of(gateway_write as *const (), &[&in_hand[..], &out].concat()));
    deepest.note_answer("judge", stack_of(gateway_judge as *const (), &[&in_hand[..], &location].concat()));
    deepest.note_answer("slack", stack_of(gateway_slack as *const (), &[&in_hand[..], &least, &location].concat()));
    deepest.note_answer("start", stack_of(gateway_start as *const (), &[&in_hand[..], &run, &location].concat()));
    deepest.note_answer("name", stack_of(gateway_name as *const (), &[file, file_length, 0]));
    // The reader last, since it writes plan and table.
    let offset = &mut offset as *mut usize as u64;
    deepest.note_answer("read", stack_of(gateway_read as *const (), &[file, file_length, words, plan_length, cells, places, offset]));
}

/// The stack of the desk's calls, with a table of its own places and with none.
fn stacks_of_desk(deepest: &mut Deepest, plan: &[u64; PLAN_WORDS]) {
    let (mut table, mut pair) = (vec![7_u32; PLACES], [7_u64; PAIR_WORDS]);
    let plan = [plan.as_ptr() as u64, PLAN_WORDS as u64];
    for places in [PLACES, 0] {
        deepest.note_answer("draw", stack_of(gateway_draw as *const (), &[plan, [table.as_mut_ptr() as u64, places as u64]].concat()));
    }
    deepest.note_answer("shortage", stack_of(gateway_shortage as *const (), &[plan, [pair.as_mut_ptr() as u64, PAIR_WORDS as u64]].concat()));
}

/// The stack of the meter's calls: on a reading that is right, one below zero and one that is not finite, and on logs with a list that is long
/// enough, one that is not, and a byte too few.
fn stacks_of_meter(deepest: &mut Deepest, n: u16) {
    let (mut speed, mut count, mut offset) = (7_u16, 7_usize, 7_usize);
    for lowest in [1.5, -1.0, f64::NAN] {
        let arguments = [n.into(), &mut speed as *mut u16 as u64];
        deepest.note_answer("meter", stack_with(gateway_meter as *const (), &arguments, [2.0, lowest]));
    }
    let mut speeds = [7_u16; MOST_SPEEDS];
    for log in logs(n) {
        for (cut, places) in [(0, MOST_SPEEDS), (0, MOST_SPEEDS - 1), (1, MOST_SPEEDS)] {
            let bytes = [log.bytes.as_ptr() as u64, (log.bytes.len() - cut) as u64, n.into()];
            let list = [speeds.as_mut_ptr() as u64, places as u64];
            let singles = [&mut count as *mut usize as u64, &mut offset as *mut usize as u64];
            deepest.note_answer("speeds", stack_of(gateway_speeds as *const (), &[&bytes[..], &list, &singles].concat()));
        }
    }
}

/// The stack of a shift's call. Each paint makes it once more, so the second finds the run as the first left it.
fn stack_of_shift(
    plan: &[u64; PLAN_WORDS],
    table: &[u32],
    run: &mut [u32; RUN_WORDS],
    speeds: &[u16],
    rows: &mut [u32],
    numbers: &mut [u8],
) -> (u64, usize) {
    let plan = [plan.as_ptr() as u64, PLAN_WORDS as u64];
    let table = [table.as_ptr() as u64, table.len() as u64];
    let run = [run.as_mut_ptr() as u64, RUN_WORDS as u64];
    let speeds = [speeds.as_ptr() as u64, speeds.len() as u64];
    let rows = [rows.as_mut_ptr() as u64, rows.len() as u64];
    let numbers = [numbers.as_mut_ptr() as u64, numbers.len() as u64];
    stack_of(gateway_shift as *const (), &[plan, table, run, speeds, rows, numbers].concat())
}

/// The stack of a slot's calls: the step, the shift at its speed alone, the step on a lent run, and the outcome at every position.
fn stacks_of_slot(deepest: &mut Deepest, slot: &Lent) {
    let plan = [slot.plan.as_ptr() as u64, PLAN_WORDS as u64];
    let table = [slot.table.as_ptr() as u64, slot.table.len() as u64];
    for position in 0..=MOST_JOBS as u64 {
        let run = [slot.run.as_ptr() as u64, RUN_WORDS as u64];
        deepest.note_answer("outcome", stack_of(gateway_outcome as *const (), &[&plan[..], &run, &[position]].concat()));
    }
    // Each paint makes the call once more, so the second finds the run as the first left it.
    let (mut run, mut grants) = (slot.run, [7_u32; MOST_JOBS]);
    let lent = [run.as_mut_ptr() as u64, RUN_WORDS as u64];
    let row = [grants.as_mut_ptr() as u64, MOST_JOBS as u64];
    deepest.note_answer("step", stack_of(gateway_step as *const (), &[&plan[..], &table, &lent, &[slot.speed.into()], &row].concat()));
    let (mut shift_run, mut shift_grants) = (slot.run, [7_u32; MOST_JOBS]);
    deepest.note_answer("shift", stack_of_shift(&slot.plan, &slot.table, &mut shift_run, &[slot.speed], &mut shift_grants, &mut [7]));
    assert!(run == shift_run && grants == shift_grants, "{}", slot.name);
    let (bytes, other_run, other_grants) = lent_step(slot);
    deepest.note("lent-step", bytes);
    // A host's words can hold what is no mark, and then its step is refused; a run record cannot.
    assert!(slot.run[1] > 1 || (run == other_run && grants == other_grants), "{}", slot.name);
}

// Of the object that tools/lent-step makes. A plan and a run are handed over by their place, a slice by its place and its length.
extern "C" {
    #[link_name = "hostmemory::plans::plan_of"]
    fn plan_of(plan: *mut u64, words: *const u64, length: usize);
    #[link_name = "hostmemory::runs::run_of"]
    fn run_of(run: *mut u64, words: *const u32, length: usize);
    #[link_name = "hostmemory::runs::put_run"]
    fn put_run(words: *mut u32, length: usize, run: *const u64);
    #[link_name = "lentrun::step_in"]
    fn step_in();
}

/// The stack of the step on a lent run, and the run and the grants after it.
fn lent_step(slot: &Lent) -> (usize, [u32; RUN_WORDS], [u32; MOST_JOBS]) {
    let (mut words, mut grants) = (slot.run, [7_u32; MOST_JOBS]);
    // With more room than they take.
    let (mut plan, mut run) = ([0_u64; 2 * PLAN_WORDS], [0_u64; 2 * RUN_WORDS]);
    let table = [slot.table.as_ptr() as u64, slot.table.len() as u64];
    let row = [grants.as_mut_ptr() as u64, MOST_JOBS as u64];
    // SAFETY: the functions take what is named here, and each pointer is valid for the length beside it.
    unsafe {
        plan_of(plan.as_mut_ptr(), slot.plan.as_ptr(), PLAN_WORDS);
        run_of(run.as_mut_ptr(), words.as_ptr(), RUN_WORDS);
    }
    let in_hand = [run.as_mut_ptr(), plan.as_mut_ptr()].map(|place| place as u64);
    let arguments = [&in_hand[..], &table, &[slot.speed.into()], &row].concat();
    let (_, bytes) = stack_of(step_in as *const (), &arguments);
    // SAFETY: as above.
    unsafe { put_run(words.as_mut_ptr(), RUN_WORDS, run.as_ptr()) };
    (bytes, words, grants)
}
