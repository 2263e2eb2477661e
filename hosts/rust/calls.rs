//! The calls of `libgateway.a` and the sizes of what is lent to them, as `gateway.h` declares them. `tools/compare` runs them all.

pub const MOST_JOBS: usize = 32;
/// The most speeds of one shift, and the most readings of one meter log.
pub const MOST_SPEEDS: usize = 256;

// The rates and the job count; each job; the clock and both marks of a run.
pub const HEAD_WORDS: usize = 3;
pub const JOB_WORDS: usize = 5;
pub const MARK_WORDS: usize = 3;

pub const PLAN_WORDS: usize = HEAD_WORDS + JOB_WORDS * MOST_JOBS;
// After them the units carried for each job, and the ended mark of each.
pub const RUN_WORDS: usize = MARK_WORDS + 2 * MOST_JOBS;
// The job count and each job: what a plan has from its count on.
pub const LIST_WORDS: usize = 1 + JOB_WORDS * MOST_JOBS;
pub const LOCATION_WORDS: usize = 2;
// Two times, the units that are asked by them, and those that the link carries.
pub const PAIR_WORDS: usize = 4;

#[link(name = "gateway", kind = "static")]
extern "C" {
    pub fn gateway_read(file: *const u8, file_length: usize, plan: *mut u64, plan_length: usize, table: *mut u32, table_length: usize, offset: *mut usize) -> u32;
    pub fn gateway_write(plan: *const u64, plan_length: usize, table: *const u32, table_length: usize, out: *mut u8, out_length: usize, written: *mut usize) -> u32;
    pub fn gateway_name(file: *const u8, file_length: usize, position: usize) -> usize;
    pub fn gateway_judge(plan: *const u64, plan_length: usize, table: *const u32, table_length: usize, location: *mut u64, location_length: usize) -> u32;
    pub fn gateway_slack(plan: *const u64, plan_length: usize, table: *const u32, table_length: usize, slack: *mut i64, location: *mut u64, location_length: usize) -> u32;
    pub fn gateway_draw(plan: *const u64, plan_length: usize, table: *mut u32, table_length: usize) -> u32;
    pub fn gateway_shortage(plan: *const u64, plan_length: usize, pair: *mut u64, pair_length: usize) -> u32;
    pub fn gateway_start(plan: *const u64, plan_length: usize, table: *const u32, table_length: usize, run: *mut u32, run_length: usize, location: *mut u64, location_length: usize) -> u32;
    pub fn gateway_step(plan: *const u64, plan_length: usize, table: *const u32, table_length: usize, run: *mut u32, run_length: usize, speed: u16, grants: *mut u32, grants_length: usize) -> u32;
    pub fn gateway_shift(plan: *const u64, plan_length: usize, table: *const u32, table_length: usize, run: *mut u32, run_length: usize, speeds: *const u16, speeds_length: usize, rows: *mut u32, rows_length: usize, numbers: *mut u8, numbers_length: usize) -> u32;
    pub fn gateway_end(plan: *const u64, plan_length: usize, run: *mut u32, run_length: usize, position: usize) -> u32;
    pub fn gateway_outcome(plan: *const u64, plan_length: usize, run: *const u32, run_length: usize, position: usize) -> u32;
    pub fn gateway_import(text: *const u8, text_length: usize, list: *mut u64, list_length: usize, offset: *mut usize) -> u32;
    pub fn gateway_export(list: *const u64, list_length: usize, out: *mut u8, out_length: usize, written: *mut usize) -> u32;
    pub fn gateway_meter(mean: f64, lowest: f64, n: u16, speed: *mut u16) -> u32;
    pub fn gateway_speeds(log: *const u8, log_length: usize, n: u16, speeds: *mut u16, speeds_length: usize, count: *mut usize, offset: *mut usize) -> u32;
}
