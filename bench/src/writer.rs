//! The writer: rows are counted beforehand only where the output might be too short.

use crate::bits::Bits;
use crate::plan::{Job, Plan, MOST_INTERVALS, PLACES};
use crate::refusal;
use crate::times::{distinct, times_of};

const JOBS_AT: usize = 10;
const JOB_BYTES: usize = 22;
const ROW_BYTES: usize = 15;

/// Places of a row of the table that are looked at in one go; divides 63.
const PART: usize = 9;

/// Writes the file of a plan; the answer is its length.
pub fn write(plan: &Plan, table: &[u32], output: &mut [u8]) -> Result<usize, u8> {
    let table = table.get(..PLACES).ok_or(refusal::TOO_SHORT)?;
    let jobs = plan.sound_jobs().ok_or(refusal::UNSOUND)?;
    let intervals = distinct(times_of(jobs)) - 1;
    if has_stray(table, jobs.len(), intervals) {
        return Err(refusal::UNSOUND);
    }
    let rows_at = JOBS_AT + JOB_BYTES * jobs.len() + 2;
    let most = rows_at + ROW_BYTES * jobs.len() * intervals;
    if output.len() < most && output.len() < rows_at + ROW_BYTES * count_rows(table) {
        return Err(refusal::TOO_SHORT);
    }
    let (front, rows) = output.split_at_mut(rows_at);
    let count = write_rows(rows, jobs, table, intervals);
    let length = rows_at + ROW_BYTES * count;
    write_head(front, plan, length);
    write_jobs(&mut front[JOBS_AT..], jobs);
    front[rows_at - 2..].copy_from_slice(&(count as u16).to_be_bytes());
    Ok(length)
}

/// Whether a place that belongs to no job or no interval is not 0.
fn has_stray(table: &[u32], jobs: usize, intervals: usize) -> bool {
    let (own, others) = table.split_at(MOST_INTERVALS * jobs);
    let mut bits = Bits::default();
    for row in own.chunks_exact(MOST_INTERVALS) {
        bits.add(&row[intervals..]);
    }
    bits.add(others);
    bits.any()
}

fn count_rows(table: &[u32]) -> usize {
    table
        .iter()
        .map(|&units| u32::from(units != 0))
        .sum::<u32>() as usize
}

fn write_head(head: &mut [u8], plan: &Plan, length: usize) {
    head[0] = 1;
    head[1..5].copy_from_slice(&(length as u32 - 5).to_be_bytes());
    head[5..7].copy_from_slice(&plan.n.to_be_bytes());
    head[7..9].copy_from_slice(&plan.d.to_be_bytes());
    head[9] = plan.count as u8;
}

fn write_jobs(bytes: &mut [u8], jobs: &[Job]) {
    for (bytes, job) in bytes.chunks_exact_mut(JOB_BYTES).zip(jobs) {
        bytes[0] = JOB_BYTES as u8 - 1;
        bytes[1..9].copy_from_slice(&job.name.to_be_bytes());
        bytes[9] = job.grade;
        bytes[10..14].copy_from_slice(&job.release.to_be_bytes());
        bytes[14..18].copy_from_slice(&(job.size as u32).to_be_bytes());
        bytes[18..22].copy_from_slice(&job.deadline.to_be_bytes());
    }
}

/// Writes one row for each allotment that is not 0; the answer is their number.
fn write_rows(bytes: &mut [u8], jobs: &[Job], table: &[u32], intervals: usize) -> usize {
    let most = bytes.len() / ROW_BYTES;
    // Parts of a fixed length need no test between their places; past the intervals all are 0.
    let parts = (intervals - 1) / PART + 1;
    let mut rows = bytes.chunks_exact_mut(ROW_BYTES);
    for (job, places) in jobs.iter().zip(table.chunks_exact(MOST_INTERVALS)) {
        let name = job.name.to_be_bytes();
        for (part, places) in places.chunks_exact(PART).enumerate().take(parts) {
            for (i, &units) in places.iter().enumerate() {
                if units != 0 {
                    write_row(rows.next(), name, PART * part + i, units);
                }
            }
        }
    }
    most - rows.len()
}

/// Writes a row. There is always room: the output was found long enough for all of them.
#[inline(always)]
fn write_row(room: Option<&mut [u8]>, name: [u8; 8], interval: usize, units: u32) {
    if let Some(row) = room {
        row[0] = ROW_BYTES as u8 - 1;
        row[1..9].copy_from_slice(&name);
        row[9..11].copy_from_slice(&(interval as u16).to_be_bytes());
        row[11..15].copy_from_slice(&units.to_be_bytes());
    }
}
