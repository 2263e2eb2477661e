//! The writer of plan files.

use crate::edition::{JOB_LENGTH, ROW_LENGTH, TABLE_PLACES, VERSION};
use crate::plan::{intervals, place_of, sound, Job, Plan};
use crate::refusal;

/// Writes the file of a plan into the lent output; the result is its length or a refusal number.
pub fn writer(plan: &Plan, table: &[u32], output: &mut [u8]) -> Result<usize, u8> {
    if table.len() < TABLE_PLACES {
        return Err(refusal::TOO_SHORT);
    }
    if !sound(plan, table) {
        return Err(refusal::UNSOUND);
    }
    let file = file_of(plan, table);
    if output.len() < file.len() {
        return Err(refusal::TOO_SHORT);
    }
    output[..file.len()].copy_from_slice(&file);
    Ok(file.len())
}

/// The exact file of a sound plan.
fn file_of(plan: &Plan, table: &[u32]) -> Vec<u8> {
    let rest = rest_of_file(plan, table);
    let mut file = vec![VERSION];
    file.extend((rest.len() as u32).to_be_bytes());
    file.extend(rest);
    file
}

/// All that follows the length field.
fn rest_of_file(plan: &Plan, table: &[u32]) -> Vec<u8> {
    let mut bytes = Vec::new();
    bytes.extend(plan.n.to_be_bytes());
    bytes.extend(plan.d.to_be_bytes());
    bytes.push(plan.count as u8);
    for job in plan.counted() {
        bytes.push(JOB_LENGTH);
        bytes.extend(job.name);
        bytes.push(job.grade);
        bytes.extend(job.release.to_be_bytes());
        // A sound size is far below the four bytes it gets.
        bytes.extend((job.size as u32).to_be_bytes());
        bytes.extend(job.deadline.to_be_bytes());
    }
    let rows = rows_of(plan.counted(), table);
    bytes.extend((rows.len() as u16).to_be_bytes());
    bytes.extend(rows.concat());
    bytes
}

/// One row for each allotment that is not 0, by job and then by interval.
fn rows_of(jobs: &[Job], table: &[u32]) -> Vec<Vec<u8>> {
    let mut rows = Vec::new();
    for (i, job) in jobs.iter().enumerate() {
        for j in 0..intervals(jobs).len() {
            let units = table[place_of(i, j)];
            if units != 0 {
                let mut row = vec![ROW_LENGTH];
                row.extend(job.name);
                row.extend((j as u16).to_be_bytes());
                row.extend(units.to_be_bytes());
                rows.push(row);
            }
        }
    }
    rows
}
