//! The fields of a plan file: where each one begins and how many bytes it has.

use super::draft::{job_at, row_at, row_count_at, RATES_AT};

#[derive(Clone, Copy, Debug)]
pub struct Field {
    pub at: usize,
    pub length: usize,
}

/// Rates and job count: what stands between the length field and the jobs.
pub fn rate_fields() -> Vec<Field> {
    fields(RATES_AT, &[2, 2, 1])
}

/// Length byte, name, grade, release, size, deadline.
pub fn job_fields(position: usize) -> Vec<Field> {
    fields(job_at(position), &[1, 8, 1, 4, 4, 4])
}

pub fn row_count_field(jobs: usize) -> Vec<Field> {
    fields(row_count_at(jobs), &[2])
}

/// Length byte, name, interval, units.
pub fn row_fields(jobs: usize, row: usize) -> Vec<Field> {
    fields(row_at(jobs, row), &[1, 8, 2, 4])
}

/// Fields of these lengths, one after the other.
fn fields(first: usize, lengths: &[usize]) -> Vec<Field> {
    let mut at = first;
    let mut fields = Vec::new();
    for &length in lengths {
        fields.push(Field { at, length });
        at += length;
    }
    fields
}
