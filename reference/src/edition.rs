//! The bounds and fixed lengths of the plan edition, each under its name.

/// Most jobs in a plan, and the number of job records in hand.
pub const MOST_JOBS: usize = 32;
/// Most intervals; also the width of one job's part of the table.
pub const MOST_INTERVALS: usize = 63;
/// Places of the table that belong to the plan.
pub const TABLE_PLACES: usize = MOST_JOBS * MOST_INTERVALS;
/// Most rows in a file.
pub const MOST_ROWS: u64 = 2_016;
/// Lowest floor rate.
pub const LEAST_RATE: u16 = 1;
/// Highest normal rate, in units per slot.
pub const MOST_RATE: u16 = 1_000;
/// Latest deadline, in slots.
pub const MOST_DEADLINE: u32 = 100_000;
/// Least size of a job, in units.
pub const LEAST_SIZE: u64 = 1;
/// Greatest size of a job, in units.
pub const MOST_SIZE: u64 = 100_000_000;
/// Most speeds in one shift.
pub const MOST_SHIFT_SPEEDS: usize = 256;

/// Bytes of a name.
pub const NAME_BYTES: usize = 8;
/// Lowest byte allowed in a name.
pub const LEAST_NAME_BYTE: u8 = 0x21;
/// Highest byte allowed in a name.
pub const MOST_NAME_BYTE: u8 = 0x7E;

/// Grade of a job that is not essential.
pub const LO: u8 = 0;
/// Grade of an essential job.
pub const HI: u8 = 1;

/// First byte of a file.
pub const VERSION: u8 = 1;
/// Bytes up to and including the length field.
pub const HEAD_BYTES: usize = 5;
/// Length byte in front of each job.
pub const JOB_LENGTH: u8 = 21;
/// Length byte in front of each row.
pub const ROW_LENGTH: u8 = 14;
/// Length byte in front of each reading of a log.
pub const READING_LENGTH: u8 = 16;
/// Bytes of the largest file.
pub const LARGEST_FILE: usize = 30_956;
