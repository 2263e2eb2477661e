//! Damages plan files: one fault for each number that the reader gives, at a wanted place.

use super::accepted::{accepted, accepted_of};
use super::draft::{
    job_at, patch, row_at, row_count_at, seal, Draft, Limits, Where, DEADLINE_IN, GRADE_IN,
    INTERVAL_IN, JOB_COUNT_AT, LENGTH_AT, NAME_IN, RATES_AT, RELEASE_IN, ROW_BYTES, SIZE_IN,
    UNITS_IN,
};
use super::fields::{job_fields, rate_fields, row_count_field, row_fields, Field};
use super::prng::Prng;
use crate::edition::{
    JOB_LENGTH, MOST_DEADLINE, MOST_INTERVALS, MOST_JOBS, MOST_ROWS, MOST_SIZE, NAME_BYTES,
    ROW_LENGTH, VERSION,
};
use crate::refusal;

/// Tries for a plan with enough rows.
const TRIES: usize = 40;
/// Most bytes that are drawn to stand after the last row.
const MOST_LEFTOVERS: usize = 300;

/// The job and the row that damage is done to.
#[derive(Clone, Copy, Debug)]
pub struct Spot {
    pub job: usize,
    pub row: usize,
}

/// A file in the course of being damaged, with what is needed to find its fields.
pub struct Damage {
    pub file: Vec<u8>,
    jobs: usize,
    rows: usize,
    intervals: usize,
}

impl Damage {
    pub fn new(draft: &Draft) -> Damage {
        Damage {
            file: draft.file(),
            jobs: draft.jobs(),
            rows: draft.rows(),
            intervals: draft.intervals().len(),
        }
    }

    fn spot(&self, place: Where) -> Spot {
        Spot {
            job: place.index(self.jobs),
            row: place.index(self.rows),
        }
    }

    fn row(&self, spot: Spot) -> usize {
        row_at(self.jobs, spot.row)
    }

    pub fn set(&mut self, at: usize, bytes: &[u8]) {
        patch(&mut self.file, at, bytes);
    }

    /// Does the damage that belongs to a number, to the job and the row of a place.
    pub fn strike(&mut self, prng: &mut Prng, number: u8, place: Where) {
        self.strike_at(prng, number, self.spot(place));
    }

    /// Does the damage that belongs to a number.
    pub fn strike_at(&mut self, prng: &mut Prng, number: u8, spot: Spot) {
        match number {
            refusal::VERSION => self.strike_version(prng),
            refusal::CUT_OR_LENGTH => self.strike_length(prng, spot),
            refusal::LENGTH_BYTE => self.strike_length_byte(prng, spot),
            refusal::RATES => self.strike_rates(prng),
            refusal::JOB_COUNT => self.strike_job_count(prng),
            refusal::NAME_BYTE => self.strike_name_byte(prng, spot),
            refusal::NAME_TWICE => self.strike_name_twice(prng, spot),
            refusal::GRADE => self.strike_grade(prng, spot),
            refusal::TIMES_OR_SIZE => self.strike_times_or_size(prng, spot),
            refusal::ROW_COUNT => self.strike_row_count(prng),
            refusal::NO_SUCH_JOB => self.strike_row_name(prng, spot),
            refusal::NO_SUCH_INTERVAL => self.strike_interval(prng, spot),
            refusal::NO_UNITS => self.set(self.row(spot) + UNITS_IN, &[0; 4]),
            _ => self.strike_order(prng, spot),
        }
    }

    fn strike_version(&mut self, prng: &mut Prng) {
        if prng.once_in(6) {
            self.file.clear();
        } else {
            let version = prng.pick(&[0, VERSION + 1, 0x80 + VERSION, u8::MAX]);
            self.set(0, &[version]);
        }
    }

    /// A cut, a wrong length field, a promise of more or fewer rows, or leftovers.
    fn strike_length(&mut self, prng: &mut Prng, spot: Spot) {
        let length = self.file.len();
        // Earlier damage may have left less than a head; a cut at or beyond the end then cuts nothing.
        let last = length as u64 - 1;
        match prng.below(8) {
            0 => self.file.truncate(prng.between(1, last.max(1)) as usize),
            1 => self.cut(prng.between(5, last.max(5)) as usize),
            2 => self.cut_some_field(prng, spot),
            3 => {
                let change = prng.pick(&[1, 256, 65_536, 1 << 24]);
                let wrong = (length as u32).saturating_sub(5) ^ change;
                self.set(LENGTH_AT, &wrong.to_be_bytes());
            }
            4 => self.set_row_count(self.rows + 1),
            5 => self.set_row_count(spot.row),
            _ => self.add_leftovers(prng),
        }
    }

    /// Ends the file here, with a length field that agrees.
    pub fn cut(&mut self, end: usize) {
        self.file.truncate(end);
        seal(&mut self.file);
    }

    /// Cuts a field after so many of its bytes; if a byte is given, it stands for each of them.
    pub fn cut_field(&mut self, field: Field, kept: usize, replaced: Option<u8>) {
        if let Some(byte) = replaced {
            self.set(field.at, &vec![byte; kept]);
        }
        self.cut(field.at + kept);
    }

    /// Cuts a field of the rates, of the job, of the row count or of the row.
    fn cut_some_field(&mut self, prng: &mut Prng, spot: Spot) {
        let fields = [
            rate_fields(),
            job_fields(spot.job),
            row_count_field(self.jobs),
            row_fields(self.jobs, spot.row),
        ];
        let field = prng.pick(&fields.concat());
        let replaced = prng.pick(&[None, None, Some(0), Some(u8::MAX)]);
        self.cut_field(field, prng.index(field.length), replaced);
    }

    pub fn set_row_count(&mut self, rows: usize) {
        self.set(row_count_at(self.jobs), &(rows as u16).to_be_bytes());
    }

    fn add_leftovers(&mut self, prng: &mut Prng) {
        let many = 1 + prng.index(MOST_LEFTOVERS);
        let more = prng.pick(&[1, 1, 2, ROW_BYTES, many]);
        let byte = prng.pick(&[0, VERSION, ROW_LENGTH, u8::MAX]);
        self.add(&vec![byte; more]);
    }

    /// Puts bytes after the last row, with a length field that agrees.
    pub fn add(&mut self, bytes: &[u8]) {
        self.file.extend(bytes);
        seal(&mut self.file);
    }

    /// A wrong length byte of a job or a row, or a job too many, whose length byte is the row count's.
    fn strike_length_byte(&mut self, prng: &mut Prng, spot: Spot) {
        match prng.below(5) {
            0 | 1 => {
                let wrong = prng.pick(&[0, ROW_LENGTH, JOB_LENGTH - 1, JOB_LENGTH + 1, u8::MAX]);
                self.set(job_at(spot.job), &[wrong]);
            }
            2 | 3 => {
                let wrong = prng.pick(&[0, JOB_LENGTH, ROW_LENGTH - 1, ROW_LENGTH + 1, u8::MAX]);
                self.set(self.row(spot), &[wrong]);
            }
            _ => {
                let more = (self.jobs + 1).min(MOST_JOBS);
                self.set(JOB_COUNT_AT, &[prng.pick(&[more, MOST_JOBS]) as u8]);
            }
        }
    }

    fn strike_rates(&mut self, prng: &mut Prng) {
        let pairs: [(u16, u16); 8] = [
            (2, 2),
            (2, 0),
            (0, 0),
            (1, 1),
            (1, 0),
            (1_001, 1_000),
            (500, 501),
            (u16::MAX, 1),
        ];
        let (n, d) = prng.pick(&pairs);
        self.set(RATES_AT, &n.to_be_bytes());
        self.set(RATES_AT + 2, &d.to_be_bytes());
    }

    fn strike_job_count(&mut self, prng: &mut Prng) {
        let count = prng.pick(&[0, MOST_JOBS as u8 + 1, 64, 128, u8::MAX]);
        self.set(JOB_COUNT_AT, &[count]);
    }

    fn strike_name_byte(&mut self, prng: &mut Prng, spot: Spot) {
        let byte = prng.pick(&[0, 0x20, 0x7F, 0x80, u8::MAX]);
        self.set(job_at(spot.job) + NAME_IN + prng.index(NAME_BYTES), &[byte]);
    }

    /// Gives a job the name of an earlier one; the first job has none, so the second takes its part.
    fn strike_name_twice(&mut self, prng: &mut Prng, spot: Spot) {
        if self.jobs > 1 {
            let later = spot.job.max(1);
            let from = job_at(prng.index(later)) + NAME_IN;
            let name = self.file[from..from + NAME_BYTES].to_vec();
            self.set(job_at(later) + NAME_IN, &name);
        }
    }

    fn strike_grade(&mut self, prng: &mut Prng, spot: Spot) {
        let grade = prng.pick(&[2, 3, 0x80, u8::MAX]);
        self.set(job_at(spot.job) + GRADE_IN, &[grade]);
    }

    fn strike_times_or_size(&mut self, prng: &mut Prng, spot: Spot) {
        let at = job_at(spot.job);
        let deadline = self.file[at + DEADLINE_IN..at + DEADLINE_IN + 4].to_vec();
        match prng.below(8) {
            0 => self.set(at + RELEASE_IN, &deadline),
            1 => self.set(at + RELEASE_IN, &u32::MAX.to_be_bytes()),
            2 => self.set(at + SIZE_IN, &[0; 4]),
            3 => self.set(at + SIZE_IN, &(MOST_SIZE as u32 + 1).to_be_bytes()),
            4 => self.set(at + SIZE_IN, &u32::MAX.to_be_bytes()),
            5 => self.set(at + DEADLINE_IN, &[0; 4]),
            6 => self.set(at + DEADLINE_IN, &(MOST_DEADLINE + 1).to_be_bytes()),
            _ => self.set(at + DEADLINE_IN, &u32::MAX.to_be_bytes()),
        }
    }

    /// A row count too high, or a job too few, so that a job's length byte and name begin the row count.
    fn strike_row_count(&mut self, prng: &mut Prng) {
        let above = MOST_ROWS as usize + 1;
        if self.jobs > 1 && prng.once_in(3) {
            self.set(JOB_COUNT_AT, &[1 + prng.index(self.jobs - 1) as u8]);
        } else {
            self.set_row_count(prng.pick(&[above, above + 1, 4_032, 0x8000, 0xFFFF]));
        }
    }

    /// Changes one byte of a row's name so that it is no job's, if it can.
    fn strike_row_name(&mut self, prng: &mut Prng, spot: Spot) {
        let at = self.row(spot) + NAME_IN + prng.index(NAME_BYTES);
        let byte = match prng.below(4) {
            0 => 0x20,
            1 => 0,
            2 => self.file[at] ^ 0x80,
            _ => self.file[at] ^ 0x20,
        };
        self.set(at, &[byte]);
    }

    fn strike_interval(&mut self, prng: &mut Prng, spot: Spot) {
        let intervals = self.intervals as u16;
        let wrong = prng.pick(&[
            intervals,
            intervals,
            MOST_INTERVALS as u16,
            0x0100,
            u16::MAX,
        ]);
        self.set(self.row(spot) + INTERVAL_IN, &wrong.to_be_bytes());
    }

    /// Exchanges a row with the one after, takes it back to an earlier one's place, or repeats it.
    fn strike_order(&mut self, prng: &mut Prng, spot: Spot) {
        let at = self.row(spot);
        match prng.below(3) {
            0 if spot.row + 1 < self.rows => {
                let next = self.file[at + ROW_BYTES..at + 2 * ROW_BYTES].to_vec();
                let row = self.file[at..at + ROW_BYTES].to_vec();
                self.set(at, &next);
                self.set(at + ROW_BYTES, &row);
            }
            1 if spot.row > 0 => self.take_back(spot.row, prng.index(spot.row)),
            _ => self.repeat(prng, at),
        }
    }

    /// Gives a row the name and the interval of an earlier one.
    pub fn take_back(&mut self, row: usize, earlier: usize) {
        let from = row_at(self.jobs, earlier);
        let name_and_interval = self.file[from + NAME_IN..from + UNITS_IN].to_vec();
        self.set(row_at(self.jobs, row) + NAME_IN, &name_and_interval);
    }

    /// Puts in a row once more, now and then with a fault that is found before the wrong order.
    fn repeat(&mut self, prng: &mut Prng, at: usize) {
        let mut row = self.file[at..at + ROW_BYTES].to_vec();
        match prng.below(8) {
            0 | 1 => patch(&mut row, UNITS_IN, &[0; 4]),
            2 => patch(
                &mut row,
                INTERVAL_IN,
                &(self.intervals as u16).to_be_bytes(),
            ),
            3 => patch(&mut row, UNITS_IN, &u32::MAX.to_be_bytes()),
            _ => (),
        }
        let tail = self.file.split_off(at + ROW_BYTES);
        self.file.extend(row);
        self.file.extend(tail);
        self.rows += 1;
        self.set_row_count(self.rows);
        seal(&mut self.file);
    }
}

/// An accepted plan with three rows at least, so that a first, a middle and a last one exist.
pub fn sound_base(prng: &mut Prng, limits: &Limits) -> Draft {
    let mut draft = small_base(prng, limits);
    for _ in 0..TRIES {
        if draft.rows() >= 3 {
            break;
        }
        draft = small_base(prng, limits);
    }
    draft
}

fn small_base(prng: &mut Prng, limits: &Limits) -> Draft {
    let jobs = prng.between(3, 6) as usize;
    let boundaries = prng.between(2, 2 * jobs as u64) as usize;
    accepted_of(prng, limits, jobs, boundaries)
}

/// Mostly a plan with three rows at least, now and then one of any size.
fn any_base(prng: &mut Prng, limits: &Limits) -> Draft {
    if prng.once_in(4) {
        accepted(prng, limits)
    } else {
        sound_base(prng, limits)
    }
}

/// A file with one fault of a number.
pub fn damaged(prng: &mut Prng, limits: &Limits, number: u8, place: Where) -> Vec<u8> {
    let mut damage = Damage::new(&any_base(prng, limits));
    damage.strike(prng, number, place);
    damage.file
}

/// A file that ends in a field, with a length field that agrees.
pub fn cut_in_field(prng: &mut Prng, limits: &Limits, place: Where) -> Vec<u8> {
    let mut damage = Damage::new(&any_base(prng, limits));
    damage.cut_some_field(prng, damage.spot(place));
    damage.file
}

/// A file with faults of two numbers at two places.
pub fn damaged_twice(
    prng: &mut Prng,
    limits: &Limits,
    numbers: (u8, u8),
    places: (Where, Where),
) -> Vec<u8> {
    let mut damage = Damage::new(&any_base(prng, limits));
    // The greater number first: a cut or an emptied file must not go before other damage.
    damage.strike(prng, numbers.0.max(numbers.1), places.0);
    damage.strike(prng, numbers.0.min(numbers.1), places.1);
    damage.file
}

/// Random bytes after a head that is right, or not even that.
pub fn random_bytes(prng: &mut Prng) -> Vec<u8> {
    let length = prng.below(120) as usize;
    let mut file: Vec<u8> = (0..length).map(|_| prng.below(256) as u8).collect();
    let style = prng.below(4);
    if style > 0 {
        patch(&mut file, 0, &[VERSION]);
        seal(&mut file);
    }
    if style > 1 {
        patch(&mut file, RATES_AT, &[0, 2, 0, 1, 1, JOB_LENGTH]);
    }
    if style > 2 {
        let job = job_at(0);
        patch(&mut file, job + NAME_IN, b"only-job");
        patch(
            &mut file,
            job + GRADE_IN,
            &[1, 0, 0, 0, 0, 0, 0, 0, 9, 0, 0, 0, 9, 0, 2],
        );
    }
    file
}

/// A file with a few bytes replaced by random ones.
pub fn sprinkled(prng: &mut Prng, limits: &Limits) -> Vec<u8> {
    let mut file = sound_base(prng, limits).file();
    for _ in 0..prng.between(1, 3) {
        let at = prng.index(file.len());
        file[at] = match prng.below(3) {
            0 => file[at] ^ (1 << prng.below(8)),
            _ => prng.below(256) as u8,
        };
    }
    file
}

#[cfg(test)]
mod tests {
    //! Damage on top of damage.

    use super::super::draft::SMALL;
    use super::super::prng::Purpose;
    use super::*;

    #[test]
    fn length_can_be_struck_twice() {
        let numbers = (refusal::CUT_OR_LENGTH, refusal::CUT_OR_LENGTH);
        for input in 0..5_000 {
            let mut prng = Prng::new(1, Purpose::File, input);
            let places = (Where::First, Where::Last);
            let file = damaged_twice(&mut prng, &SMALL, numbers, places);
            assert!(!file.is_empty());
        }
    }
}
