//! The refusal numbers under their names, and a refusal together with its places.

/// Not a refusal: the answer of a call that did its work.
pub const DONE: u8 = 0;

pub const VERSION: u8 = 1;
pub const CUT_OR_LENGTH: u8 = 2;
pub const LENGTH_BYTE: u8 = 3;
pub const RATES: u8 = 4;
pub const JOB_COUNT: u8 = 5;
pub const NAME_BYTE: u8 = 6;
pub const NAME_TWICE: u8 = 7;
pub const GRADE: u8 = 8;
pub const TIMES_OR_SIZE: u8 = 9;
pub const ROW_COUNT: u8 = 10;
pub const NO_SUCH_JOB: u8 = 11;
pub const NO_SUCH_INTERVAL: u8 = 12;
pub const NO_UNITS: u8 = 13;
pub const ROW_ORDER: u8 = 14;
pub const OUTSIDE_WINDOW: u8 = 15;
pub const NOT_THE_SIZE: u8 = 16;
pub const ABOVE_RATE: u8 = 17;
pub const FLOOR_RULE: u8 = 18;
pub const AT_LAST_DEADLINE: u8 = 19;
pub const SPEED: u8 = 20;
pub const UNSOUND: u8 = 21;
pub const TOO_SHORT: u8 = 22;
pub const LINE: u8 = 23;
pub const HEADER: u8 = 24;
pub const NO_SUCH_POSITION: u8 = 25;
pub const CANNOT_END: u8 = 26;
pub const TOO_MANY_SPEEDS: u8 = 27;
pub const RELEASES_DIFFER: u8 = 28;
pub const NO_TIMETABLE: u8 = 29;
pub const NOT_FINITE: u8 = 30;
pub const LOWEST_RATE: u8 = 31;

/// A refusal with its places, listed in the order in which they are named.
///
/// Outside its window: job, interval. Not the size: job. Above the rate: interval.
/// Floor rule: interval, deadline. All other numbers have no place.
#[derive(Clone, Debug, PartialEq, Eq)]
pub struct Refusal {
    pub number: u8,
    pub places: Vec<u64>,
}

impl Refusal {
    pub fn without_place(number: u8) -> Refusal {
        Refusal {
            number,
            places: Vec::new(),
        }
    }

    pub fn at(number: u8, places: &[u64]) -> Refusal {
        Refusal {
            number,
            places: places.to_vec(),
        }
    }
}
