//! The two calls on readings of the line meter, by the archive and by the wrapper.

use reference::generate::{LogInput, Prng, ReadingInput};
use reference::meter::read_log;
use reference::refusal::{DONE, TOO_SHORT};

use crate::both::{Both, Difference};
use crate::buffer::Buffer;
use crate::memory::Metering;
use crate::shorts::too_few;
use crate::wrapper;

/// Places in a list beyond those that a log's speeds need.
const SPARE: [usize; 3] = [0, 1, 5];
/// Where the first reading of a log begins, and how many bytes each has.
const FIRST_AT: usize = 5;
const READING_BYTES: usize = 17;
/// Where the bits of both floats stand in a reading.
const MEAN_IN: usize = 1;
const LOWEST_IN: usize = 9;

/// What the reference's log reader answers to an input.
pub fn answer(input: &LogInput) -> u8 {
    let read = read_log(&input.log, input.n, &mut vec![0; input.list]);
    read.map_or_else(|refusal| refusal.number, |_| DONE)
}

/// The speed of a reading.
pub fn on_reading(both: &mut Both, input: &ReadingInput) -> Result<(), Difference> {
    let mut speed = Buffer::known("speed", 1);
    let number = both.speed(input, &mut speed)?;
    wrapper::speed(both, input, number, &speed)
}

/// Reads a log into a list as it is lent with it. If nothing else is against the log, then also into
/// just as many places as it needs, into too few and into more, and one of its readings by itself.
pub fn on_log(both: &mut Both, prng: &mut Prng, input: &LogInput) -> Result<(), Difference> {
    let mut lent = Metering::of(input);
    let number = both.speeds(&mut lent)?;
    wrapper::speeds(both, number, &lent)?;
    if number != u32::from(DONE) && number != u32::from(TOO_SHORT) {
        return Ok(());
    }
    let exact = (input.log.len() - FIRST_AT) / READING_BYTES;
    lent = Metering::of(&LogInput {
        list: exact + prng.pick(&SPARE),
        ..input.clone()
    });
    for places in [exact, too_few(prng, exact.max(1)), lent.speeds.lent()] {
        lent.speeds.lend(places);
        let number = both.speeds(&mut lent)?;
        wrapper::speeds(both, number, &lent)?;
    }
    if exact > 0 {
        singly(both, &lent, prng.index(exact))?;
    }
    Ok(())
}

/// The speed of one of a log's readings, which has to be the one that was read.
fn singly(both: &mut Both, lent: &Metering, position: usize) -> Result<(), Difference> {
    let begins = FIRST_AT + READING_BYTES * position;
    let bits = |at: usize| {
        let bytes = &lent.log.contents()[begins + at..][..8];
        u64::from_be_bytes(bytes.try_into().expect("eight bytes"))
    };
    let input = ReadingInput {
        mean: bits(MEAN_IN),
        lowest: bits(LOWEST_IN),
        n: lent.n,
    };
    let mut speed = Buffer::known("speed", 1);
    both.speed(&input, &mut speed)?;
    both.agree_of_log(speed.contents()[0], lent.speeds.contents()[position])
}
