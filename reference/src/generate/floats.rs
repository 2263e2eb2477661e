//! Makes floats of every kind as their bits: around whole numbers, tiny, huge, below zero, not finite.

use super::prng::Prng;
use crate::edition::MOST_RATE;

pub const SIGN: u64 = 1 << 63;
/// The bits of a float's fraction.
const FRACTION: u64 = (1 << 52) - 1;
/// The least of the normal floats above zero; those below it are the subnormal ones.
pub const LEAST_NORMAL: u64 = 1 << 52;
/// The greatest finite float.
pub const GREATEST: u64 = INFINITY - 1;
pub const INFINITY: u64 = 0x7FF << 52;
/// The bit of the fraction by which a NaN is a quiet one.
const QUIET: u64 = 1 << 51;
/// A quiet NaN, one that is not quiet, and one of all ones.
pub const NANS: [u64; 3] = [INFINITY | QUIET, INFINITY | 1, INFINITY | FRACTION];

pub fn whole(k: u16) -> u64 {
    f64::from(k).to_bits()
}

pub fn is_zero(bits: u64) -> bool {
    bits & !SIGN == 0
}

/// The next float above a finite one.
pub fn next_up(bits: u64) -> u64 {
    if is_zero(bits) {
        1
    } else if bits & SIGN == 0 {
        bits + 1
    } else {
        bits - 1
    }
}

/// The next float below a finite one.
pub fn next_down(bits: u64) -> u64 {
    next_up(bits ^ SIGN) ^ SIGN
}

/// A finite float that is not below zero, most often near a speed that the rate allows or near the rate.
pub fn not_below_zero(prng: &mut Prng, n: u16) -> u64 {
    match prng.below(12) {
        0 => prng.pick(&[0, SIGN]),
        1 => tiny(prng),
        2 => huge(prng),
        // Any exponent is as likely as any other.
        3 => prng.below(INFINITY),
        _ => near_speed(prng, n),
    }
}

/// A finite float below zero.
pub fn below_zero(prng: &mut Prng, n: u16) -> u64 {
    let bits = not_below_zero(prng, n) | SIGN;
    if is_zero(bits) {
        next_down(bits)
    } else {
        bits
    }
}

/// An infinity or a NaN, of either sign.
pub fn not_finite(prng: &mut Prng) -> u64 {
    let payload = prng.word() & FRACTION;
    let nan = prng.pick(&NANS);
    prng.pick(&[INFINITY, nan, INFINITY | payload]) | prng.pick(&[0, SIGN])
}

/// A float of any kind.
pub fn any(prng: &mut Prng, n: u16) -> u64 {
    match prng.below(5) {
        0 => below_zero(prng, n),
        1 => not_finite(prng),
        2 => prng.word(),
        _ => not_below_zero(prng, n),
    }
}

/// A whole number up to one above the highest rate, its neighbours, and what lies between.
fn near_speed(prng: &mut Prng, n: u16) -> u64 {
    let most = u64::from(MOST_RATE) + 1;
    let k = match prng.below(4) {
        0 => n.min(MOST_RATE) - prng.pick(&[0, 0, 1]).min(n),
        1 => n.min(MOST_RATE) + 1,
        2 => prng.between(0, u64::from(n).min(most)) as u16,
        _ => prng.between(0, most) as u16,
    };
    match prng.below(6) {
        0 => whole(k),
        1 => next_up(whole(k)),
        2 if k > 0 => next_down(whole(k)),
        3 => (f64::from(k) + 0.5).to_bits(),
        4 => next_down(whole(k + 1)),
        _ => {
            let share = prng.below(1 << 32) as f64 / (1_u64 << 32) as f64;
            (f64::from(k) + share).to_bits()
        }
    }
}

/// The subnormal floats and the least normal ones.
fn tiny(prng: &mut Prng) -> u64 {
    let any = prng.between(1, FRACTION);
    prng.pick(&[1, 2, any, any, LEAST_NORMAL - 1, LEAST_NORMAL])
}

/// Floats far above every rate, some of which are a small number in fewer bits.
fn huge(prng: &mut Prng) -> u64 {
    let small = prng.below(4);
    let wide = prng.pick(&[1 << 8, 1 << 16, 1 << 32, 1 << 52]);
    let power = prng.between(11, 1_023);
    match prng.below(4) {
        0 | 1 => ((wide + small) as f64).to_bits(),
        2 => 2_f64.powi(power as i32).to_bits(),
        _ => GREATEST - small,
    }
}
