//! Time and amperes: Reals of 32 bits as bit patterns, and counts.
//!
//! No machine float arithmetic is done here: a pattern is taken apart into
//! sign, exponent and fraction, and put together again.

mod arithmetic;

pub use arithmetic::{add, divide, multiply, subtract};

/// A Real of 32 bits as its bit pattern.
pub type Real = u32;

const SIGN: u32 = 0x8000_0000;
const MAGNITUDE: u32 = 0x7FFF_FFFF;
const INFINITY: Real = 0x7F80_0000;
const FRACTION: u32 = 0x007F_FFFF;
const HIDDEN_BIT: u32 = 0x0080_0000;
const FRACTION_BITS: u32 = 23;
const BIAS: u32 = 127;

/// How a NaN reads.
pub const NAN: Real = 0x7FC0_0000;
pub const ZERO: Real = 0;
/// 0.1, the limit of an internal short circuit.
pub const ONE_TENTH: Real = 0x3DCC_CCCD;
pub const ONE: Real = 0x3F80_0000;
pub const TWO: Real = 0x4000_0000;
/// 8388608, the end of the timers.
pub const TIMER_END: Real = 0x4B00_0000;
/// −8388608.
pub const MINUS_TIMER_END: Real = 0xCB00_0000;
/// 536870912, the end of OperatingTime.
pub const OPERATING_END: Real = 0x4E00_0000;

/// "Timer counts are in 1/256 s": binary places of a timer count.
const TIMER_PLACES: u32 = 8;
/// "operating counts in 1/8 s": binary places of an operating count.
const OPERATING_PLACES: u32 = 3;
/// A significand has one bit less than these: where so many are dropped, or
/// more, it is below half a unit.
const ALL_BELOW_HALF: u32 = FRACTION_BITS + 2;

pub fn is_nan(real: Real) -> bool {
    real & MAGNITUDE > INFINITY
}

pub fn is_finite(real: Real) -> bool {
    real & MAGNITUDE < INFINITY
}

/// A NaN reads as $7FC00000, every other Real as it stands.
pub fn as_read(real: Real) -> Real {
    if is_nan(real) {
        NAN
    } else {
        real
    }
}

/// The place of a Real on the line, −0 and 0 sharing one; none for a NaN.
fn place(real: Real) -> Option<i64> {
    let magnitude = i64::from(real & MAGNITUDE);
    match (is_nan(real), is_negative(real)) {
        (true, _) => None,
        (false, true) => Some(-magnitude),
        (false, false) => Some(magnitude),
    }
}

fn is_negative(real: Real) -> bool {
    real & SIGN != 0
}

/// Whether `left` < `right`; FALSE where either is a NaN.
pub fn less(left: Real, right: Real) -> bool {
    match (place(left), place(right)) {
        (Some(left), Some(right)) => left < right,
        _ => false,
    }
}

/// Whether `left` > `right`; FALSE where either is a NaN.
pub fn greater(left: Real, right: Real) -> bool {
    less(right, left)
}

/// Whether two Reals are the same number; −0 equals 0, a NaN nothing.
pub fn equal(left: Real, right: Real) -> bool {
    place(left).is_some() && place(left) == place(right)
}

/// Finite, and from `low` up to, not including, `end`; "−0 tests as 0".
fn is_from_up_to(real: Real, low: Real, end: Real) -> bool {
    is_finite(real) && !less(real, low) && less(real, end)
}

/// "OutTimer and FBTimer allow −8388608 up to, not including, 8388608".
pub fn is_timer(real: Real) -> bool {
    is_from_up_to(real, MINUS_TIMER_END, TIMER_END)
}

/// "WDTimer and the presets the same from 0".
pub fn is_preset(real: Real) -> bool {
    is_from_up_to(real, ZERO, TIMER_END)
}

/// "OperatingTime 0 up to, not including, 536870912".
pub fn is_operating(real: Real) -> bool {
    is_from_up_to(real, ZERO, OPERATING_END)
}

/// "MinCurrent and MaxCurrent allow 0 to 1."
pub fn is_limit(real: Real) -> bool {
    is_finite(real) && !less(real, ZERO) && !greater(real, ONE)
}

/// The magnitude of a finite Real in units of 2^-`places`. Change 5: "the
/// nearest count, ties to the even one".
fn nearest_units(real: Real, places: u32) -> u128 {
    let exponent = (real & INFINITY) >> FRACTION_BITS;
    let fraction = u128::from(real & FRACTION);
    let significand = match exponent {
        0 => fraction,
        _ => fraction | u128::from(HIDDEN_BIT),
    };
    // The value is significand * 2^(up - down).
    let up = exponent.max(1) + places;
    let down = BIAS + FRACTION_BITS;
    if up >= down {
        significand << (up - down)
    } else {
        drop_bits_to_even(significand, (down - up).min(ALL_BELOW_HALF))
    }
}

/// Change 5: "A Real time written becomes the nearest count, ties to the even
/// one". Ties lie alike on both sides of 0: −1.5 counts become −2, −0.5 become
/// 0. The Real is one that [`is_timer`] allows: "Ranges are tested before
/// rounding; no Real inside them rounds past the largest count."
pub fn to_timer_count(real: Real) -> i32 {
    let units = nearest_units(real, TIMER_PLACES) as i64;
    let count = if is_negative(real) { -units } else { units };
    count as i32
}

/// Change 5: "the operating time likewise". The Real is one that
/// [`is_operating`] allows.
pub fn to_operating_count(real: Real) -> u32 {
    nearest_units(real, OPERATING_PLACES) as u32
}

/// "A count read becomes the nearest 32-bit Real, ties to the even last bit."
fn nearest_real(units: u32, places: u32) -> Real {
    if units == 0 {
        return ZERO;
    }
    let top = units.ilog2();
    let exponent = BIAS + top - places;
    let significand = if top <= FRACTION_BITS {
        units << (FRACTION_BITS - top)
    } else {
        drop_bits_to_even(u128::from(units), top - FRACTION_BITS) as u32
    };
    // The hidden bit, and a carry out of the fraction, raise the exponent.
    ((exponent - 1) << FRACTION_BITS) + significand
}

/// `units` without its last `bits` bits (at least one), rounded to nearest.
fn drop_bits_to_even(units: u128, bits: u32) -> u128 {
    let kept = units >> bits;
    let rest = units & ((1 << bits) - 1);
    let half = 1 << (bits - 1);
    let round_up = rest > half || (rest == half && kept & 1 == 1);
    kept + u128::from(round_up)
}

/// A timer count, in 1/256 s, as it reads.
pub fn from_timer_count(count: i32) -> Real {
    let sign = if count < 0 { SIGN } else { 0 };
    sign | nearest_real(count.unsigned_abs(), TIMER_PLACES)
}

/// An operating count, in 1/8 s, as it reads.
pub fn from_operating_count(count: u32) -> Real {
    nearest_real(count, OPERATING_PLACES)
}

#[cfg(test)]
mod tests;
