//! Change 1: "each operation rounded once". Sum, difference, product and
//! quotient of Reals, each the nearest Real to the exact result, ties to the
//! even last bit. Subnormals stand, an overflow is an infinity, and every NaN
//! is $7FC00000.

use super::{drop_bits_to_even, is_finite, is_nan, is_negative, Real};
use super::{FRACTION, FRACTION_BITS, HIDDEN_BIT, INFINITY, MAGNITUDE, NAN, SIGN, ZERO};

/// The bits of a significand.
const SIGNIFICAND_BITS: i32 = 24;
/// The exponent of the last bit of the smallest Reals.
const LOWEST: i32 = -149;
/// Past so many places, the smaller part of a sum is far below half a last
/// bit of the larger.
const FAR: i32 = 64;

/// A finite Real taken apart: its magnitude is significand * 2^exponent.
struct Parts {
    significand: i128,
    exponent: i32,
}

impl Parts {
    fn of(real: Real) -> Parts {
        let exponent = ((real & INFINITY) >> FRACTION_BITS) as i32;
        let hidden = if exponent == 0 { 0 } else { HIDDEN_BIT };
        Parts {
            significand: i128::from(real & FRACTION | hidden),
            exponent: exponent.max(1) - 1 + LOWEST,
        }
    }
}

pub fn add(left: Real, right: Real) -> Real {
    if is_nan(left) || is_nan(right) {
        return NAN;
    }
    match (is_finite(left), is_finite(right)) {
        (true, true) => add_finite(left, right),
        (false, true) => left,
        (true, false) => right,
        (false, false) if left == right => left,
        (false, false) => NAN,
    }
}

pub fn subtract(left: Real, right: Real) -> Real {
    add(left, right ^ SIGN)
}

fn add_finite(left: Real, right: Real) -> Real {
    let (low, high) = if Parts::of(left).exponent < Parts::of(right).exponent {
        (left, right)
    } else {
        (right, left)
    };
    let (low_parts, high_parts) = (Parts::of(low), Parts::of(high));
    let apart = high_parts.exponent - low_parts.exponent;
    if apart > FAR {
        return high;
    }
    let sum = signed(high, high_parts.significand << apart) + signed(low, low_parts.significand);
    if sum == 0 {
        // Only −0 and −0 make −0.
        return left & right & SIGN;
    }
    let sign = if sum < 0 { SIGN } else { ZERO };
    rounded(sign, sum.unsigned_abs(), low_parts.exponent)
}

fn signed(real: Real, magnitude: i128) -> i128 {
    if is_negative(real) {
        -magnitude
    } else {
        magnitude
    }
}

pub fn multiply(left: Real, right: Real) -> Real {
    let sign = (left ^ right) & SIGN;
    if is_nan(left) || is_nan(right) {
        return NAN;
    }
    if !is_finite(left) || !is_finite(right) {
        let with_zero = is_zero(left) || is_zero(right);
        return if with_zero { NAN } else { sign | INFINITY };
    }
    let (left, right) = (Parts::of(left), Parts::of(right));
    let product = left.significand * right.significand;
    rounded(sign, product as u128, left.exponent + right.exponent)
}

pub fn divide(left: Real, right: Real) -> Real {
    let sign = (left ^ right) & SIGN;
    if is_nan(left) || is_nan(right) {
        return NAN;
    }
    match (is_finite(left), is_finite(right)) {
        (false, false) => return NAN,
        (false, true) => return sign | INFINITY,
        (true, false) => return sign,
        (true, true) if !is_zero(right) => {}
        (true, true) => return if is_zero(left) { NAN } else { sign | INFINITY },
    }
    let (left, right) = (Parts::of(left), Parts::of(right));
    // 64 more places leave over 40 bits of a quotient that is not 0; what
    // remains after them only shows that it is not exact.
    let dividend = left.significand << FAR;
    let rest = i128::from(dividend % right.significand != 0);
    let quotient = (dividend / right.significand) | rest;
    rounded(sign, quotient as u128, left.exponent - right.exponent - FAR)
}

fn is_zero(real: Real) -> bool {
    real & MAGNITUDE == 0
}

/// The Real nearest to units * 2^exponent, ties to the even last bit.
fn rounded(sign: Real, units: u128, exponent: i32) -> Real {
    if units == 0 {
        return sign;
    }
    let bits = (u128::BITS - units.leading_zeros()) as i32;
    let dropped = (bits - SIGNIFICAND_BITS).max(LOWEST - exponent);
    let significand = if dropped <= 0 {
        units << -dropped
    } else if dropped > bits {
        0
    } else {
        drop_bits_to_even(units, dropped as u32)
    };
    // The hidden bit, and a carry out of the fraction, raise the exponent.
    let raised = (exponent + dropped - LOWEST) as u128;
    let magnitude = (raised << FRACTION_BITS) + significand;
    sign | magnitude.min(u128::from(INFINITY)) as u32
}

#[cfg(test)]
mod tests;
