//! The 32-bit Real taken apart and found again, in whole numbers only.

use std::cmp::Ordering;

pub const SIGN: u32 = 0x8000_0000;
pub const INFINITY: u32 = 0x7f80_0000;
pub const QUIET_NAN: u32 = 0x7fc0_0000;

/// A finite Real: significand times 2^exponent, with its sign apart.
pub struct Finite {
    pub negative: bool,
    significand: u128,
    exponent: i32,
}

pub fn is_nan(bits: u32) -> bool {
    bits & !SIGN > INFINITY
}

impl Finite {
    /// Nothing for a NaN or an infinity.
    pub fn from_bits(bits: u32) -> Option<Finite> {
        let fraction = u128::from(bits & 0x007f_ffff);
        let (significand, exponent) = match bits >> 23 & 0xff {
            0xff => return None,
            0 => (fraction, -149),
            field => (fraction + (1 << 23), field as i32 - 150),
        };
        Some(Finite {
            negative: bits & SIGN != 0,
            significand,
            exponent,
        })
    }

    /// The magnitude counted in units of 1/`per_one`: the whole units, and
    /// whether a rest is left beyond them.
    pub fn units(&self, per_one: u128) -> (u128, bool) {
        let product = self.significand * per_one;
        let shift = self.exponent.unsigned_abs();
        if self.exponent >= 0 {
            assert!(shift <= product.leading_zeros(), "the units do not fit");
            return (product << shift, false);
        }
        let whole = product.checked_shr(shift).unwrap_or(0);
        let rest = whole.checked_shl(shift).unwrap_or(0) != product;
        (whole, rest)
    }

    /// How the magnitude stands to `count` units of 1/`per_one`.
    fn magnitude_to(&self, count: u128, per_one: u128) -> Ordering {
        let (whole, rest) = self.units(per_one);
        whole.cmp(&count).then(rest.cmp(&false))
    }

    /// The count of units of 1/`per_one` nearest to the magnitude; a tie goes to
    /// the even count.
    ///
    /// Found by the meaning of the word: the magnitude lies between two counts,
    /// and is nearer to the lower one where magnitude - below < above -
    /// magnitude, that is where twice the magnitude is less than their sum.
    pub fn nearest_count(&self, per_one: u128) -> u128 {
        let (below, rest) = self.units(per_one);
        if !rest {
            return below;
        }
        let above = below + 1;
        match self.magnitude_to(below + above, 2 * per_one) {
            Ordering::Less => below,
            Ordering::Greater => above,
            Ordering::Equal => below + below % 2,
        }
    }

    /// Value < bound, for a bound above 0.
    pub fn is_below(&self, bound: u128) -> bool {
        self.negative || self.magnitude_to(bound, 1).is_lt()
    }

    /// Value <= bound.
    pub fn is_at_most(&self, bound: u128) -> bool {
        self.negative || self.magnitude_to(bound, 1).is_le()
    }

    /// Value >= -bound; with bound 0 this lets -0 in, as it should.
    pub fn is_at_least_minus(&self, bound: u128) -> bool {
        !self.negative || self.magnitude_to(bound, 1).is_le()
    }
}

/// The bits of the Real nearest to `count` units of 1/`per_one`, for counts
/// below 2^33; a tie goes to the even last bit.
///
/// Found by the meaning of the word: search the greatest Real that is not
/// above the count, then compare the distances to it and to the next one.
pub fn nearest(count: u128, per_one: u128) -> u32 {
    const TWO_TO_33: u32 = 0x5000_0000;
    let finite = |bits| Finite::from_bits(bits).expect("below the infinity");
    // Patterns without a sign stand in the order of their values.
    let (mut low, mut high) = (0, TWO_TO_33);
    while high - low > 1 {
        let middle = low + (high - low) / 2;
        if finite(middle).magnitude_to(count, per_one).is_gt() {
            high = middle;
        } else {
            low = middle;
        }
    }
    if finite(low).magnitude_to(count, per_one).is_eq() {
        return low;
    }
    // A count that is no Real has over 24 bits, so both sides are whole counts.
    let (below, below_rest) = finite(low).units(per_one);
    let (above, above_rest) = finite(high).units(per_one);
    assert!(!below_rest && !above_rest);
    match (count - below).cmp(&(above - count)) {
        Ordering::Less => low,
        Ordering::Greater => high,
        Ordering::Equal => low + (low & 1),
    }
}
