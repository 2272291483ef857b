//! Splitmix64: small, and the same words on every machine.

use std::ops::RangeInclusive;

pub struct Random(u64);

impl Random {
    pub fn new(seed: u64) -> Random {
        Random(seed)
    }

    pub fn word(&mut self) -> u32 {
        self.0 = self.0.wrapping_add(0x9e37_79b9_7f4a_7c15);
        let mut mixed = self.0;
        mixed = (mixed ^ mixed >> 30).wrapping_mul(0xbf58_476d_1ce4_e5b9);
        mixed = (mixed ^ mixed >> 27).wrapping_mul(0x94d0_49bb_1331_11eb);
        ((mixed ^ mixed >> 31) >> 32) as u32
    }

    /// A number in the range; that some come up a little oftener is no harm.
    pub fn within(&mut self, range: RangeInclusive<u32>) -> u32 {
        let size = u64::from(range.end() - range.start()) + 1;
        range.start() + (u64::from(self.word()) % size) as u32
    }

    /// Bits of a Real without a sign, with its exponent field in the range.
    pub fn real(&mut self, exponents: RangeInclusive<u32>) -> u32 {
        self.within(exponents) << 23 | self.word() >> 9
    }

    /// A number of exactly `width` bits.
    pub fn of_width(&mut self, width: u32) -> u32 {
        (self.word() | 1 << 31) >> (32 - width)
    }
}
