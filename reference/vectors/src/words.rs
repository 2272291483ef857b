//! Which words are tried.

use std::collections::HashSet;
use std::ops::RangeInclusive;

use crate::kinds::Inputs;
use crate::random::Random;
use crate::real::{nearest, Finite, INFINITY, QUIET_NAN, SIGN};
use crate::results::{OPERATING_UNITS, TIMER_UNITS};

/// 0.1 s to 1.0 s, each as the Real nearest to it.
pub const TYPED: [u32; 10] = [
    0x3dcc_cccd,
    0x3e4c_cccd,
    0x3e99_999a,
    0x3ecc_cccd,
    0x3f00_0000,
    0x3f19_999a,
    0x3f33_3333,
    0x3f4c_cccd,
    0x3f66_6666,
    0x3f80_0000,
];

/// The chosen words in the order of their first choice, none twice.
struct Words {
    list: Vec<u32>,
    seen: HashSet<u32>,
    random: Random,
}

pub fn words(inputs: &Inputs, seed: u64) -> Vec<u32> {
    let mut words = Words {
        list: Vec::new(),
        seen: HashSet::new(),
        random: Random::new(seed),
    };
    match inputs.clone() {
        Inputs::Real {
            both_signs,
            exponents,
            units,
        } => words.reals(both_signs, exponents, units),
        Inputs::TimerCount => words.timer_counts(),
        Inputs::OperatingCount => words.operating_counts(),
        Inputs::StepCount => words.step_counts(),
        Inputs::BytePair => words.byte_pairs(),
    }
    words.list
}

impl Words {
    fn add(&mut self, word: u32) {
        if self.seen.insert(word) {
            self.list.push(word);
        }
    }

    fn add_both_signs(&mut self, bits: u32) {
        self.add(bits);
        self.add(bits ^ SIGN);
    }

    /// The word and all within `reach` of it, going round the ends.
    fn add_around(&mut self, word: u32, reach: i32) {
        for offset in -reach..=reach {
            self.add(word.wrapping_add(offset as u32));
        }
    }

    fn reals(&mut self, both_signs: bool, exponents: RangeInclusive<u32>, units: Option<u128>) {
        self.real_landmarks();
        self.real_powers_of_two();
        let signs: &[u32] = if both_signs { &[0, SIGN] } else { &[0] };
        for &sign in signs {
            self.reals_beside_counts(sign);
        }
        if let Some(units) = units {
            self.rounded_times(units);
        }
        for turn in 0..10 {
            let sign = signs[turn % signs.len()];
            for timer in [true, false] {
                let fine = self.real_finer_than_counts(timer);
                self.add(fine | sign);
                let in_range = self.random.real(exponents.clone());
                self.add(in_range | sign);
            }
        }
        for _ in 0..12 {
            let any = self.random.word();
            self.add(any);
        }
    }

    /// Table rows, zeros, ends of ranges, subnormals, infinities and NaNs.
    fn real_landmarks(&mut self) {
        for row in [0x3f80_0000, 0x3b80_0000, 0x4b00_0000, 0xcb00_0000] {
            self.add(row);
        }
        for read_row in [0xbb80_0000, 0x4aff_ffff] {
            self.add(read_row);
        }
        for subnormal in [0, 1, 2, 0x0001_2345, 0x003f_ffff, 0x0040_0000, 0x007f_ffff] {
            self.add_both_signs(subnormal);
        }
        for end in [8_388_608, 536_870_912, 1, 2] {
            let bits = nearest(end, 1);
            for beside in [bits - 1, bits, bits + 1] {
                self.add_both_signs(beside);
            }
        }
        self.add_both_signs(INFINITY);
        let signalling = [INFINITY + 1, QUIET_NAN - 1];
        let quiet = [QUIET_NAN, QUIET_NAN + 1, 0x7fff_ffff];
        for nan in signalling.into_iter().chain(quiet) {
            self.add_both_signs(nan);
        }
    }

    /// Every normal power of two with the patterns beside it.
    fn real_powers_of_two(&mut self) {
        for exponent in 1..=254 {
            let power = exponent << 23;
            for bits in [power - 1, power, power + 1] {
                self.add_both_signs(bits);
            }
        }
    }

    /// Whole counts, the Reals one pattern off, and quarters of a count off.
    fn reals_beside_counts(&mut self, sign: u32) {
        for units in [TIMER_UNITS, OPERATING_UNITS] {
            for count in [3, 257, 1_000_003] {
                let whole = nearest(count, units);
                let quarter = nearest(4 * count + 1, 4 * units);
                let three_quarters = nearest(4 * count + 3, 4 * units);
                for bits in [whole - 1, whole, whole + 1, quarter, three_quarters] {
                    self.add(bits | sign);
                }
            }
        }
    }

    /// Below 0 too where that is refused: the range is tested before rounding.
    fn rounded_times(&mut self, units: u128) {
        for sign in [0, SIGN] {
            self.real_ties(sign, units);
            self.typed_times(sign);
        }
    }

    /// Half way between two counts, even and odd ones below, with the patterns
    /// beside each: the smallest, the largest that a Real can hold, and two of
    /// every width between.
    fn real_ties(&mut self, sign: u32, units: u128) {
        // Twice a tie is an odd number, of which a Real holds 24 bits.
        let largest = (1 << 23) - 1;
        let mut below: Vec<u32> = (0..16).chain(largest - 3..=largest).collect();
        for width in 5..=23 {
            let count = self.random.of_width(width);
            below.extend([count & !1, count | 1]);
        }
        for count in below {
            let tie = nearest(u128::from(2 * count + 1), 2 * units);
            self.add_three(tie, sign);
        }
    }

    /// Times as an installer types them, with the patterns beside each.
    fn typed_times(&mut self, sign: u32) {
        for bits in TYPED {
            self.add_three(bits, sign);
        }
    }

    /// A pattern and the two beside it, with a sign.
    fn add_three(&mut self, bits: u32, sign: u32) {
        for beside in [bits - 1, bits, bits + 1] {
            self.add(beside | sign);
        }
    }

    /// An odd significand of 24 bits whose last bit is worth less than a count.
    fn real_finer_than_counts(&mut self, timer: bool) -> u32 {
        // Below 2^15 s the last bit is finer than 1/256 s, below 2^20 s than 1/8 s.
        let (exponents, units) = if timer {
            (119..=141, TIMER_UNITS)
        } else {
            (124..=146, OPERATING_UNITS)
        };
        let bits = self.random.real(exponents) | 1;
        let rest_left = Finite::from_bits(bits).map_or(false, |real| real.units(units).1);
        assert!(rest_left, "{bits:08x} is a whole count");
        bits
    }

    fn timer_counts(&mut self) {
        for table_row in [0xffff_ffff, 2_147_483_520, 2_147_483_584] {
            self.add(table_row);
        }
        for magnitude in self.count_magnitudes(31) {
            self.add(magnitude);
            self.add(magnitude.wrapping_neg());
        }
        self.add_around(SIGN, 3);
    }

    fn operating_counts(&mut self) {
        for magnitude in self.count_magnitudes(32) {
            self.add(magnitude);
        }
    }

    /// Counts of at most `widest` bits, at and around the points of rounding.
    fn count_magnitudes(&mut self, widest: u32) -> Vec<u32> {
        let mut magnitudes = vec![0];
        let highest = u32::MAX >> (32 - widest);
        for power in (0..=widest).map(|exponent| 1u64 << exponent) {
            let around = power.saturating_sub(3)..=(power + 3).min(u64::from(highest));
            magnitudes.extend(around.map(|count| count as u32));
        }
        for end in [2_147_483_520, 2_147_483_584] {
            magnitudes.extend(end - 1..=end + 1);
        }
        for width in 25..=widest {
            magnitudes.extend(self.ties(width));
        }
        for width in 5..=widest {
            let rounded = if width > 24 { 3 } else { 1 };
            magnitudes.extend((0..rounded).map(|_| self.random.of_width(width)));
        }
        magnitudes
    }

    /// Counts half way between two Reals, and one below and above each.
    fn ties(&mut self, width: u32) -> Vec<u32> {
        let even = self.random.of_width(24) & !1;
        let odd = self.random.of_width(24) | 1;
        let lowest = 1 << 23;
        // Rounding this one up carries over to the next power of two.
        let highest = (1 << 24) - 1;
        let dropped = width - 24;
        [lowest, highest, even, odd]
            .map(|kept| kept << dropped | 1 << (dropped - 1))
            .into_iter()
            .flat_map(|tie: u32| [tie - 1, tie, tie + 1])
            .collect()
    }

    fn step_counts(&mut self) {
        // As words, the signed ends stand side by side at $80000000, the
        // unsigned ones at 0, each upper end one before that.
        for end in [0, SIGN] {
            self.add_around(end, 20);
            self.add(end.wrapping_sub(21));
        }
        for power in (5..31).map(|exponent| 1 << exponent) {
            self.add_around(power, 1);
        }
        for _ in 0..10 {
            let any = self.random.word();
            self.add(any);
        }
    }

    fn byte_pairs(&mut self) {
        let pairs = [0, 1, 0x00ff, 0x0100, 0x7fff, 0x8000, 0x8001, 0xfffe, 0xffff];
        for upper in [0, 0x0001_0000, 0x8000_0000, 0xffff_0000] {
            for pair in pairs {
                self.add(upper | pair);
            }
        }
        for _ in 0..20 {
            let any = self.random.word();
            self.add(any);
        }
    }
}
