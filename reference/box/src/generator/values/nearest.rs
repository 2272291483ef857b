//! Change 5: times that a write rounds, as typed and about half way between
//! two counts.

use crate::generator::random::Random;
use crate::reals::{self, Real};

/// 0.1 s to 1.0 s, each as the Real nearest to it.
const TYPED: &[Real] = &[
    0x3DCC_CCCD,
    0x3E4C_CCCD,
    0x3E99_999A,
    0x3ECC_CCCD,
    0x3F00_0000,
    0x3F19_999A,
    0x3F33_3333,
    0x3F4C_CCCD,
    0x3F66_6666,
    0x3F80_0000,
];

/// A pattern without this has an exponent one less: the Real is halved.
const HALVED: u32 = 0x0080_0000;

/// So many pairs of an even and an odd count have ties above them that a Real
/// holds: twice a tie has at most 24 bits.
const PAIRS: u64 = 1 << 22;

/// The unit of a count.
#[derive(Clone, Copy, PartialEq, Eq)]
pub enum Unit {
    Timer,
    Operating,
}

impl Unit {
    fn read(self, count: u32) -> Real {
        match self {
            Unit::Timer => reals::from_timer_count(count as i32),
            Unit::Operating => reals::from_operating_count(count),
        }
    }
}

pub fn typed_time(random: &mut Random) -> Real {
    random.pick(TYPED)
}

/// Half a count, which becomes 0.
pub fn half_count(unit: Unit) -> Real {
    unit.read(1) - HALVED
}

/// Half way between an even count and the next, and between that and the next
/// but one; mostly of a few ticks.
pub fn ties(random: &mut Random, unit: Unit) -> [Real; 2] {
    let pair = match random.below(8) {
        0 => random.below(PAIRS),
        1 => PAIRS - 1 - random.below(2),
        2 | 3 => random.below(4),
        _ => random.below(150),
    };
    let halves = 4 * pair as u32;
    [halves + 1, halves + 3].map(|halves| unit.read(halves) - HALVED)
}

/// A time as typed, a tie, or the Real just below or above one.
pub fn rounded_time(random: &mut Random, unit: Unit) -> Real {
    let ties = ties(random, unit);
    let tie = random.pick(&ties);
    match random.below(8) {
        0 | 1 => typed_time(random),
        2 => tie - 1,
        3 => tie + 1,
        _ => tie,
    }
}

#[cfg(test)]
mod tests {
    use super::*;

    #[test]
    fn typed_times_are_tenths() {
        for (&typed, tenths) in TYPED.iter().zip(1..) {
            assert_eq!(f32::from_bits(typed), tenths as f32 / 10.0);
        }
        assert_eq!(TYPED.len(), 10);
    }

    #[test]
    fn ties_lie_half_way() {
        let mut random = Random::new(5);
        for (unit, per_second) in [(Unit::Timer, 256.0), (Unit::Operating, 8.0)] {
            for _ in 0..1000 {
                let [down, up] = ties(&mut random, unit).map(f32::from_bits);
                assert_eq!((down * per_second) % 2.0, 0.5);
                assert_eq!((up - down) * per_second, 1.0);
            }
        }
    }

    #[test]
    fn rounded_times_suit() {
        let mut random = Random::new(5);
        for unit in [Unit::Timer, Unit::Operating] {
            for _ in 0..1000 {
                let time = rounded_time(&mut random, unit);
                assert!(reals::is_preset(time) && reals::is_operating(time));
            }
        }
        assert_eq!(half_count(Unit::Timer), 0x3B00_0000);
        assert_eq!(half_count(Unit::Operating), 0x3D80_0000);
    }
}
