//! Currents, of samples and as written.

use crate::generator::random::Random;

/// 0.1 A, the limit of an internal short circuit.
pub const LEAK: u32 = 0x3DCC_CCCD;
/// 2 A, above which a current trips.
pub const TRIP: u32 = 0x4000_0000;

/// The Reals next below and next above one from 0 on; −0 stands for 0.
pub fn beside(real: u32) -> [u32; 2] {
    match real {
        0 | 0x8000_0000 => [0x8000_0001, 0x0000_0001],
        _ => [real - 1, real + 1],
    }
}

/// Currents around every limit that a rule looks at.
const CURRENTS: &[u32] = &[
    0x0000_0000,
    0x8000_0000,
    0x3D4C_CCCD, // 0.05
    0x3DCC_CCCC,
    0x3DCC_CCCD, // 0.1
    0x3DCC_CCCE,
    0x3E7F_FFFF,
    0x3E80_0000, // 0.25
    0x3E80_0001,
    0x3EFF_FFFF,
    0x3F00_0000, // 0.5
    0x3F00_0001,
    0x3F7F_FFFF,
    0x3F80_0000, // 1
    0x3F80_0001,
    0x3FC0_0000, // 1.5
    0xBF80_0000,
    0x4000_0000, // 2
];

/// Currents above 2, which trip.
const TRIPPING: &[u32] = &[0x4000_0001, 0x4040_0000, 0x7F7F_FFFF];

/// Change 3: currents that a sample trips by or doesn't, and −0.
const ABOUT_TWO: &[u32] = &[
    0x0000_0000,
    0x8000_0000, // −0
    0x8000_0000,
    0x0000_0001,
    0x3FFF_FFFF,
    0x4000_0000, // 2
    0x4000_0000,
    0x4000_0000,
    0x4000_0001,
    0x4000_0001,
    0x4040_0000, // 3
    0x7F7F_FFFF,
    0xC000_0000,
    0xC000_0001,
    0xFF7F_FFFF,
];

/// Currents that are none: "Current finite? 9."
const REFUSED: &[u32] = &[
    0x7F80_0000, // infinities
    0x7F80_0000,
    0xFF80_0000,
    0xFF80_0000,
    0x7F80_0001, // NaNs
    0xFF80_0001,
    0x7FC0_0000,
    0xFFC0_0000,
    0x7FFF_FFFF,
    0xFFFF_FFFF,
];

pub fn current(random: &mut Random) -> u32 {
    match random.below(10) {
        0 => random.pick(TRIPPING),
        1 => 0x3D00_0000 + random.below(0x0300_0000) as u32,
        _ => random.pick(CURRENTS),
    }
}

/// Change 3: the current of a sample, mostly about 2.
pub fn sample_current(random: &mut Random) -> u32 {
    match random.below(4) {
        0 => current(random),
        _ => random.pick(ABOUT_TWO),
    }
}

/// A current that trips.
pub fn tripping_current(random: &mut Random) -> u32 {
    random.pick(TRIPPING)
}

/// A current that does not trip.
pub fn quiet_current(random: &mut Random) -> u32 {
    match random.below(2) {
        0 => 0,
        _ => random.pick(CURRENTS),
    }
}

/// A current that a sample or a write refuses.
pub fn refused_current(random: &mut Random) -> u32 {
    random.pick(REFUSED)
}

#[cfg(test)]
mod tests {
    use super::*;
    use crate::reals;

    #[test]
    fn limits_have_a_real_on_either_side() {
        assert_eq!((LEAK, TRIP), (0x3DCC_CCCD, 0x4000_0000));
        for real in [LEAK, TRIP, 0, 0x8000_0000, 1, 0x3F80_0000] {
            let [below, above] = beside(real).map(f32::from_bits);
            let real = f32::from_bits(real);
            assert!(below < real && real < above);
            assert_eq!((real.next_down(), real.next_up()), (below, above));
        }
    }

    #[test]
    fn currents_trip_and_are_refused_as_they_say() {
        let mut random = Random::new(3);
        let trips = |amperes| reals::greater(amperes, reals::TWO);
        for _ in 0..1000 {
            assert!(trips(tripping_current(&mut random)));
            assert!(!trips(quiet_current(&mut random)));
            assert!(!reals::is_finite(refused_current(&mut random)));
            for amperes in [current, sample_current, tripping_current, quiet_current] {
                assert!(reals::is_finite(amperes(&mut random)));
            }
        }
    }
}
