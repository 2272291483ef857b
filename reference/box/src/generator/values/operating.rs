//! Change 2: operating times and counts.

use super::{rounded_time, Unit};
use crate::generator::random::Random;
use crate::reals;

/// Times that a write takes, at the ends of ranges and about the count from
/// which not every step of it shows in a read, 16777216.
const END_TIMES: &[u32] = &[
    0x0000_0000,
    0x8000_0000, // −0
    0x0000_0001,
    0x3D7F_FFFF, // around 1/16, half a count
    0x3D80_0000,
    0x3D80_0001,
    0x3DFF_FFFF, // around 1/8
    0x3E00_0000,
    0x3E00_0001,
    0x49FF_FFFE, // up to 2097152
    0x49FF_FFFF,
    0x4A00_0000,
    0x4DFF_FFFF, // the last below 536870912
];

/// Times that a write refuses: out of range, or not finite.
const REFUSED_TIMES: &[u32] = &[
    0x8000_0001,
    0xBD80_0000, // would become 0
    0xBE00_0000,
    0xFF7F_FFFF,
    0x4E00_0000, // 536870912
    0x4E00_0001,
    0x7F7F_FFFF,
    0x7F80_0000, // infinities
    0xFF80_0000,
    0x7F80_0001, // NaNs
    0x7FC0_0000,
    0xFFFF_FFFF,
];

/// A time that a write takes, and often rounds; mostly each step of its count
/// shows.
pub fn operating_time(random: &mut Random) -> u32 {
    match random.below(8) {
        0 => random.pick(END_TIMES),
        1 => random.below(0x4E00_0000) as u32,
        2..=4 => rounded_time(random, Unit::Operating),
        _ => reals::from_operating_count(random.below(1000) as u32),
    }
}

pub fn refused_operating_time(random: &mut Random) -> u32 {
    random.pick(REFUSED_TIMES)
}

/// A count at its end or so little below that a few ticks lead there.
pub fn last_count(random: &mut Random) -> u32 {
    u32::MAX - random.below(4) as u32
}

#[cfg(test)]
mod tests {
    use super::*;

    #[test]
    fn times_are_taken_and_refused_as_they_say() {
        let mut random = Random::new(3);
        for _ in 0..1000 {
            assert!(reals::is_operating(operating_time(&mut random)));
            assert!(!reals::is_operating(refused_operating_time(&mut random)));
        }
        assert!(END_TIMES.iter().all(|&time| reals::is_operating(time)));
    }
}
