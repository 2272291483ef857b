//! Counts and Reals.

use super::{rounded_time, Flavour, Unit};
use crate::generator::random::Random;
use crate::reals;

/// Reals at the ends of ranges, either side of them, and those that are none.
const END_REALS: &[u32] = &[
    0x0000_0000, // 0
    0x8000_0000, // −0
    0x0000_0001, // the smallest subnormal
    0x8000_0001,
    0x007F_FFFF, // the largest subnormal
    0x807F_FFFF,
    0x0080_0000,
    0x3AFF_FFFF, // around 1/512, half a timer count
    0x3B00_0000,
    0x3B00_0001,
    0xBB00_0000,
    0xBB00_0001,
    0x3B7F_FFFF, // around 1/256
    0x3B80_0000,
    0x3B80_0001,
    0xBB7F_FFFF,
    0xBB80_0000,
    0x3D7F_FFFF, // around 1/16, half an operating count
    0x3D80_0000,
    0x3D80_0001,
    0xBD80_0000,
    0x3DFF_FFFF, // around 1/8
    0x3E00_0000,
    0x3DCC_CCCC, // around 0.1
    0x3DCC_CCCD,
    0x3DCC_CCCE,
    0x3F7F_FFFF, // around 1
    0x3F80_0000,
    0x3F80_0001,
    0xBF80_0000,
    0x3FFF_FFFF, // around 2
    0x4000_0000,
    0x4000_0001,
    0xC000_0001,
    0x46FF_FFFF, // 8388607.5 timer counts
    0xC6FF_FFFF,
    0x497F_FFFF, // 8388607.5 operating counts
    0x4A00_0000, // 2097152
    0x4AFF_FFFF, // around 8388608
    0x4B00_0000,
    0x4B00_0001,
    0xCAFF_FFFF,
    0xCB00_0000,
    0xCB00_0001,
    0x4DFF_FFFF, // around 536870912
    0x4E00_0000,
    0x4E00_0001,
    0xCE00_0000,
    0x7F7F_FFFF, // the largest
    0xFF7F_FFFF,
    0x7F80_0000, // infinities
    0xFF80_0000,
    0x7F80_0001, // NaNs
    0x7FC0_0000,
    0xFFC0_0000,
    0xFFFF_FFFF,
];

/// Counts at the ends of ranges.
const END_COUNTS: &[u32] = &[
    0,
    1,
    0x00FF_FFFF,
    0x0100_0000,
    0x0100_0001,
    0x0100_0003,
    0x7FFF_FF00,
    0x7FFF_FF80, // reads $4AFFFFFF
    0x7FFF_FFBF,
    0x7FFF_FFC0, // 2147483584
    0x7FFF_FFFE,
    0x7FFF_FFFF,
    0x8000_0000,
    0x8000_0001,
    0xFFFF_FF00,
    0xFFFF_FF80,
    0xFFFF_FFFD,
    0xFFFF_FFFE,
    0xFFFF_FFFF,
];

/// MinCurrent and MaxCurrent.
const LIMITS: &[u32] = &[
    0x0000_0000,
    0x8000_0000,
    0x3DCC_CCCD,
    0x3E80_0000,
    0x3F00_0000,
    0x3F7F_FFFF,
    0x3F80_0000,
];

pub fn end_real(random: &mut Random) -> u32 {
    random.pick(END_REALS)
}

pub fn end_count(random: &mut Random) -> u32 {
    random.pick(END_COUNTS)
}

/// A count of a few ticks, 0 and odd ones among them.
pub fn small_count(random: &mut Random) -> i32 {
    match random.below(4) {
        0 => 0,
        1 => random.below(4) as i32 * 8,
        2 => random.below(40) as i32,
        _ => random.below(300) as i32,
    }
}

/// A time from 0 as a Real, mostly of a few ticks; often it is rounded.
pub fn time(random: &mut Random) -> u32 {
    match random.below(8) {
        0 => 0x3A00_0000 + random.below(0x0700_0000) as u32,
        1 | 2 => rounded_time(random, Unit::Timer),
        _ => reals::from_timer_count(small_count(random)),
    }
}

/// The same, negative ones too.
pub fn signed_time(random: &mut Random) -> u32 {
    let sign = u32::from(random.chance(1, 3)) << 31;
    sign | time(random)
}

pub fn limit(random: &mut Random) -> u32 {
    match random.below(6) {
        0 => random.below(0x3F80_0001) as u32,
        _ => random.pick(LIMITS),
    }
}

pub(super) fn preset(random: &mut Random, flavour: Flavour) -> i32 {
    let ends = if flavour == Flavour::Ends { 1 } else { 0 };
    match random.weighted(&[(2, 0), (ends, 1)]) {
        0 => small_count(random),
        _ => (end_count(random) & 0x7FFF_FFFF) as i32,
    }
}

/// A count; for runs mostly one of which a read shows each step.
pub(super) fn count(random: &mut Random, flavour: Flavour) -> u32 {
    let (small, ends) = match flavour {
        Flavour::Ends => (2, 6),
        Flavour::Runs => (12, 1),
        _ => (2, 1),
    };
    match random.weighted(&[(small, 0), (ends, 1), (1, 2)]) {
        0 => random.below(1000) as u32,
        1 => end_count(random),
        _ => random.word(),
    }
}
