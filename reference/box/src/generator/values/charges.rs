//! Change 4: readings, litres per pulse and blocks.

use super::end_count;
use crate::charge::hundredths;
use crate::generator::random::Random;
use std::collections::BTreeSet;

const LITRES: &[u32] = &[1, 1, 10, 10, 100, 1_000, 9_999, 10_000, 10_000];
/// Out of the range of litres per pulse; the low half of 65537 is in it.
const REFUSED_LITRES: &[u32] = &[0, 0, 10_001, 10_001, 10_002, 65_536, 65_537, u32::MAX];
const PULSES: &[u32] = &[
    0,
    1,
    2,
    0x7FFF_FFFF,
    0x8000_0000,
    0x8000_0001,
    0xFFFF_FFFE,
    0xFFFF_FFFF,
];
/// Limits that few litres reach, and those about the ends of their halves.
const FAR_LIMITS: &[u64] = &[
    (1 << 32) - 1,
    1 << 32,
    (1 << 32) + 1,
    (1 << 32) + 9,
    42_949_672_950_000, // the most litres
    42_949_672_950_001,
    (1 << 63) - 1,
    1 << 63,
    (1 << 63) + 5,
    u64::MAX - 1,
    u64::MAX,
];
const PRICES: &[u32] = &[
    0, 0, 1, 49, 50, 50, 51, 99, 100, 101, 149, 150, 65_536, 99_999, 100_000, 100_000,
];
/// Too high; their low halves are not.
const REFUSED_PRICES: &[u32] = &[
    100_001,
    100_001,
    100_001,
    100_002,
    131_072,
    4_294_967_295,
    2_147_483_648,
];

/// A price for each block, and a limit for all but the last.
#[derive(Clone, Debug)]
pub struct Blocks {
    pub limits: Vec<u64>,
    pub prices: Vec<u32>,
}

/// Litres per pulse that are in range.
pub fn litres_per_pulse(random: &mut Random) -> u32 {
    match random.below(4) {
        0 => random.within(1, 10_000) as u32,
        _ => random.pick(LITRES),
    }
}

pub fn refused_litres(random: &mut Random) -> u32 {
    match random.below(6) {
        0 => random.within(10_001, u64::from(u32::MAX)) as u32,
        _ => random.pick(REFUSED_LITRES),
    }
}

/// Pulses between two readings, mostly few.
pub fn pulses(random: &mut Random) -> u32 {
    match random.below(12) {
        0 | 1 => random.pick(PULSES),
        2..=5 => random.below(20) as u32,
        6..=9 => random.below(100_000) as u32,
        10 => random.below(1 << 31) as u32,
        _ => random.word(),
    }
}

/// An earlier Counter value, often a few pulses before a sign changes.
pub fn reading(random: &mut Random) -> i32 {
    let count = match random.below(6) {
        0 => 0x7FFF_FFFF - random.below(8) as u32,
        1 => 0xFFFF_FFFF - random.below(8) as u32,
        2 => end_count(random),
        3 => random.word(),
        _ => random.below(1_000_000) as u32,
    };
    count as i32
}

/// A limit for a charge of so many litres: at them, one beside them, below or
/// above.
fn limit(random: &mut Random, litres: u64) -> u64 {
    match random.below(12) {
        0..=4 => (litres + random.below(5)).saturating_sub(2),
        5 => random.below(2),
        6 => random.pick(FAR_LIMITS),
        7 | 8 => random.below(litres + 1),
        9 => litres + random.below(1_000),
        10 => random.below(20),
        _ => litres / random.within(2, 10),
    }
}

/// So many limits, each above the one before.
fn rising(random: &mut Random, litres: u64, count: usize) -> Vec<u64> {
    let mut limits = BTreeSet::new();
    while limits.len() < count {
        limits.insert(limit(random, litres));
    }
    limits.into_iter().collect()
}

pub fn price(random: &mut Random) -> u32 {
    match random.below(3) {
        0 => random.below(100_001) as u32,
        _ => random.pick(PRICES),
    }
}

fn refused_price(random: &mut Random) -> u32 {
    match random.below(8) {
        0 => random.within(100_001, u64::from(u32::MAX)) as u32,
        _ => random.pick(REFUSED_PRICES),
    }
}

/// So many blocks, one at least, about a charge of so many litres.
fn some_blocks(random: &mut Random, litres: u64, count: usize) -> Blocks {
    let limits = rising(random, litres, count - 1);
    let prices = (0..count).map(|_| price(random)).collect();
    Blocks { limits, prices }
}

/// Blocks that are allowed.
pub fn blocks(random: &mut Random, litres: u64) -> Blocks {
    let count = random.weighted(&[(2, 1), (3, 2), (3, 3), (4, 4)]);
    some_blocks(random, litres, count)
}

/// Blocks of a litre or a few, so that many are in play.
pub fn small_blocks(random: &mut Random) -> Blocks {
    let mut small = blocks(random, 4);
    let mut limit = random.below(2);
    for place in &mut small.limits {
        *place = limit;
        limit += random.pick(&[1, 1, 1, 2, 3]);
    }
    small
}

/// Blocks by which a charge of so many litres, one at least, sums to
/// hundredths that end like this, 0 to 99: the last litre makes up for it.
pub fn blocks_ending(random: &mut Random, litres: u64, ending: u32) -> Blocks {
    let count = random.within(1, 3) as usize;
    let mut ended = some_blocks(random, litres, count);
    ended.limits.retain(|&limit| limit < litres - 1);
    ended.prices.truncate(ended.limits.len() + 1);
    let before = hundredths(litres - 1, &ended.limits, &ended.prices);
    let missing = (i128::from(ending) - before).rem_euclid(100) as u32;
    ended.limits.push(litres - 1);
    ended
        .prices
        .push(missing + 100 * random.below(1_000) as u32);
    ended
}

/// Blocks that are refused, by one thing mostly.
pub fn refused_blocks(random: &mut Random, litres: u64) -> Blocks {
    match random.below(9) {
        0 => no_blocks(),
        1 => too_many(random, litres),
        2 | 3 => equal_limits(random, litres),
        4 | 5 => falling_limits(random, litres),
        _ => too_high(random, litres),
    }
}

fn no_blocks() -> Blocks {
    Blocks {
        limits: Vec::new(),
        prices: Vec::new(),
    }
}

/// Five to eight of them.
fn too_many(random: &mut Random, litres: u64) -> Blocks {
    let count = random.weighted(&[(4, 5), (1, 6), (1, 7), (2, 8)]);
    some_blocks(random, litres, count)
}

/// A limit that is the one before.
fn equal_limits(random: &mut Random, litres: u64) -> Blocks {
    let count = random.pick(&[3, 4, 4]);
    let mut equal = some_blocks(random, litres, count);
    let second = random.within(1, count as u64 - 2) as usize;
    equal.limits[second] = equal.limits[second - 1];
    equal
}

/// Two limits that stand the other way round, or all of them.
fn falling_limits(random: &mut Random, litres: u64) -> Blocks {
    let count = random.pick(&[3, 4, 4]);
    let mut falling = some_blocks(random, litres, count);
    let second = random.within(1, count as u64 - 2) as usize;
    match random.below(4) {
        0 => falling.limits.reverse(),
        _ => falling.limits.swap(second - 1, second),
    }
    falling
}

/// A price that is too high, in a block with or without litres.
fn too_high(random: &mut Random, litres: u64) -> Blocks {
    let mut high = blocks(random, litres);
    let place = random.below(high.prices.len() as u64) as usize;
    high.prices[place] = refused_price(random);
    high
}

#[cfg(test)]
mod tests {
    use super::*;
    use crate::charge::charge;

    fn number(litres_per_pulse: u32, blocks: &Blocks) -> u8 {
        charge(0, 1, litres_per_pulse, &blocks.limits, &blocks.prices).0
    }

    #[test]
    fn what_is_drawn_is_taken_or_refused_as_it_says() {
        let mut random = Random::new(16);
        for _ in 0..1_000 {
            let litres = random.pick(&[0, 1, 5, 1_000, 42_949_672_950_000]);
            let taken = blocks(&mut random, litres);
            assert_eq!(number(litres_per_pulse(&mut random), &taken), 0);
            assert_eq!(number(refused_litres(&mut random), &taken), 16);
            assert_eq!(number(1, &small_blocks(&mut random)), 0);
            assert_eq!(number(1, &refused_blocks(&mut random, litres)), 17);
        }
    }

    #[test]
    fn sums_end_as_they_are_to() {
        let mut random = Random::new(17);
        for _ in 0..1_000 {
            let litres = random.pick(&[1, 2, 3, 1_000, 42_949_672_950_000]);
            let ending = random.below(100) as u32;
            let blocks = blocks_ending(&mut random, litres, ending);
            let sum = hundredths(litres, &blocks.limits, &blocks.prices);
            assert_eq!(sum % 100, i128::from(ending));
            assert_eq!(number(1, &blocks), 0);
        }
    }
}
