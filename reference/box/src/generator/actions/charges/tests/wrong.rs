//! A second way to charge, block by block, and ways to charge wrong.

use super::{answer, charges};
use crate::generator::kinds::{self, Kind};
use crate::player::Charge;
use Wrong::*;

/// One thing that is wrong, or nothing.
#[derive(Clone, Copy, Debug, PartialEq, Eq)]
enum Wrong {
    Nothing,
    LimitExcluded,
    LimitsAreSizes,
    LimitOf32Bits,
    HalfDown,
    HalfLost,
    Upward,
    HalfToEven,
    BlocksRounded,
    LitresRounded,
    FloatSum,
    PulsesNeverBelowZero,
    PulsesEitherWay,
    PulsesOf31Bits,
    LitresOf32Bits,
    SumOf32Bits,
    LastBlockOnly,
    Litres0,
    Litres10001,
    LitresNot10000,
    LitresOf16Bits,
    NoBlocks,
    FiveBlocks,
    EightBlocks,
    FourBlocksNot,
    EqualLimits,
    FallingLimits,
    LimitsAskedOnce,
    LimitsAskedSigned,
    LimitsAskedOf32Bits,
    FirstLimitNotZero,
    Price100001,
    PriceNot100000,
    PriceNotZero,
    PricesNeverFall,
    PriceReached,
    LastPriceNotAsked,
    FirstPriceNotAsked,
    SeventeenFirst,
    RefusedCents,
}

const ALL: &[Wrong] = &[
    LimitExcluded,
    LimitsAreSizes,
    LimitOf32Bits,
    HalfDown,
    HalfLost,
    Upward,
    HalfToEven,
    BlocksRounded,
    LitresRounded,
    FloatSum,
    PulsesNeverBelowZero,
    PulsesEitherWay,
    PulsesOf31Bits,
    LitresOf32Bits,
    SumOf32Bits,
    LastBlockOnly,
    Litres0,
    Litres10001,
    LitresNot10000,
    LitresOf16Bits,
    NoBlocks,
    FiveBlocks,
    EightBlocks,
    FourBlocksNot,
    EqualLimits,
    FallingLimits,
    LimitsAskedOnce,
    LimitsAskedSigned,
    LimitsAskedOf32Bits,
    FirstLimitNotZero,
    Price100001,
    PriceNot100000,
    PriceNotZero,
    PricesNeverFall,
    PriceReached,
    LastPriceNotAsked,
    FirstPriceNotAsked,
    SeventeenFirst,
    RefusedCents,
];

fn pulses(wrong: Wrong, of: &Charge) -> u64 {
    let difference = i64::from(of.later) - i64::from(of.earlier);
    match wrong {
        PulsesNeverBelowZero => difference.max(0) as u64,
        PulsesEitherWay => difference.unsigned_abs(),
        PulsesOf31Bits => difference.rem_euclid(1 << 31) as u64,
        _ => u64::from(of.later.wrapping_sub(of.earlier) as u32),
    }
}

fn litres(wrong: Wrong, of: &Charge) -> u64 {
    let litres = pulses(wrong, of) * u64::from(of.litres_per_pulse);
    match wrong {
        LitresOf32Bits => litres & 0xFFFF_FFFF,
        _ => litres,
    }
}

/// The litres that each block takes.
fn taken(wrong: Wrong, of: &Charge) -> Vec<u64> {
    let mut left = litres(wrong, of);
    let mut before = 0;
    let mut taken = Vec::new();
    for index in 0..of.prices.len() {
        let limit = match (of.limits.get(index), wrong) {
            (None, _) => u64::MAX,
            (Some(limit), LimitOf32Bits) => limit & 0xFFFF_FFFF,
            (Some(limit), LimitExcluded) => limit.saturating_sub(1),
            (Some(limit), _) => *limit,
        };
        let room = match wrong {
            LimitsAreSizes => limit,
            _ => limit.saturating_sub(before),
        };
        taken.push(left.min(room));
        left -= left.min(room);
        before = limit;
    }
    taken
}

fn rounded(wrong: Wrong, sum: u64) -> u64 {
    let (cents, rest) = (sum / 100, sum % 100);
    let up = match wrong {
        HalfDown => rest > 50,
        HalfLost => false,
        Upward => rest > 0,
        HalfToEven => rest > 50 || rest == 50 && cents % 2 == 1,
        _ => rest >= 50,
    };
    cents + u64::from(up)
}

fn cents(wrong: Wrong, of: &Charge) -> u64 {
    let price = |index: usize| u64::from(of.prices[index]);
    let taken = taken(wrong, of);
    let parts = taken.iter().enumerate();
    let sum = parts.clone().fold(0_u64, |sum, (index, &litres)| {
        sum.wrapping_add(litres.wrapping_mul(price(index)))
    });
    match wrong {
        BlocksRounded => parts
            .map(|(index, litres)| rounded(Nothing, litres * price(index)))
            .sum(),
        LitresRounded => parts
            .map(|(index, litres)| litres * rounded(Nothing, price(index)))
            .sum(),
        FloatSum => (sum as f64 / 100.0).round() as u64,
        SumOf32Bits => rounded(wrong, sum & 0xFFFF_FFFF),
        LastBlockOnly => {
            let last = parts.rev().find(|(_, &litres)| litres > 0);
            let all: u64 = taken.iter().sum();
            rounded(wrong, all * last.map_or(0, |(index, _)| price(index)))
        }
        _ => rounded(wrong, sum),
    }
}

fn litres_refused(wrong: Wrong, litres: u32) -> bool {
    match (wrong, litres) {
        (Litres0, 0) | (Litres10001, 10_001) => false,
        (LitresNot10000, 10_000) => true,
        (LitresOf16Bits, _) => !(1..=10_000).contains(&(litres as u16)),
        _ => !(1..=10_000).contains(&litres),
    }
}

fn number_of_blocks_refused(wrong: Wrong, blocks: usize) -> bool {
    match (wrong, blocks) {
        (NoBlocks, 0) | (FiveBlocks, 5) | (EightBlocks, 8) => false,
        (FourBlocksNot, 4) => true,
        _ => !(1..=4).contains(&blocks),
    }
}

fn limits_refused(wrong: Wrong, limits: &[u64]) -> bool {
    let mut pairs = limits.windows(2);
    match wrong {
        EqualLimits => pairs.any(|pair| pair[1] < pair[0]),
        FallingLimits => pairs.any(|pair| pair[1] == pair[0]),
        LimitsAskedOnce => pairs.take(1).any(|pair| pair[1] <= pair[0]),
        LimitsAskedSigned => pairs.any(|pair| pair[1] as i64 <= pair[0] as i64),
        LimitsAskedOf32Bits => pairs.any(|pair| pair[1] as u32 <= pair[0] as u32),
        FirstLimitNotZero => limits.first() == Some(&0) || limits_refused(Nothing, limits),
        _ => pairs.any(|pair| pair[1] <= pair[0]),
    }
}

fn prices_refused(wrong: Wrong, of: &Charge) -> bool {
    let too_high = |price: &u32| *price > 100_000;
    let mut prices = of.prices.iter();
    match wrong {
        Price100001 => prices.any(|&price| price > 100_001),
        PriceNot100000 => prices.any(|&price| price >= 100_000),
        PriceNotZero => prices.any(|price| *price == 0 || too_high(price)),
        PricesNeverFall => {
            let falls = of.prices.windows(2).any(|pair| pair[1] < pair[0]);
            falls || prices.any(too_high)
        }
        PriceReached => {
            let taken = taken(Nothing, of);
            prices
                .zip(taken)
                .any(|(price, litres)| litres > 0 && too_high(price))
        }
        LastPriceNotAsked => prices.rev().skip(1).any(too_high),
        FirstPriceNotAsked => prices.skip(1).any(too_high),
        _ => prices.any(too_high),
    }
}

fn charge(wrong: Wrong, of: &Charge) -> (u8, u64) {
    let sixteen = litres_refused(wrong, of.litres_per_pulse);
    let seventeen = number_of_blocks_refused(wrong, of.prices.len())
        || limits_refused(wrong, &of.limits)
        || prices_refused(wrong, of);
    let number = match (sixteen, seventeen) {
        (true, true) if wrong == SeventeenFirst => 17,
        (true, _) => 16,
        (false, true) => 17,
        (false, false) => 0,
    };
    match number {
        0 => (0, cents(wrong, of)),
        _ if wrong == RefusedCents => (number, cents(wrong, of)),
        _ => (number, 0),
    }
}

#[test]
fn block_by_block_it_is_the_same() {
    for seed in 0..40 {
        let calls = kinds::calls(seed, 1700, Kind::Charges);
        for of in charges(&calls) {
            assert_eq!(charge(Nothing, of), answer(of), "{of}");
        }
    }
}

#[test]
fn one_script_tells_each_wrong_way() {
    for seed in [1, 2, 3, 3120] {
        let calls = kinds::calls(seed, 1700, Kind::Charges);
        let charges = charges(&calls);
        for &wrong in ALL {
            let told = |of: &&&Charge| charge(wrong, of) != answer(of);
            let count = charges.iter().filter(told).count();
            assert!(count > 0, "seed {seed}: {wrong:?}");
        }
    }
}
