//! Change 4: the questions 16 and 17, and what no script can ask.

use super::{of_pulses, DONE};
use crate::charge::charge;

/// The number of three pulses of so many litres; refused, the cents are 0.
fn refused(litres: u32, limits: &[u64], prices: &[u32]) -> u8 {
    let (number, cents) = of_pulses(3, litres, limits, prices);
    assert!(number == DONE || cents == 0);
    number
}

/// "16 when litres per pulse is out of range."
#[test]
fn litres_per_pulse_are_1_to_10000() {
    for litres in [0, 10_001, 10_002, 65_536, 65_537, u32::MAX] {
        assert_eq!(refused(litres, &[], &[100]), 16, "{litres}");
    }
    for litres in [1, 2, 9_999, 10_000] {
        let charged = of_pulses(3, litres, &[], &[100]);
        assert_eq!(charged, (DONE, 3 * u64::from(litres)));
    }
}

/// "17 when there are no blocks or more than four".
#[test]
fn there_are_one_to_four_blocks() {
    let (limits, prices) = ([1, 2, 3, 4, 5, 6, 7], [100; 8]);
    for blocks in 1..=8 {
        let (limits, prices) = (&limits[..blocks - 1], &prices[..blocks]);
        let charged = of_pulses(3, 1, limits, prices);
        let expected = if blocks <= 4 { (DONE, 3) } else { (17, 0) };
        assert_eq!(charged, expected, "{blocks}");
    }
    assert_eq!(refused(1, &[], &[]), 17);
}

/// "a limit isn't above the one before".
#[test]
fn each_limit_is_above_the_one_before() {
    let prices = [1; 4];
    for limits in [
        &[5, 5][..],
        &[5, 4],
        &[0, 0],
        &[1, 0],
        &[u64::MAX, u64::MAX],
        &[u64::MAX, 0],
        &[1 << 32, 0],
        &[1, 2, 2],
        &[1, 3, 2],
        &[2, 1, 3],
        &[3, 1, 2],
        &[1_000_000, 1_000_000],
    ] {
        let prices = &prices[..=limits.len()];
        assert_eq!(refused(1, limits, prices), 17, "{limits:?}");
    }
    for limits in [&[0, 1][..], &[u64::MAX - 1, u64::MAX], &[1, 2, 3]] {
        let prices = &prices[..=limits.len()];
        assert_eq!(refused(1, limits, prices), DONE, "{limits:?}");
    }
}

/// "or a price is too high", in a block that no litre reaches too.
#[test]
fn no_price_is_above_100000() {
    for price in [100_001, 100_002, 165_536, u32::MAX] {
        for (limits, prices) in [
            (&[][..], &[price][..]),
            (&[1], &[price, 1]),
            (&[1_000_000], &[1, price]),
            (&[u64::MAX], &[1, price]),
            (&[0], &[price, 1]),
            (&[1, 2, 1_000], &[1, 1, 1, price]),
            (&[1, 2, 1_000], &[1, price, 1, 1]),
        ] {
            assert_eq!(refused(1, limits, prices), 17, "{limits:?} {prices:?}");
            assert_eq!(charge(4, 4, 1, limits, prices), (17, 0), "no litre at all");
        }
    }
}

/// "16 is asked first."
#[test]
fn sixteen_comes_before_seventeen() {
    for litres in [0, 10_001, u32::MAX] {
        for (limits, prices) in [
            (&[][..], &[][..]),
            (&[1, 2, 3, 4], &[1; 5]),
            (&[2, 2], &[1; 3]),
            (&[], &[100_001]),
        ] {
            assert_eq!(refused(litres, limits, prices), 16);
            assert_eq!(refused(1, limits, prices), 17);
        }
    }
}

#[test]
#[should_panic(expected = "all blocks but the last have a limit")]
fn a_limit_for_the_last_block_is_no_blocks() {
    charge(0, 1, 0, &[1], &[1]);
}

#[test]
#[should_panic(expected = "all blocks but the last have a limit")]
fn a_limit_too_few_is_no_blocks() {
    charge(0, 1, 1, &[], &[1, 1]);
}

#[test]
#[should_panic(expected = "all blocks but the last have a limit")]
fn a_limit_without_a_block_is_no_blocks() {
    charge(0, 1, 1, &[1], &[]);
}
