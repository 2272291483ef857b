//! Change 4, sentence by sentence, and a second way: litre by litre.

use super::*;
use crate::generator::random::Random;

mod refusals;

const DONE: u8 = 0;

/// The charge of so many pulses of so many litres, from an earlier count of 0.
fn of_pulses(pulses: u32, litres: u32, limits: &[u64], prices: &[u32]) -> (u8, u64) {
    charge(0, pulses as i32, litres, limits, prices)
}

/// The cents for so many litres, a litre per pulse.
fn cents(litres: u32, limits: &[u64], prices: &[u32]) -> u64 {
    let (number, cents) = of_pulses(litres, 1, limits, prices);
    assert_eq!(number, DONE);
    cents
}

/// Litre after litre: the first block with room takes it. Then half a cent and
/// more is a cent.
fn by_litre(litres: u64, limits: &[u64], prices: &[u32]) -> u64 {
    let mut sum = 0;
    for litre in 1..=litres {
        let mut block = 0;
        while block < limits.len() && litre > limits[block] {
            block += 1;
        }
        sum += u64::from(prices[block]);
    }
    sum / 100 + u64::from(sum % 100 >= 50)
}

/// "Pulses are the later count minus the earlier, modulo 4294967296."
#[test]
fn pulses_are_the_difference_modulo_4294967296() {
    for (earlier, later, expected) in [
        (0, 0, 0),
        (0, 1, 1),
        (-1, 0, 1),
        (-3, 4, 7),
        (100, 350, 250),
        (i32::MAX, i32::MIN, 1),
        (i32::MAX - 1, i32::MIN + 1, 3),
        (i32::MIN, i32::MAX, u32::MAX),
        (5, 4, 4_294_967_295),
        (0, -1, 4_294_967_295),
        (0, i32::MIN, 2_147_483_648),
        (i32::MIN, 0, 2_147_483_648),
        (1, i32::MIN, 2_147_483_647),
        (-7, -7, 0),
    ] {
        assert_eq!(pulses(earlier, later), expected, "{earlier} {later}");
        let charged = charge(earlier, later, 1, &[], &[100]);
        assert_eq!(charged, (DONE, u64::from(expected)));
    }
}

/// "Litres fill the blocks in order."
#[test]
fn litres_fill_the_blocks_in_order() {
    let (limits, prices) = (&[10, 30, 60][..], &[100, 200, 300, 400][..]);
    for (litres, expected) in [
        (0, 0),
        (9, 9),
        (10, 10),
        (11, 12),
        (29, 48),
        (30, 50),
        (31, 53),
        (59, 137),
        (60, 140),
        (61, 144),
        (100, 300),
    ] {
        assert_eq!(cents(litres, limits, prices), expected, "{litres}");
    }
}

/// A limit is a total from the first litre, so pulses may leap over it.
#[test]
fn a_pulse_may_lie_in_two_blocks_and_more() {
    assert_eq!(of_pulses(1, 25, &[10], &[100, 200]), (DONE, 40));
    assert_eq!(of_pulses(3, 10, &[10, 20], &[100, 200, 300]), (DONE, 60));
    let prices = &[1_000, 2_000, 3_000, 4_000];
    assert_eq!(of_pulses(1, 4, &[1, 2, 3], prices), (DONE, 100));
}

#[test]
fn the_first_limit_may_be_0() {
    assert_eq!(cents(7, &[0], &[100_000, 200]), 14);
    assert_eq!(cents(7, &[0, 3], &[0, 100, 200]), 11);
    assert_eq!(cents(0, &[0], &[100_000, 200]), 0);
}

#[test]
fn a_limit_may_be_as_high_as_it_can_be_written() {
    for limit in [u64::MAX, u64::MAX - 1, 1 << 32, (1 << 32) + 1, 1 << 63] {
        assert_eq!(cents(500, &[limit], &[100, 100_000]), 500);
        assert_eq!(cents(500, &[499, limit], &[100, 300, 100_000]), 502);
    }
    let limit = 1_u64 << 32;
    let litres = |pulses| of_pulses(pulses, 2, &[limit], &[0, 100]).1;
    assert_eq!(litres(0x8000_0000), 0);
    assert_eq!(litres(0x8000_0001), 2);
}

#[test]
fn a_price_may_be_0_and_100000_and_may_fall() {
    assert_eq!(cents(1_000, &[], &[0]), 0);
    assert_eq!(cents(1_000, &[], &[100_000]), 1_000_000);
    assert_eq!(cents(30, &[10, 20], &[300, 200, 100]), 60);
    assert_eq!(cents(30, &[10, 20], &[100_000, 0, 100_000]), 20_000);
    assert_eq!(cents(20, &[10, 20], &[100_000, 0, 100_000]), 10_000);
    assert_eq!(cents(21, &[10, 20], &[100_000, 0, 100_000]), 11_000);
}

/// "rounded to a cent once, half upward".
#[test]
fn half_a_cent_goes_upward() {
    for (price, expected) in [
        (0, 0),
        (1, 0),
        (49, 0),
        (50, 1),
        (51, 1),
        (99, 1),
        (100, 1),
        (149, 1),
        (150, 2),
        (99_950, 1_000),
        (99_949, 999),
    ] {
        assert_eq!(cents(1, &[], &[price]), expected, "{price}");
    }
    assert_eq!(cents(2, &[], &[25]), 1);
    assert_eq!(cents(49, &[], &[1]), 0);
}

#[test]
fn the_sum_is_rounded_once() {
    assert_eq!(cents(2, &[1], &[50, 50]), 1, "not 2");
    assert_eq!(cents(3, &[1, 2], &[49, 49, 49]), 1, "not 0");
    assert_eq!(cents(4, &[1, 2, 3], &[50, 50, 50, 49]), 2, "not 3");
    assert_eq!(cents(2, &[1], &[49, 1]), 1, "not 0");
    assert_eq!(cents(2, &[1], &[149, 150]), 3);
    assert_eq!(cents(10, &[], &[45]), 5, "not litre by litre");
}

#[test]
fn the_largest_charge_is_held() {
    let largest = (DONE, 42_949_672_950_000_000);
    assert_eq!(of_pulses(u32::MAX, 10_000, &[], &[100_000]), largest);
    assert_eq!(charge(5, 4, 10_000, &[0], &[0, 100_000]), largest);
    let prices = &[100_000; 4];
    assert_eq!(charge(-8, -9, 10_000, &[1, 2, 3], prices), largest);
    let litres = u64::from(u32::MAX) * 10_000;
    let one_less = (DONE, largest.1 - 1_000);
    let charged = charge(5, 4, 10_000, &[litres - 1], &[100_000, 0]);
    assert_eq!(charged, one_less);
    let charged = charge(5, 4, 10_000, &[litres], &[100_000, 0]);
    assert_eq!(charged, largest);
}

/// Rising limits, 0 to 3 of them, and a price more.
fn some_blocks(random: &mut Random) -> (Vec<u64>, Vec<u32>) {
    let mut limits: Vec<u64> = (0..random.below(4)).map(|_| random.below(40)).collect();
    limits.sort_unstable();
    limits.dedup();
    let prices = limits.iter().chain(&[0]);
    let prices = prices.map(|_| random.below(130) as u32).collect();
    (limits, prices)
}

#[test]
fn litre_by_litre_it_is_the_same() {
    let mut random = Random::new(4);
    for _ in 0..4_000 {
        let (limits, prices) = some_blocks(&mut random);
        let (pulses, litres) = (random.below(14) as u32, random.within(1, 5) as u32);
        let earlier = random.word() as i32;
        let later = earlier.wrapping_add(pulses as i32);
        let charged = charge(earlier, later, litres, &limits, &prices);
        let expected = by_litre(u64::from(pulses * litres), &limits, &prices);
        assert_eq!(charged, (DONE, expected), "{limits:?} {prices:?}");
    }
}

/// "With the same blocks and litres per pulse, more pulses never cost less."
#[test]
fn more_pulses_never_cost_less() {
    let mut random = Random::new(44);
    for _ in 0..300 {
        let (limits, prices) = some_blocks(&mut random);
        let litres = random.within(1, 9) as u32;
        let charged = |pulses| of_pulses(pulses, litres, &limits, &prices).1;
        for pulses in 0..50 {
            assert!(charged(pulses) <= charged(pulses + 1));
        }
        let (one, other) = (random.word(), random.word());
        assert!(charged(one.min(other)) <= charged(one.max(other)));
    }
}

#[test]
fn equal_prices_charge_as_one_block() {
    let mut random = Random::new(444);
    for _ in 0..1_000 {
        let (limits, prices) = some_blocks(&mut random);
        let price = random.below(100_001) as u32;
        let equal = vec![price; prices.len()];
        let pulses = random.pick(&[0, 3, 40, 1_000, u32::MAX]);
        let one = of_pulses(pulses, 7, &[], &[price]);
        assert_eq!(of_pulses(pulses, 7, &limits, &equal), one);
    }
}
