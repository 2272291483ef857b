//! Charges, done and refused, through the whole wrapper.

use pd3120::charge::{HIGHEST_PRICE, MOST_BLOCKS, MOST_LITRES_PER_PULSE};
use pd3120::{charge, Block, ChargeRefusal, Tariff};

/// Limits and their prices, and the last price.
fn tariff(limited: &[(u64, u32)], last: u32) -> Tariff {
    let block = |&(limit, price): &(u64, u32)| Block { limit, price };
    let limited: Vec<Block> = limited.iter().map(block).collect();
    Tariff::new(&limited, last)
}

/// Two readings, litres per pulse, the limited blocks, the last price, the cents.
type Worked = (i32, i32, u32, &'static [(u64, u32)], u32, u64);

const WORKED: &[Worked] = &[
    (100, 350, 10, &[(1000, 150), (2000, 200)], 325, 5125),
    (0, 10, 1, &[(10, 100)], 200, 10),
    (0, 11, 1, &[(10, 100)], 200, 12),
    (0, 12, 7, &[(20, 135), (50, 99), (80, 1)], 51, 59),
    (0, 13, 7, &[(20, 135), (50, 99), (80, 1)], 51, 63),
    (0, 3, 10, &[(10, 300), (20, 0)], 100, 40),
    (0, 7, 1, &[(0, 100_000), (3, 100)], 200, 11),
    (0, 2, 10_000, &[(1 << 32, 7), (u64::MAX, 100_000)], 0, 1400),
    (0, 1, 1, &[], 50, 1),
    (0, 1, 1, &[], 49, 0),
    (0, 3, 1, &[(1, 50), (2, 50)], 50, 2),
    (7, 7, 10_000, &[], 100_000, 0),
    (i32::MAX - 1, i32::MIN + 1, 100, &[], 49, 147),
    (5, 4, 1, &[], 1, 42_949_673),
    (1, 0, 10_000, &[], 100_000, 42_949_672_950_000_000),
];

#[test]
fn worked_charges() {
    for &(earlier, later, litres, limited, last, cents) in WORKED {
        let found = charge(earlier, later, litres, &tariff(limited, last));
        assert_eq!(found, Ok(cents), "{earlier} {later} {litres}");
    }
}

#[test]
fn litres_per_pulse_out_of_range_are_refused_before_the_blocks() {
    let good = tariff(&[(10, 100)], 200);
    let none = Tariff { blocks: 0, ..good };
    for litres in [0, MOST_LITRES_PER_PULSE + 1, 65_537, u32::MAX] {
        for tariff in [&good, &none] {
            let refused = charge(0, 1, litres, tariff);
            assert_eq!(refused, Err(ChargeRefusal::LitresPerPulse));
        }
    }
    assert_eq!(charge(0, 1, MOST_LITRES_PER_PULSE, &good), Ok(19_990));
}

#[test]
fn blocks_that_are_no_tariff_are_refused() {
    let one = tariff(&[], 1);
    let count = |blocks| Tariff { blocks, ..one };
    let refused = [
        count(0),
        count(MOST_BLOCKS + 1),
        count(257),
        count(u32::MAX),
        tariff(&[(1, 1), (2, 1), (3, 1), (4, 1)], 1),
        tariff(&[(1, 1); 300], 1),
        tariff(&[(10, 1), (10, 1)], 1),
        tariff(&[(10, 1), (9, 1)], 1),
        tariff(&[(10, 1), (20, 1), (20, 1)], 1),
        tariff(&[(10, 1), (20, HIGHEST_PRICE + 1)], 1),
        tariff(&[(10, 1), (20, 1), (30, 1)], u32::MAX),
    ];
    for tariff in refused {
        let answer = charge(0, 1, 1, &tariff);
        assert_eq!(answer, Err(ChargeRefusal::Blocks), "{tariff:?}");
    }
}

#[test]
fn what_stands_past_the_blocks_is_not_looked_at() {
    let tariff = Tariff {
        blocks: 2,
        limits: [10, 0, 0],
        prices: [100, 200, HIGHEST_PRICE + 1, u32::MAX],
    };
    assert_eq!(charge(0, 11, 1, &tariff), Ok(12));
}
