//! What scripts of charges reach: each way to charge wrong is told by one.

use crate::generator::kinds::{self, Kind};
use crate::player::{Call, Charge};
use crate::{charge, ChannelBox};
use std::collections::BTreeSet;

mod wrong;

fn charges(calls: &[Call]) -> Vec<&Charge> {
    calls
        .iter()
        .filter_map(|call| match call {
            Call::Charge(charge) => Some(charge),
            _ => None,
        })
        .collect()
}

fn answer(of: &Charge) -> (u8, u64) {
    let (limits, prices) = (&of.limits, &of.prices);
    charge::charge(of.earlier, of.later, of.litres_per_pulse, limits, prices)
}

/// The corners that a charge is at.
fn corners(of: &Charge) -> Vec<String> {
    let (number, cents) = answer(of);
    let pulses = charge::pulses(of.earlier, of.later);
    let blocks = of.prices.len();
    let mut corners = vec![format!("{number} blocks {blocks}")];
    corners.push(format!("{number} litres per pulse {}", of.litres_per_pulse));
    corners.extend(of.prices.iter().map(|price| format!("price {price}")));
    corners.extend(of.limits.iter().map(|limit| format!("limit {limit}")));
    if number == 0 {
        let litres = u64::from(pulses) * u64::from(of.litres_per_pulse);
        let sum = charge::hundredths(litres, &of.limits, &of.prices);
        corners.push(format!("ending {}", sum % 100));
        corners.push(format!("pulses {pulses}"));
        corners.push(format!("cents {cents}"));
        corners.push(format!("wrapped {}", of.later < of.earlier));
        let beside = |limit: &u64| i128::from(litres) - i128::from(*limit);
        for (place, limit) in of.limits.iter().enumerate() {
            let beside = beside(limit).clamp(-2, 2);
            corners.push(format!("limit {place} beside {beside}"));
        }
    }
    corners
}

fn expected() -> Vec<String> {
    let mut expected = Vec::new();
    for blocks in 1..=4 {
        expected.push(format!("0 blocks {blocks}"));
        expected.push(format!("17 blocks {blocks}"));
    }
    expected.extend([0, 5, 8].map(|blocks| format!("17 blocks {blocks}")));
    expected.extend([1, 10, 100, 1_000, 10_000].map(|of| format!("0 litres per pulse {of}")));
    expected.extend([0, 10_001].map(|of| format!("16 litres per pulse {of}")));
    for price in [
        0,
        1,
        49,
        50,
        51,
        99,
        100,
        99_999,
        100_000,
        100_001,
        u32::MAX,
    ] {
        expected.push(format!("price {price}"));
    }
    for limit in [0, 1, u64::MAX] {
        expected.push(format!("limit {limit}"));
    }
    expected.extend([0, 49, 50, 51, 99].map(|ending| format!("ending {ending}")));
    expected.extend([0, 1, u32::MAX].map(|pulses| format!("pulses {pulses}")));
    expected.extend([false, true].map(|wrapped| format!("wrapped {wrapped}")));
    for place in 0..3 {
        expected.extend([-2, -1, 0, 1, 2].map(|of| format!("limit {place} beside {of}")));
    }
    expected
}

#[test]
fn one_script_reaches_each_corner() {
    for seed in [1, 2, 3, 3120] {
        let calls = kinds::calls(seed, 1700, Kind::Charges);
        let charges = charges(&calls);
        assert!(charges.len() > 700, "{}", charges.len());
        let seen: BTreeSet<String> = charges.iter().flat_map(|of| corners(of)).collect();
        for corner in expected() {
            assert!(seen.contains(&corner), "seed {seed}: {corner}");
        }
    }
}

#[test]
fn the_largest_charge_comes() {
    let mut scripts = [1, 2, 3, 3120]
        .iter()
        .map(|&seed| kinds::calls(seed, 1700, Kind::Charges));
    let largest = (0, 42_949_672_950_000_000);
    assert!(scripts.any(|calls| charges(&calls).iter().any(|of| answer(of) == largest)));
}

/// The same blocks and litres per pulse, and one more pulse.
#[test]
fn pairs_of_charges_have_one_more_pulse() {
    let calls = kinds::calls(3, 1700, Kind::Charges);
    let more = charges(&calls)
        .windows(2)
        .filter(|pair| {
            let later = pair[0].later.wrapping_add(1);
            let other = Charge {
                later,
                ..pair[0].clone()
            };
            other == *pair[1]
        })
        .count();
    assert!(more > 20, "{more}");
}

/// Charges with the very values that two reads of a Counter gave.
#[test]
fn some_charges_have_readings_of_the_scripts_box() {
    let mut device = ChannelBox::default();
    let mut readings: Vec<i32> = Vec::new();
    let mut charged = [0; 2];
    for call in kinds::calls(2, 1700, Kind::Charges) {
        let reply = call.make(&mut device).to_string();
        match call {
            Call::Read(swno, _) if swno & 0xF == 2 && (0x10..0x110).contains(&swno) => {
                let buffer = reply.split(' ').nth(5).expect("a buffer");
                let counter = u32::from_str_radix(&buffer[..8], 16).expect("digits");
                readings.push(counter as i32);
            }
            Call::Charge(of) => {
                let last = readings.iter().rev().take(2).collect::<Vec<_>>();
                if last == [&of.later, &of.earlier] {
                    charged[usize::from(of.earlier != of.later)] += 1;
                }
            }
            _ => {}
        }
    }
    assert!(charged[0] > 5 && charged[1] > 10, "{charged:?}");
}

#[test]
fn mixed_scripts_have_charges() {
    for seed in [1, 2, 3, 3120] {
        let calls = kinds::calls(seed, 1700, Kind::Mixed);
        assert!(!charges(&calls).is_empty());
    }
}
