//! Each operation against the machine's, which rounds in the same way.

use super::*;
use crate::generator::random::Random;

type Operation = fn(Real, Real) -> Real;
type Machine = fn(f32, f32) -> f32;

const OPERATIONS: [(&str, Operation, Machine); 4] = [
    ("+", add, |left, right| left + right),
    ("-", subtract, |left, right| left - right),
    ("*", multiply, |left, right| left * right),
    ("/", divide, |left, right| left / right),
];

/// Every operation on two patterns; every NaN is the one pattern.
fn check(left: Real, right: Real) {
    for (name, operation, machine) in OPERATIONS {
        let exact = machine(f32::from_bits(left), f32::from_bits(right));
        let expected = if exact.is_nan() { NAN } else { exact.to_bits() };
        let found = operation(left, right);
        assert_eq!(found, expected, "{left:08x} {name} {right:08x}");
    }
}

/// Patterns at the ends of every part of the line, with their neighbours.
fn corners() -> Vec<Real> {
    let ends = [
        0x0000_0000,
        0x0000_0003,
        0x0040_0000,
        0x0080_0000, // the smallest that is no subnormal
        0x0100_0000,
        0x0B80_0000,
        0x0C00_0000,
        0x1F80_0000, // 2^-64
        0x2000_0000,
        0x3380_0000, // 2^-24
        0x3400_0000,
        0x3EAA_AAAB, // a third
        0x3F00_0000,
        0x3F80_0000,
        0x3FC0_0000,
        0x4000_0000,
        0x4B00_0000, // 2^23
        0x4B80_0000, // 2^24
        0x5F00_0000,
        0x5F80_0000, // 2^64
        0x7E80_0000,
        0x7F00_0000,
        0x7F80_0000,
        0x7FC0_0000,
    ];
    ends.iter()
        .flat_map(|&end: &Real| [end.saturating_sub(1), end, end + 1])
        .flat_map(|real| [real, real | SIGN])
        .collect()
}

#[test]
fn corners_are_as_the_machine_has_them() {
    for left in corners() {
        for right in corners() {
            check(left, right);
        }
    }
}

#[test]
fn any_patterns_are_as_the_machine_has_them() {
    let mut random = Random::new(31);
    for _ in 0..500_000 {
        check(random.word(), random.word());
    }
}

/// Exponents near each other, near both ends and with few bits set, where
/// carries, cancellation, ties and subnormal results are.
#[test]
fn near_patterns_are_as_the_machine_has_them() {
    let mut random = Random::new(32);
    for _ in 0..500_000 {
        let left = random.word();
        let apart = random.below(60) as u32;
        let near = left.wrapping_add(apart << 23).wrapping_sub(30 << 23);
        let few_bits = near & !0x007F_FFFF | 1 << random.below(23);
        let beside = left ^ random.below(16) as u32;
        let right = random.pick(&[near, near ^ SIGN, few_bits, beside, beside ^ SIGN]);
        check(left, right);
        check(right, left);
        check(left & 0x81FF_FFFF, right & 0x81FF_FFFF);
        check(left | 0x7E00_0000, right);
        check(left, random.below(0x0100_0000) as u32);
    }
}

/// Products and quotients whose exact value lies near the smallest Reals.
#[test]
fn results_near_the_smallest_are_as_the_machine_has_them() {
    let mut random = Random::new(33);
    for _ in 0..500_000 {
        let left = random.word();
        let exponent = left >> 23 & 0xFF;
        let sum = 127 + random.below(40) as u32;
        let other = sum.saturating_sub(exponent + 26).min(254) << 23;
        check(left, random.word() & 0x807F_FFFF | other);
        let ratio = (exponent + 127 + random.below(40) as u32).saturating_sub(13);
        check(left, random.word() & 0x807F_FFFF | ratio.min(254) << 23);
    }
}

#[test]
fn every_nan_is_one_pattern() {
    for nan in [0x7F80_0001, 0xFFC0_0000, 0xFFFF_FFFF] {
        for (_, operation, _) in OPERATIONS {
            assert_eq!(operation(nan, 0x3F80_0000), NAN);
            assert_eq!(operation(0x3F80_0000, nan), NAN);
        }
    }
    assert_eq!(subtract(INFINITY, INFINITY), NAN);
    assert_eq!(divide(INFINITY, INFINITY | SIGN), NAN);
    assert_eq!(divide(ZERO, SIGN), NAN);
    assert_eq!(multiply(ZERO, INFINITY), NAN);
}
