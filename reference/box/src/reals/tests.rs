mod nearest;

use super::*;

const MINUS_ZERO: Real = SIGN;
const SMALLEST: Real = 1;
const MINUS_SMALLEST: Real = SIGN | 1;
const LARGEST: Real = 0x7F7F_FFFF;
const MINUS_INFINITY: Real = SIGN | INFINITY;

/// Patterns from every part of the line.
fn samples() -> Vec<Real> {
    let ends = [
        ZERO,
        SMALLEST,
        ONE_TENTH,
        ONE,
        TWO,
        TIMER_END,
        OPERATING_END,
        INFINITY,
        NAN,
        LARGEST,
        0x3B80_0000,
        0x007F_FFFF,
        0x0080_0000,
    ];
    ends.iter()
        .flat_map(|&end| [end.wrapping_sub(1), end, end + 1])
        .flat_map(|real| [real, real ^ SIGN])
        .collect()
}

#[test]
fn compares_as_the_machine_does() {
    for left in samples() {
        for right in samples() {
            let machine = f32::from_bits(left) < f32::from_bits(right);
            assert_eq!(less(left, right), machine, "{left:08x} < {right:08x}");
            assert_eq!(greater(right, left), machine);
        }
    }
}

#[test]
fn a_nan_compares_false_and_reads_as_one_pattern() {
    for nan in [NAN, 0x7F80_0001, 0xFFFF_FFFF, 0xFFC0_0000] {
        assert!(is_nan(nan) && !is_finite(nan));
        assert!(!less(nan, ONE) && !less(ONE, nan) && !less(nan, nan));
        assert_eq!(as_read(nan), NAN);
    }
    assert_eq!(as_read(MINUS_INFINITY), MINUS_INFINITY);
    assert_eq!(as_read(MINUS_ZERO), MINUS_ZERO);
}

#[test]
fn timers_allow_their_range_only() {
    for real in [
        MINUS_TIMER_END,
        0xCAFF_FFFF,
        0x4AFF_FFFF,
        MINUS_ZERO,
        MINUS_SMALLEST,
    ] {
        assert!(is_timer(real), "{real:08x}");
    }
    for real in [TIMER_END, 0xCB00_0001, INFINITY, MINUS_INFINITY, NAN] {
        assert!(!is_timer(real), "{real:08x}");
    }
}

#[test]
fn presets_and_operating_time_start_at_zero() {
    for real in [ZERO, MINUS_ZERO, SMALLEST, 0x4AFF_FFFF] {
        assert!(is_preset(real) && is_operating(real), "{real:08x}");
    }
    for real in [MINUS_SMALLEST, 0xBB80_0000, INFINITY, NAN, OPERATING_END] {
        assert!(!is_preset(real) && !is_operating(real), "{real:08x}");
    }
    assert!(!is_preset(TIMER_END) && is_operating(TIMER_END));
    assert!(is_operating(0x4DFF_FFFF));
}

#[test]
fn limits_allow_zero_to_one() {
    for real in [ZERO, MINUS_ZERO, SMALLEST, ONE_TENTH, 0x3F7F_FFFF, ONE] {
        assert!(is_limit(real), "{real:08x}");
    }
    for real in [ONE + 1, MINUS_SMALLEST, INFINITY, NAN, SIGN | ONE] {
        assert!(!is_limit(real), "{real:08x}");
    }
}

#[test]
fn read_counts_equal_exact_arithmetic() {
    let mut state = 1_u32;
    for round in 0..200_000 {
        state = state.wrapping_mul(1_664_525).wrapping_add(1_013_904_223);
        let count = state >> (round % 32);
        let timer = f64::from(count as i32) / 256.0;
        let operating = f64::from(count) / 8.0;
        assert_eq!(from_timer_count(count as i32), (timer as f32).to_bits());
        assert_eq!(from_operating_count(count), (operating as f32).to_bits());
    }
}

#[test]
fn ties_go_to_the_even_last_bit() {
    assert_eq!(from_operating_count(0x0100_0001), 0x4A00_0000);
    assert_eq!(from_operating_count(0x0100_0002), 0x4A00_0001);
    assert_eq!(from_operating_count(0x0100_0003), 0x4A00_0002);
    assert_eq!(from_operating_count(u32::MAX), OPERATING_END);
    assert_eq!(from_timer_count(i32::MAX), TIMER_END);
    assert_eq!(from_timer_count(i32::MIN), MINUS_TIMER_END);
}
