//! Change 5: "A Real time written becomes the nearest count, ties to the even
//! one; the operating time likewise."

use super::*;

/// 0.1 s to 1.0 s as typed, and what they are in counts of 1/256 s and of
/// 1/8 s: 25.6, 51.2, 76.8 and so on, and 0.8, 1.6, 2.4 and so on.
const TYPED: [(f32, i32, u32); 10] = [
    (0.1, 26, 1),
    (0.2, 51, 2),
    (0.3, 77, 2),
    (0.4, 102, 3),
    (0.5, 128, 4),
    (0.6, 154, 5),
    (0.7, 179, 6),
    (0.8, 205, 6),
    (0.9, 230, 7),
    (1.0, 256, 8),
];

/// Ties as Reals in 1/256 s and in 1/8 s, the count below each, and the count
/// that it becomes. The last two are the largest: 8388606.5 and 8388607.5 need
/// all 24 bits of a significand.
const TIES: [(Real, Real, u32, u32); 8] = [
    (0x3B00_0000, 0x3D80_0000, 0, 0),
    (0x3BC0_0000, 0x3E40_0000, 1, 2),
    (0x3C20_0000, 0x3EA0_0000, 2, 2),
    (0x3C60_0000, 0x3EE0_0000, 3, 4),
    (0x3C90_0000, 0x3F10_0000, 4, 4),
    (0x3CB0_0000, 0x3F30_0000, 5, 6),
    (0x46FF_FFFD, 0x497F_FFFD, 8_388_606, 8_388_606),
    (0x46FF_FFFF, 0x497F_FFFF, 8_388_607, 8_388_608),
];

/// Both signs of a timer; the count of the Real without a sign.
fn timer_magnitude(real: Real) -> u32 {
    let count = to_timer_count(real);
    assert_eq!(to_timer_count(SIGN | real), -count, "{real:08x}");
    count as u32
}

#[test]
fn typed_times_become_the_nearest_count() {
    for (typed, timer, operating) in TYPED {
        let real = typed.to_bits();
        assert_eq!(to_timer_count(real), timer, "{typed}");
        assert_eq!(to_timer_count(SIGN | real), -timer, "{typed}");
        assert_eq!(to_operating_count(real), operating, "{typed}");
    }
}

#[test]
fn ties_become_the_even_count() {
    for (timer, operating, _, count) in TIES {
        assert_eq!(timer_magnitude(timer), count, "{timer:08x}");
        assert_eq!(to_operating_count(operating), count, "{operating:08x}");
    }
}

/// One pattern off a tie, the count on that side is the nearest.
#[test]
fn beside_ties_the_nearer_count_is_taken() {
    for (timer, operating, below, _) in TIES {
        for (offset, count) in [(u32::MAX, below), (1, below + 1)] {
            let [timer, operating] = [timer, operating].map(|tie| tie.wrapping_add(offset));
            assert_eq!(timer_magnitude(timer), count, "{timer:08x}");
            assert_eq!(to_operating_count(operating), count, "{operating:08x}");
        }
    }
}

#[test]
fn counts_with_a_pattern_beside_them_stay() {
    for (real, count) in [(0x3B80_0000, 1), (0x3C00_0000, 2), (0x3F80_0000, 256)] {
        for beside in [real - 1, real, real + 1] {
            assert_eq!(timer_magnitude(beside), count, "{beside:08x}");
        }
    }
    for (real, count) in [(0x3E00_0000, 1), (0x3E80_0000, 2), (0x3F80_0000, 8)] {
        for beside in [real - 1, real, real + 1] {
            assert_eq!(to_operating_count(beside), count, "{beside:08x}");
        }
    }
}

#[test]
fn what_is_far_below_half_a_count_becomes_0() {
    for real in [ZERO, SMALLEST, 0x007F_FFFF, 0x0080_0000, 0x3AFF_FFFF] {
        assert_eq!(timer_magnitude(real), 0, "{real:08x}");
        assert_eq!(to_operating_count(real), 0, "{real:08x}");
    }
    assert_eq!(to_operating_count(MINUS_ZERO), 0);
    for exponent in 0..118 {
        let largest = exponent << FRACTION_BITS | FRACTION;
        assert_eq!(timer_magnitude(largest), 0, "{largest:08x}");
        assert_eq!(to_operating_count(largest), 0, "{largest:08x}");
    }
}

/// "Ranges are tested before rounding": these are below 0 though they would
/// become 0.
#[test]
fn what_would_become_0_from_below_is_out_of_range() {
    for real in [MINUS_SMALLEST, 0xBAFF_FFFF, 0xBB00_0000] {
        assert!(!is_preset(real) && !is_operating(real), "{real:08x}");
        assert!(is_timer(real));
        assert_eq!(to_timer_count(real), 0, "{real:08x}");
    }
}

/// "no Real inside them rounds past the largest count": the greatest Reals are
/// whole counts.
#[test]
fn the_ends_of_the_ranges_are_whole_counts() {
    let [timer, operating] = [TIMER_END - 1, OPERATING_END - 1];
    assert!(is_preset(timer) && is_timer(timer) && is_operating(operating));
    assert_eq!(to_timer_count(timer), 2_147_483_520);
    assert_eq!(to_operating_count(operating), 4_294_967_040);
    assert_eq!(to_timer_count(SIGN | timer), -2_147_483_520);
    assert_eq!(to_timer_count(MINUS_TIMER_END), i32::MIN);
    assert!(!is_timer(TIMER_END) && !is_operating(OPERATING_END));
}

/// Another way to the same counts: f64 holds a Real's counts exactly, and the
/// machine rounds them.
fn agrees_with_the_machine(real: Real) {
    let exact = f64::from(f32::from_bits(real));
    if is_timer(real) {
        let count = (exact * 256.0).round_ties_even();
        assert_eq!(f64::from(to_timer_count(real)), count, "{real:08x}");
    }
    if is_operating(real) {
        let count = (exact * 8.0).round_ties_even();
        assert_eq!(f64::from(to_operating_count(real)), count, "{real:08x}");
    }
}

#[test]
fn written_counts_equal_exact_arithmetic() {
    samples().into_iter().for_each(agrees_with_the_machine);
    let mut state = 1_u32;
    for _ in 0..200_000 {
        state = state.wrapping_mul(1_664_525).wrapping_add(1_013_904_223);
        agrees_with_the_machine(state);
        // About the counts, where most is decided: fields of 112 to 175.
        let about = 0x3800_0000 + (state << 3 >> 3);
        agrees_with_the_machine(state & SIGN | about);
    }
}

/// Patterns that end in 16 zero bits, ties of every size among them, and those
/// beside each.
#[test]
fn short_patterns_equal_exact_arithmetic() {
    for leading in 0..=u16::MAX {
        let real = u32::from(leading) << 16;
        for beside in [real.wrapping_sub(1), real, real + 1] {
            agrees_with_the_machine(beside);
        }
    }
}

/// Numbers of at most 24 bits: both ends, and some between.
fn significands() -> impl Iterator<Item = u32> {
    let ends = (0..1000).chain((1 << 24) - 1000..1 << 24);
    ends.chain((0..1 << 24).step_by(997))
}

/// A count of at most 24 significant bits comes back when what it reads is
/// written.
#[test]
fn a_count_that_reads_exactly_is_written_back() {
    for significand in significands() {
        for zeros in 0..=8 {
            let count = significand << zeros;
            let read = from_operating_count(count);
            assert_eq!(to_operating_count(read), count, "{count}");
            if let Ok(count) = i32::try_from(count) {
                assert_eq!(to_timer_count(from_timer_count(count)), count);
                assert_eq!(to_timer_count(from_timer_count(-count)), -count);
            }
        }
    }
    assert_eq!(to_timer_count(from_timer_count(i32::MIN)), i32::MIN);
}
