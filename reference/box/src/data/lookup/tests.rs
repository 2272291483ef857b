//! Change 1: the lookup, sentence by sentence.

use super::*;
use crate::bench::Bench;
use crate::data::PAIRS;
use crate::generator::random::Random;
use crate::generator::values;
use crate::reals::NAN;

const MINUS_ZERO: Real = 0x8000_0000;
const LARGEST: Real = 0x7F7F_FFFF;
const MINUS_LARGEST: Real = 0xFF7F_FFFF;

fn real(number: f32) -> Real {
    number.to_bits()
}

/// A table with these pairs and, after them, X and Y of a million and more.
fn table(pairs: &[(f32, f32)]) -> LookUp {
    LookUp(std::array::from_fn(|index| {
        let after = 1e6 + index as f32;
        let &(x, y) = pairs.get(index).unwrap_or(&(after, after));
        Pair {
            x: real(x),
            y: real(y),
        }
    }))
}

/// X 0, 10, 20 … 90 with Y 1, 2, 4 … 512.
fn doubling() -> LookUp {
    let pair = |k: u32| ((10 * k) as f32, 2_f32.powi(k as i32));
    table(&(0..10).map(pair).collect::<Vec<_>>())
}

/// What the sentences give with the machine's 32-bit arithmetic.
fn by_machine(table: &LookUp, x: f32) -> Real {
    let pairs = table.0.map(|pair| (f32::from_bits(pair.x), pair.y));
    if x <= pairs[0].0 {
        return pairs[0].1;
    }
    if x > pairs[9].0 {
        return pairs[9].1;
    }
    let mut k = 0;
    while x > pairs[k].0 {
        k += 1;
    }
    if x == pairs[k].0 {
        return pairs[k].1;
    }
    let (x0, y0) = (pairs[k - 1].0, f32::from_bits(pairs[k - 1].1));
    let (x1, y1) = (pairs[k].0, f32::from_bits(pairs[k].1));
    let value = y0 + (y1 - y0) * (x - x0) / (x1 - x0);
    if value.is_nan() {
        NAN
    } else {
        value.to_bits()
    }
}

/// "15 when the table number isn't 1 or 2, asked first; 7 follows for a bad X."
/// "a refusal gives 0 for every value it would have answered".
#[test]
fn the_questions_are_15_then_7() {
    let mut bench = Bench::watchdog_off();
    bench.device.data.kept.tables = [doubling(); 2];
    for number in (0..=255).filter(|number| ![1, 2].contains(number)) {
        assert_eq!(bench.device.lookup(number, 0), (15, 0));
        assert_eq!(bench.device.lookup(number, NAN), (15, 0));
    }
    for x in [0x7F80_0000, 0xFF80_0000, NAN, 0x7F80_0001, 0xFFFF_FFFF] {
        for number in [1, 2] {
            assert_eq!(bench.device.lookup(number, x), (7, 0));
        }
    }
    assert_eq!(bench.device.lookup(1, LARGEST), (0, real(512.0)));
    assert_eq!(bench.device.lookup(2, MINUS_LARGEST), (0, real(1.0)));
}

#[test]
fn each_number_has_its_own_table() {
    let mut bench = Bench::watchdog_off();
    bench.device.data.kept.tables[1] = doubling();
    assert_eq!(bench.device.lookup(1, real(20.0)), (0, 0));
    assert_eq!(bench.device.lookup(2, real(20.0)), (0, real(4.0)));
}

/// "At or below X1 it gives Y1, else above X10 it gives Y10."
#[test]
fn the_ends_hold_their_y() {
    let table = doubling();
    for (x, y) in [
        (-1.0, 1.0),
        (0.0, 1.0),
        (-0.0, 1.0),
        (90.0, 512.0),
        (91.0, 512.0),
    ] {
        assert_eq!(table.value(real(x)), real(y), "{x}");
    }
}

/// "Where X equals Xk the answer is exactly Yk; else it is Y(k−1) + (Yk −
/// Y(k−1)) times (X − X(k−1)) / (Xk − X(k−1))".
#[test]
fn entries_and_what_lies_between_them() {
    let table = doubling();
    for (x, y) in [(10.0, 2.0), (20.0, 4.0), (15.0, 3.0), (85.0, 384.0)] {
        assert_eq!(table.value(real(x)), real(y), "{x}");
    }
}

/// The formula at Xk itself would lose Yk here: rise and Y(k−1) are rounded.
#[test]
fn an_entry_is_exact_where_the_formula_is_not() {
    let table = table(&[(0.0, 1e8), (1.0, 0.3)]);
    assert_ne!(real(1e8_f32 + (0.3 - 1e8) * 1.0), real(0.3));
    assert_eq!(table.value(real(1.0)), real(0.3));
}

/// "each operation rounded once, left to right": the product before the
/// quotient, and no operation joined with another.
#[test]
fn operations_are_rounded_one_by_one_from_left_to_right() {
    let mut random = Random::new(1);
    let (mut other_order, mut joined) = (0, 0);
    for _ in 0..20_000 {
        let [y0, y1, x0] = [(); 3].map(|()| random.below(1 << 20) as f32 / 1024.0);
        let step = random.within(1, 1 << 20) as f32 / 1024.0;
        let x1 = x0 + step;
        let x = x0 + step * (random.below(1 << 24) as f32 / 16_777_216.0);
        if x <= x0 || x >= x1 {
            continue;
        }
        let value = table(&[(x0, y0), (x1, y1)]).value(real(x));
        assert_eq!(value, real(y0 + (y1 - y0) * (x - x0) / (x1 - x0)));
        let quotient_first = y0 + (y1 - y0) * ((x - x0) / (x1 - x0));
        let fused = ((x - x0) / (x1 - x0)).mul_add(y1 - y0, y0);
        other_order += u32::from(value != real(quotient_first));
        joined += u32::from(value != real(fused));
    }
    assert!(
        other_order > 1000 && joined > 1000,
        "{other_order} {joined}"
    );
}

/// "A NaN is answered as $7FC00000"; an infinity is answered as it is.
#[test]
fn an_overflow_goes_on() {
    let huge = |x: Real, y: Real| Pair { x, y };
    let mut table = doubling();
    // The product is infinite.
    table.0[0] = huge(0, MINUS_LARGEST);
    table.0[1] = huge(real(10.0), LARGEST);
    assert_eq!(table.value(real(5.0)), 0x7F80_0000);
    table.0[0].y = LARGEST;
    table.0[1].y = MINUS_LARGEST;
    assert_eq!(table.value(real(5.0)), 0xFF80_0000);
    assert_eq!(table.value(real(10.0)), MINUS_LARGEST);
    // The step is infinite, the product not.
    table.0[0] = huge(MINUS_LARGEST, real(5.0));
    table.0[1] = huge(LARGEST, real(6.0));
    table.0[9] = huge(LARGEST, real(7.0));
    assert_eq!(table.value(MINUS_LARGEST - 1), real(5.0));
    // Both are.
    table.0[1].y = MINUS_LARGEST;
    assert_eq!(table.value(0), NAN);
    let mut bench = Bench::watchdog_off();
    bench.device.data.kept.tables[0] = table;
    assert_eq!(bench.device.lookup(1, 0), (0, 0x7FC0_0000));
}

/// Entries are compared as numbers, and Y is given bit by bit.
#[test]
fn minus_zero_equals_zero() {
    let table = table(&[(-1.0, 5.0), (-0.0, -0.0), (0.0, 7.0), (1.0, 8.0)]);
    assert_eq!(table.value(0), MINUS_ZERO);
    assert_eq!(table.value(MINUS_ZERO), MINUS_ZERO);
    let mut first = table;
    first.0[0] = Pair {
        x: MINUS_ZERO,
        y: MINUS_ZERO,
    };
    assert_eq!(first.value(0), MINUS_ZERO);
}

#[test]
fn subnormals_are_not_flushed() {
    let mut table = doubling();
    table.0[0] = Pair { x: 1, y: 1 };
    table.0[1] = Pair { x: 5, y: 9 };
    assert_eq!(table.value(3), by_machine(&table, f32::from_bits(3)));
    assert_eq!(table.value(1), 1);
    assert_eq!(table.value(5), 9);
}

/// "take the first k with X not above Xk", X1 and X10 before it.
#[test]
fn tables_that_do_not_rise_follow_the_sentences_in_order() {
    let mut table = doubling();
    table.0.reverse();
    // X1 is 90, X10 is 0: at or below 90 comes Y1, all else is above X10.
    assert_eq!(table.value(real(45.0)), real(512.0));
    assert_eq!(table.value(real(91.0)), real(1.0));
    let mut swapped = doubling();
    swapped.0.swap(4, 5);
    // 0 10 20 30 50 40 60: 45 lies between 30 and 50, and 40 too.
    let [y30, y50] = [8.0, 32.0];
    assert_eq!(swapped.value(real(45.0)), real(y30 + (y50 - y30) * 0.75));
    assert_eq!(swapped.value(real(40.0)), real(y30 + (y50 - y30) * 0.5));
    // 55 lies between the second of them, 40, and 60.
    let [y40, y60] = [16.0, 64.0];
    assert_eq!(swapped.value(real(55.0)), real(y40 + (y60 - y40) * 0.75));
    let mut repeated = doubling();
    repeated.0[3].x = repeated.0[2].x;
    assert_eq!(repeated.value(real(20.0)), real(4.0));
    let above = real(20.0) + 1;
    assert_eq!(
        repeated.value(above),
        by_machine(&repeated, f32::from_bits(above))
    );
    let flat = LookUp([Pair { x: 0, y: 9 }; PAIRS]);
    assert_eq!((flat.value(0), flat.value(1)), (9, 9));
}

/// "acts, where it is [...] not finite, as it stands after a refused power-up".
#[test]
fn an_entry_that_is_not_finite_acts_as_0() {
    let with = |change: fn(&mut LookUp, Real), bad: Real| {
        let (mut bad_table, mut zero_table) = (doubling(), doubling());
        change(&mut bad_table, bad);
        change(&mut zero_table, 0);
        for x in [-5.0, 0.0, 5.0, 10.0, 15.0, 20.0, 25.0, 89.0, 90.0, 99.0] {
            let found = bad_table.value(real(x));
            assert_eq!(found, zero_table.value(real(x)), "{bad:08x} {x}");
        }
    };
    for bad in [0x7F80_0000, 0xFF80_0000, NAN, 0xFF80_0001] {
        with(|table, real| table.0[0].x = real, bad);
        with(|table, real| table.0[0].y = real, bad);
        with(|table, real| table.0[2].x = real, bad);
        with(|table, real| table.0[2].y = real, bad);
        with(|table, real| table.0[9].x = real, bad);
        with(|table, real| table.0[9].y = real, bad);
    }
}

#[test]
fn random_tables_are_looked_up_as_the_machine_does() {
    let mut random = Random::new(7);
    let (mut infinite, mut nan) = (0, 0);
    for _ in 0..20_000 {
        let table = values::table(&mut random);
        for _ in 0..20 {
            let x = values::x_for(&mut random, &table);
            if !reals::is_finite(x) {
                continue;
            }
            let expected = by_machine(&table, f32::from_bits(x));
            let found = reals::as_read(table.value(x));
            assert_eq!(found, expected, "{x:08x} in {table:08x?}");
            nan += u32::from(found == NAN);
            infinite += u32::from(found & 0x7FFF_FFFF == 0x7F80_0000);
        }
    }
    assert!(infinite > 100 && nan > 100, "{infinite} {nan}");
}

/// A local call is no wire call: no clearing and no preset.
#[test]
fn a_lookup_changes_nothing() {
    let mut bench = crate::bench::with_watchdog(8);
    bench.ticks(1);
    let before = bench.device.clone();
    bench.device.lookup(1, 0);
    bench.device.lookup(2, NAN);
    bench.device.lookup(3, 0);
    assert_eq!(bench.device, before);
    assert_eq!(before.wd_timer, 0);
}
