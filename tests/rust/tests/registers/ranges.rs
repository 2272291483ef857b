//! What a write of each register accepts: values at and just outside the ends of
//! its range, and what no range has.

use crate::boxes::{enabled, number};
use crate::data::{self, parts, registers, Row};

/// Bytes of a register, and whether a write of them is to be accepted.
type Tried = Vec<(Vec<u8>, bool)>;

/// The next Real above one that is finite.
fn above(x: f32) -> f32 {
    let bits = x.to_bits();
    if x == 0.0 {
        f32::from_bits(1)
    } else if x > 0.0 {
        f32::from_bits(bits + 1)
    } else {
        f32::from_bits(bits - 1)
    }
}

fn below(x: f32) -> f32 {
    -above(-x)
}

/// NaNs of both signs, quiet and signalling, and the infinities: no range has them.
const NOT_FINITE: [u32; 7] = [
    0x7FC0_0000,
    0xFFC0_0000,
    0x7F80_0001,
    0xFF80_0001,
    0x7FFF_FFFF,
    0x7F80_0000,
    0xFF80_0000,
];

/// The two ends of `LOW <= x < HIGH`, or of `LOW <= x <= HIGH`, and whether the
/// high one is in.
fn ends(range: &str) -> (f32, f32, bool) {
    let (low, rest) = range.split_once(" <= x <").expect(range);
    let high = rest.strip_prefix('=').unwrap_or(rest);
    let end = |text: &str| text.trim().parse().unwrap_or_else(|_| panic!("{range}"));
    (end(low), end(high), rest.starts_with('='))
}

fn reals_between(range: &str) -> Vec<(f32, bool)> {
    let (low, high, high_in) = ends(range);
    let zero_in = low <= 0.0;
    let mut reals = vec![
        (below(low), false),
        (low, true),
        (above(low), true),
        (below(high), true),
        (high, high_in),
        (above(high), false),
        (0.0, zero_in),
        (-0.0, zero_in),
        (f32::MAX, false),
        (f32::MIN, false),
    ];
    reals.extend(NOT_FINITE.map(|bits| (f32::from_bits(bits), false)));
    reals
}

fn finite_reals() -> Vec<(f32, bool)> {
    let finite = [0.0, -0.0, f32::MAX, f32::MIN, above(0.0), below(0.0), 2.5];
    let mut reals: Vec<(f32, bool)> = finite.iter().map(|&x| (x, true)).collect();
    reals.extend(NOT_FINITE.map(|bits| (f32::from_bits(bits), false)));
    reals
}

/// Each Real in each place of the register, and 0 in the others.
fn in_each_place(size: usize, reals: &[(f32, bool)]) -> Tried {
    let place = |at: usize| {
        reals.iter().map(move |&(real, accepted)| {
            let mut bytes = vec![0; size];
            bytes[at..at + 4].copy_from_slice(&real.to_bits().to_be_bytes());
            (bytes, accepted)
        })
    };
    (0..size).step_by(4).flat_map(place).collect()
}

/// Each value of a byte at a place, and 0 in the others.
fn each_byte(size: usize, at: usize, accepted: impl Fn(u8) -> bool) -> Tried {
    let with = |value: u8| {
        let mut bytes = vec![0; size];
        bytes[at] = value;
        (bytes, accepted(value))
    };
    (0..=255).map(with).collect()
}

/// All bits 0, all 1, and each alone.
fn anything(size: usize) -> Tried {
    let single = |bit: usize| {
        let mut bytes = vec![0; size];
        bytes[bit / 8] = 1 << (bit % 8);
        (bytes, true)
    };
    let mut tried: Tried = (0..8 * size).map(single).collect();
    tried.extend([(vec![0; size], true), (vec![0xFF; size], true)]);
    tried
}

/// The values of one byte that a range lists: `any`, `N to M`, or values.
pub fn listed(range: &str) -> Vec<u8> {
    let one = |text: &str| {
        let value = data::number(text.trim()).and_then(|value| u8::try_from(value).ok());
        value.unwrap_or_else(|| panic!("no value of a byte: {range}"))
    };
    if range == "any" {
        return (0..=255).collect();
    }
    match range.split_once(" to ") {
        Some((low, high)) => (one(low)..=one(high)).collect(),
        None => range.split(',').map(one).collect(),
    }
}

fn by_field(row: &Row) -> Tried {
    let fields = parts("field", row.constant);
    assert_eq!(fields.iter().map(|f| f.size).sum::<usize>(), row.size);
    let tried = |field: &Row| {
        assert_eq!(field.size, 1, "{field:?}");
        let values = listed(field.range);
        each_byte(row.size, field.number.into(), |value| {
            values.contains(&value)
        })
    };
    fields.iter().flat_map(tried).collect()
}

/// What is tried of a register, by its range.
pub fn tried(row: &Row) -> Tried {
    match row.range {
        "any" => anything(row.size),
        "finite" => in_each_place(row.size, &finite_reals()),
        "by field" => by_field(row),
        "all bytes 0" => {
            let places = (0..row.size).map(|at| each_byte(row.size, at, |value| value == 0));
            places.flatten().collect()
        }
        range if range.contains('x') => in_each_place(row.size, &reals_between(range)),
        range => {
            assert_eq!(row.size, 1, "{row:?}");
            let values = listed(range);
            each_byte(1, 0, |value| values.contains(&value))
        }
    }
}

#[test]
fn a_write_accepts_the_range_and_nothing_else() {
    let ready = enabled();
    for row in registers().iter().filter(|row| row.is_writable()) {
        let tried = tried(row);
        assert!(tried.iter().any(|&(_, accepted)| accepted), "{row:?}");
        for swno in row.swnos() {
            for (bytes, accepted) in &tried {
                let answered = number(ready.clone().write(swno, bytes));
                let expected = if *accepted { 0 } else { 7 };
                assert_eq!(answered, expected, "{} ${swno:X} {bytes:02X?}", row.name);
            }
        }
    }
}

/// What cannot be written has no range, and what can has one.
#[test]
fn only_what_can_be_written_has_a_range() {
    for row in registers() {
        assert_eq!(row.range == "-", !row.is_writable(), "{row:?}");
    }
}

/// A field has a range of its own where its register has one by field; where the
/// register takes anything, so does the field.
#[test]
fn fields_have_the_range_of_their_register() {
    for row in registers().iter().filter(|row| row.range != "by field") {
        let expected = if row.range == "any" { "any" } else { "-" };
        for field in parts("field", row.constant) {
            assert_eq!(field.range, expected, "{field:?}");
        }
    }
}

/// A named value is one that the range lists, and where some have names, all have.
#[test]
fn named_values_are_those_of_the_range() {
    for row in data::rows() {
        let values = parts("value", row.constant);
        if values.is_empty() || row.range == "-" {
            continue;
        }
        let named: Vec<u16> = values.iter().map(|value| value.number).collect();
        let listed: Vec<u16> = listed(row.range).into_iter().map(u16::from).collect();
        assert_eq!(named, listed, "{row:?}");
    }
}
