//! A second opinion from the machine's own float and integer arithmetic.

mod times;

use std::collections::HashSet;

use crate::kinds::{Kind, KINDS};
use crate::random::Random;
use crate::{input_line, output_line, words_of};

/// What `f64::round_ties_even` gives, which Rust 1.63 doesn't have: the machine
/// rounds the sum so, and its last bit is worth 1. For numbers below 2^51.
fn round_ties_even(number: f64) -> f64 {
    const LAST_BIT_IS_ONE: f64 = 6_755_399_441_055_744.0;
    number + LAST_BIT_IS_ONE - LAST_BIT_IS_ONE
}

/// Every step in f64 is exact here, so the only rounding is the last one.
fn machine_result(name: &str, word: u32) -> Option<u32> {
    let real = f32::from_bits(word);
    let exact = f64::from(real);
    let count = word as i32;
    let [_, _, high, low] = word.to_be_bytes();
    let timer = || round_ties_even(exact * 256.0) as i32 as u32;
    Some(match name {
        "wt" if (-8388608.0..8388608.0).contains(&exact) => timer(),
        "wp" if (0.0..8388608.0).contains(&exact) => timer(),
        "wo" if (0.0..536870912.0).contains(&exact) => round_ties_even(exact * 8.0) as u32,
        "wl" if (0.0..=1.0).contains(&real) => word,
        "wc" if real.is_finite() => word,
        "wt" | "wp" | "wo" | "wl" | "wc" => return None,
        "rt" => ((f64::from(count) / 256.0) as f32).to_bits(),
        "ro" => ((f64::from(word) / 8.0) as f32).to_bits(),
        "rb" if real.is_nan() => 0x7fc0_0000,
        "rb" => word,
        "so" => count.wrapping_sub(8) as u32,
        "sf" => count.saturating_sub(8) as u32,
        "sw" => count.saturating_sub(8).max(0) as u32,
        "sr" => count.wrapping_add(8) as u32,
        "sc" => count.wrapping_add(1) as u32,
        "sp" => word.saturating_add(1),
        "u2" => u32::from(u16::from_be_bytes([high, low])),
        _ => panic!("no kind {name}"),
    })
}

fn agree(kind: &Kind, word: u32) {
    let exact = (kind.result)(word);
    let machine = machine_result(kind.name, word);
    assert_eq!(exact, machine, "{} {word:08x}", kind.name);
}

fn expected(name: &str, word: u32) -> Option<u32> {
    let kind = KINDS.iter().find(|kind| kind.name == name);
    (kind.expect("a known kind").result)(word)
}

fn all_vectors() -> Vec<(&'static Kind, u32)> {
    let of_kind = |(place, kind)| {
        words_of(place, kind)
            .into_iter()
            .map(move |word| (kind, word))
    };
    KINDS.iter().enumerate().flat_map(of_kind).collect()
}

#[test]
fn machine_agrees_on_all_vectors() {
    for (kind, word) in all_vectors() {
        agree(kind, word);
    }
}

#[test]
fn machine_agrees_on_random_words() {
    let mut random = Random::new(1);
    for kind in &KINDS {
        for _ in 0..20_000 {
            agree(kind, random.word());
            // Around the size of counts and currents, where most is decided.
            agree(kind, random.real(100..=157));
            let width = random.within(1..=32);
            agree(kind, random.of_width(width));
        }
    }
}

#[test]
fn proved_table_rows_1_to_7() {
    for time in ["wt", "wp"] {
        assert_eq!(expected(time, 0x3f80_0000), Some(256));
        assert_eq!(expected(time, 0x3b80_0000), Some(1));
    }
    assert_eq!(expected("rt", -1_i32 as u32), Some(0xbb80_0000));
    assert_eq!(expected("rt", 2_147_483_520), Some(0x4aff_ffff));
    assert_eq!(expected("rt", 2_147_483_584), Some(0x4b00_0000));
    assert_eq!(expected("wt", 0x4b00_0000), None);
    assert_eq!(expected("wt", 0xcb00_0000), Some(-2_147_483_648_i32 as u32));
}

/// Row 8, as far as a single step shows it.
#[test]
fn tick_from_the_lowest_count() {
    let lowest = -2_147_483_648_i32 as u32;
    assert_eq!(expected("so", lowest), Some(2_147_483_640));
    assert_eq!(expected("sf", lowest), Some(lowest));
}

#[test]
fn negative_zero_and_less() {
    let (zero, less) = (0x8000_0000, 0x8000_0001);
    for time in ["wt", "wp", "wo"] {
        assert_eq!(expected(time, zero), Some(0));
    }
    assert_eq!(expected("wl", zero), Some(zero));
    assert_eq!(expected("wt", less), Some(0));
    for from_zero in ["wp", "wo", "wl"] {
        assert_eq!(expected(from_zero, less), None);
    }
}

fn all_lines() -> HashSet<String> {
    let line = |(kind, word)| output_line(kind, word);
    all_vectors().into_iter().map(line).collect()
}

#[test]
fn table_words_are_among_the_vectors() {
    let lines = all_lines();
    for line in [
        "wt 3f800000 00000100",
        "wt 3b800000 00000001",
        "rt ffffffff bb800000",
        "rt 7fffff80 4affffff",
        "rt 7fffffc0 4b000000",
        "wt 4b000000 --------",
        "wt cb000000 80000000",
        "so 80000000 7ffffff8",
        "sf 80000000 80000000",
    ] {
        assert!(lines.contains(line), "{line}");
    }
}

#[test]
fn lines_are_unique_and_each_kind_is_present() {
    let vectors = all_vectors();
    assert!(
        (8_000..=14_000).contains(&vectors.len()),
        "{}",
        vectors.len()
    );
    let mut lines = HashSet::new();
    let mut names = HashSet::new();
    for (kind, word) in vectors {
        let input = input_line(kind, word);
        assert_eq!((input.len(), output_line(kind, word).len()), (11, 20));
        assert!(lines.insert(input), "twice: {} {word:08x}", kind.name);
        names.insert(kind.name);
    }
    assert_eq!(names.len(), 15);
}
