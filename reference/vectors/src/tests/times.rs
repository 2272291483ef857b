//! Real times written: the nearest count, a tie to the even one.

use super::*;
use crate::real::SIGN;
use crate::words::TYPED;

/// Ties by hand: a Real of 1/512 s, $3b000000, is half a count; of 1/16 s,
/// $3d800000, half an eighth. 1.5, 2.5 and 3.5 follow, and the largest.
#[test]
fn ties_are_among_the_vectors() {
    let lines = all_lines();
    for line in [
        "wt 3affffff 00000000",
        "wt 3b000000 00000000",
        "wt 3b000001 00000001",
        "wt bb000000 00000000",
        "wt bb000001 ffffffff",
        "wt 3bbfffff 00000001",
        "wt 3bc00000 00000002",
        "wt bbbfffff ffffffff",
        "wt bbc00000 fffffffe",
        "wt 3c200000 00000002",
        "wt 3c200001 00000003",
        "wt bc200000 fffffffe",
        "wt bc200001 fffffffd",
        "wt 3c600000 00000004",
        "wt 46fffffd 007ffffe",
        "wt 46ffffff 00800000",
        "wt c6ffffff ff800000",
        "wp 3b000000 00000000",
        "wp 3bc00000 00000002",
        "wp bb000000 --------",
        "wp 46ffffff 00800000",
        "wo 3d7fffff 00000000",
        "wo 3d800000 00000000",
        "wo 3d800001 00000001",
        "wo 3e400000 00000002",
        "wo 3ea00000 00000002",
        "wo 3ee00000 00000004",
        "wo bd800000 --------",
        "wo 497ffffd 007ffffe",
        "wo 497fffff 00800000",
    ] {
        assert!(lines.contains(line), "{line}");
    }
}

/// 25.6, 51.2, 76.8 and so on counts of 1/256 s; 0.8, 1.6, 2.4 and so on of
/// 1/8 s.
#[test]
fn typed_times_are_among_the_vectors() {
    let lines = all_lines();
    let timer = [26_i32, 51, 77, 102, 128, 154, 179, 205, 230, 256];
    let operating = [1, 2, 2, 3, 4, 5, 6, 6, 7, 8];
    for (place, typed) in TYPED.into_iter().enumerate() {
        let seconds: f32 = format!("{}e-1", place + 1).parse().expect("a number");
        assert_eq!(typed, seconds.to_bits());
        let (count, eighths) = (timer[place], operating[place]);
        for line in [
            format!("wt {typed:08x} {count:08x}"),
            format!("wt {:08x} {:08x}", typed | SIGN, -count),
            format!("wp {typed:08x} {count:08x}"),
            format!("wo {typed:08x} {eighths:08x}"),
        ] {
            assert!(lines.contains(&line), "{line}");
        }
    }
}

/// The kinds of Real times, with the counts in a second.
fn times() -> impl Iterator<Item = (usize, &'static Kind, f32)> {
    let units = |kind: &Kind| match kind.name {
        "wt" | "wp" => Some(256.0),
        "wo" => Some(8.0),
        _ => None,
    };
    let with_units = move |(place, kind)| Some((place, kind, units(kind)?));
    KINDS.iter().enumerate().filter_map(with_units)
}

/// The count below a tie's magnitude.
fn count_below_tie(word: u32, units: f32) -> Option<u32> {
    let counts = f32::from_bits(word & !SIGN) * units;
    (counts.fract() == 0.5).then_some(counts as u32)
}

/// Even and odd counts of every width that a tie can have below it.
#[test]
fn ties_of_every_width_come_with_both_neighbours() {
    for (place, kind, units) in times() {
        let words = words_of(place, kind);
        let allowed = |word: &u32| (kind.result)(*word).is_some();
        let words: HashSet<u32> = words.into_iter().filter(allowed).collect();
        let both = |word: u32| words.contains(&(word - 1)) && words.contains(&(word + 1));
        let mut seen = HashSet::new();
        for &word in &words {
            match count_below_tie(word, units) {
                Some(below) if both(word) => {
                    seen.insert((word & SIGN, below % 2, below.leading_zeros()));
                }
                _ => {}
            }
        }
        // 0 is even and 1 odd; those of 2 to 23 bits are both.
        let signs = if kind.name == "wt" { 2 } else { 1 };
        assert_eq!(seen.len(), signs * (2 + 2 * 22), "{}", kind.name);
    }
}

#[test]
fn machine_agrees_about_random_ties() {
    let mut random = Random::new(2);
    for (_, kind, units) in times() {
        for _ in 0..20_000 {
            let width = random.within(1..=24);
            let halves = random.of_width(width) | 1;
            let tie = (halves as f32 / (2.0 * units)).to_bits();
            for beside in [tie - 1, tie, tie + 1] {
                agree(kind, beside);
                agree(kind, beside | SIGN);
            }
        }
    }
}
