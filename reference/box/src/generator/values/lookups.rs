//! Change 1: lookup tables, and the X to look up in them.

use super::numbers::{end_real, small_count};
use crate::data::{LookUp, Pair, PAIRS};
use crate::generator::random::Random;
use crate::reals;

/// The place of the largest Real. Neighbours on the line are 1 apart, −0 and 0
/// share place 0.
const LARGEST: i64 = 0x7F7F_FFFF;
/// The place of 2^127: two Reals from there on, of other signs, are too far
/// apart for their difference.
const HUGE: i64 = 0x7F00_0000;
const SMALLEST_NORMAL: i64 = 0x0080_0000;

fn place(real: u32) -> i64 {
    let magnitude = i64::from(real & 0x7FFF_FFFF);
    if real >> 31 == 1 {
        -magnitude
    } else {
        magnitude
    }
}

/// The finite Real at a place, or at the nearest end.
fn at(place: i64) -> u32 {
    let sign = u32::from(place < 0) << 31;
    sign | place.unsigned_abs().min(LARGEST as u64) as u32
}

/// A place from `low` to `high`.
fn within(random: &mut Random, low: i64, high: i64) -> i64 {
    low + random.below((high - low + 1) as u64) as i64
}

/// A finite Real: often a plain number, now and then at an end.
pub fn finite(random: &mut Random) -> u32 {
    let real = match random.below(4) {
        0 => end_real(random),
        1 => random.word(),
        _ => plain(random),
    };
    at_finite(real)
}

/// A number of a few binary places, of either sign.
fn plain(random: &mut Random) -> u32 {
    let sign = u32::from(random.chance(1, 2)) << 31;
    sign | reals::from_timer_count(small_count(random) * 16)
}

fn at_finite(real: u32) -> u32 {
    if reals::is_finite(real) {
        real
    } else {
        real & 0xBFFF_FFFF
    }
}

/// A table whose Reals are all finite; its X often rise, as installers keep
/// them.
pub fn table(random: &mut Random) -> LookUp {
    let mut x = rising(random);
    match random.below(8) {
        0 => repeat(random, &mut x),
        1 => swap(random, &mut x),
        2 => shuffle(random, &mut x),
        3 if random.chance(1, 4) => x = [x[4]; PAIRS],
        _ => {}
    }
    let y = heights(random);
    LookUp(std::array::from_fn(|k| Pair { x: x[k], y: y[k] }))
}

/// X that rise, or nearly so: by even steps, over the whole line, by
/// neighbours, through the subnormals, from end to end, and about 0.
fn rising(random: &mut Random) -> [u32; PAIRS] {
    let mut places = match random.below(8) {
        0..=2 => return even(random),
        3 => [0; PAIRS].map(|_| within(random, -LARGEST, LARGEST)),
        4 => stepping(random, LARGEST, 2),
        5 => stepping(random, 40, 9),
        6 => from_end_to_end(random),
        _ => {
            let some = [-SMALLEST_NORMAL, -2, -1, 0, 0, 0, 1, 2, SMALLEST_NORMAL];
            [0; PAIRS].map(|_| random.pick(&some))
        }
    };
    places.sort_unstable();
    places.map(|place| match place {
        0 => random.pick(&[0, 0x8000_0000]),
        place => at(place),
    })
}

fn even(random: &mut Random) -> [u32; PAIRS] {
    let start = within(random, -3000, 1000) as i32;
    let step = random.pick(&[1, 3, 16, 64, 100, 256, 1000]);
    std::array::from_fn(|k| reals::from_timer_count(start + k as i32 * step))
}

/// Places that rise by up to `most` each from somewhere within `end` of 0.
fn stepping(random: &mut Random, end: i64, most: i64) -> [i64; PAIRS] {
    let mut place = within(random, -end, end);
    [0; PAIRS].map(|_| {
        place += within(random, 1, most);
        place
    })
}

/// Places at the low end and at the high end, with a step between them that
/// overflows.
fn from_end_to_end(random: &mut Random) -> [i64; PAIRS] {
    let low = random.within(1, PAIRS as u64 - 1) as usize;
    std::array::from_fn(|k| match within(random, HUGE, LARGEST) {
        place if k < low => -place,
        place => place,
    })
}

/// Some X as the one before, now and then the first or the last two.
fn repeat(random: &mut Random, x: &mut [u32; PAIRS]) {
    for _ in 0..random.within(1, 3) {
        let k = random.pick(&[1, 1, 2, 3, 4, 5, 6, 7, 8, 9, 9]);
        x[k] = x[k - 1];
    }
}

/// Two neighbours in the wrong order.
fn swap(random: &mut Random, x: &mut [u32; PAIRS]) {
    let k = random.below(PAIRS as u64 - 1) as usize;
    x.swap(k, k + 1);
}

fn shuffle(random: &mut Random, x: &mut [u32; PAIRS]) {
    for k in 0..PAIRS {
        x.swap(k, random.below(PAIRS as u64) as usize);
    }
}

/// Y of every kind: plain ones, any, huge ones that change their sign,
/// subnormals, equal ones and zeros of both signs.
fn heights(random: &mut Random) -> [u32; PAIRS] {
    let same = finite(random);
    let kind = random.below(7);
    std::array::from_fn(|k| match kind {
        0..=1 => plain(random),
        2 => finite(random),
        3 => at_finite(random.word()),
        4 => at(within(random, HUGE, LARGEST)) | (k as u32 & 1) << 31,
        5 => at(within(random, -SMALLEST_NORMAL, SMALLEST_NORMAL)),
        _ => random.pick(&[same, same, 0, 0x8000_0000]),
    })
}

/// An X to look up in a table: at an entry, a place beside it, between two,
/// below the first, above the last, and any Real at all.
pub fn x_for(random: &mut Random, table: &LookUp) -> u32 {
    let k = random.below(PAIRS as u64) as usize;
    let here = place(table.0[k].x);
    match random.below(16) {
        0..=2 => table.0[k].x,
        3 => table.0[k].x ^ 0x8000_0000,
        4..=5 => at(here + 1),
        6..=7 => at(here - 1),
        8..=11 => {
            let next = place(table.0[(k + 1) % PAIRS].x);
            at(within(random, here.min(next), here.max(next)))
        }
        12 => at(place(table.0[0].x) - random.below(1 << 30) as i64),
        13 => at(place(table.0[9].x) + random.below(1 << 30) as i64),
        14 => random.pick(&[0, 0x8000_0000, 0x3F80_0000, 0xBF80_0000]),
        _ if random.chance(1, 2) => end_real(random),
        _ => random.word(),
    }
}

#[cfg(test)]
mod tests {
    use super::*;

    /// How many of 2000 tables have something.
    fn tables_with(has: impl Fn(&LookUp) -> bool) -> usize {
        let mut random = Random::new(3);
        let tables = (0..2000).map(|_| table(&mut random));
        tables.filter(has).count()
    }

    /// Whether some X and the one after it have something.
    fn any_step(table: &LookUp, has: impl Fn(u32, u32) -> bool) -> bool {
        table.0.windows(2).any(|pair| has(pair[0].x, pair[1].x))
    }

    #[test]
    fn every_table_is_allowed() {
        assert_eq!(tables_with(LookUp::is_allowed), 2000);
    }

    #[test]
    fn tables_rise_or_repeat_or_fall() {
        let rise = |table: &LookUp| !any_step(table, |x, next| !reals::less(x, next));
        assert!(tables_with(rise) > 700);
        assert!(tables_with(|table| any_step(table, reals::greater)) > 200);
        assert!(tables_with(|table| any_step(table, reals::equal)) > 300);
        let zeros = |x, next| x != next && reals::equal(x, next);
        assert!(tables_with(|table| any_step(table, zeros)) > 50);
    }

    #[test]
    fn some_steps_overflow() {
        let infinite = |x, next| !reals::is_finite(reals::subtract(next, x));
        assert!(tables_with(|table| any_step(table, infinite)) > 150);
    }
}
