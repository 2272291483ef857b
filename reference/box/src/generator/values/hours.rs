//! Change 6: minutes of the week and windows about them.

use crate::generator::random::Random;

/// Minutes of a week.
pub const WEEK: u16 = 10_080;
const EIGHT: usize = 8;

/// A minute so many minutes away, over the week's end where it must.
pub fn away(minute: u16, by: i32) -> u16 {
    (i32::from(minute) + by).rem_euclid(i32::from(WEEK)) as u16
}

/// A minute of the week, often about its end.
pub fn minute(random: &mut Random) -> u16 {
    match random.below(4) {
        0 => random.pick(&[0, 0, 1, 2, 10_077, 10_078, 10_079, 10_079]),
        1 => 60 * random.below(168) as u16,
        _ => random.below(u64::from(WEEK)) as u16,
    }
}

/// A minute that is refused, often one that an allowed one looks like.
pub fn refused_minute(random: &mut Random) -> u16 {
    match random.below(3) {
        0 => random.pick(&[WEEK, WEEK, WEEK + 1]),
        1 => random.pick(&[20_159, 20_160, 20_161, 32_767, 32_768, 65_534, 65_535]),
        _ => random.within(u64::from(WEEK), 65_535) as u16,
    }
}

/// So many minutes, mostly few.
fn some(random: &mut Random) -> i32 {
    match random.below(4) {
        0 => 1,
        1 => random.within(2, 5) as i32,
        2 => random.within(6, 600) as i32,
        _ => random.within(601, 10_000) as i32,
    }
}

/// A window that is open at a minute.
fn open_window(random: &mut Random, minute: u16) -> (u16, u16) {
    let (before, after) = (some(random), some(random));
    match random.below(6) {
        0 => (minute, away(minute, 1)),
        1 => (minute, away(minute, after)),
        2 => (away(minute, -before), away(minute, 1)),
        // All but one minute, which is another.
        3 => (away(minute, after + 1), away(minute, after)),
        _ => (away(minute, -before / 2), away(minute, after / 2 + 1)),
    }
}

/// A window that is closed at a minute: it begins after it, ends with it, has
/// equal ends, or is open at all other minutes.
fn closed_window(random: &mut Random, minute: u16) -> (u16, u16) {
    let by = some(random);
    match random.below(8) {
        0 => (away(minute, 1), away(minute, 1 + by / 2)),
        1 | 2 => (away(minute, -by), minute),
        3 => (minute, minute),
        4 => (away(minute, by), away(minute, by)),
        5 => (away(minute, 1), minute),
        _ => {
            let from = random.within(1, 5_000) as i32;
            let length = random.within(1, 5_000) as i32;
            (away(minute, from), away(minute, from + length))
        }
    }
}

/// Up to eight windows, all closed at a minute.
pub fn closed_windows(random: &mut Random, minute: u16) -> Vec<(u16, u16)> {
    let count = random.pick(&[1, 1, 1, 2, 3, EIGHT - 1, EIGHT]);
    (0..count).map(|_| closed_window(random, minute)).collect()
}

/// Up to eight windows of which at least one is open at a minute: the first,
/// the last or any, and now and then two of them. Or two windows of which the
/// second begins where the first ends.
pub fn open_windows(random: &mut Random, minute: u16) -> Vec<(u16, u16)> {
    if random.chance(1, 8) {
        let (before, after) = (some(random) / 2 + 1, some(random) / 2 + 1);
        let first = (away(minute, -before), minute);
        let second = (minute, away(minute, after));
        return random.pick(&[[first, second], [second, first]]).to_vec();
    }
    let mut windows = closed_windows(random, minute);
    let last = windows.len() - 1;
    let any = random.below(windows.len() as u64) as usize;
    let place = random.pick(&[0, last, last, any]);
    windows[place] = open_window(random, minute);
    if random.chance(1, 6) {
        windows[any] = open_window(random, minute);
    }
    windows
}

/// A minute at an end of some windows, or one beside it; any where there is no
/// window.
pub fn edge(random: &mut Random, windows: &[(u16, u16)]) -> u16 {
    if windows.is_empty() {
        return minute(random);
    }
    let last = windows[windows.len() - 1];
    let any = random.pick(windows);
    let (start, end) = random.pick(&[any, any, last]);
    let at = random.pick(&[start, end]);
    away(at, random.pick(&[-1, -1, 0, 0, 0, 1]))
}

/// How windows are refused for a good channel: too many, a late start or end at
/// the first place or at the last, or both.
const LATE_PLACES: usize = 4;
const COUNTS: usize = 3;
/// How many corners of such refusals there are.
pub const REFUSALS: usize = 2 * LATE_PLACES * COUNTS;

/// Windows that are refused, of which those that are not late are open at a
/// minute or not.
pub fn refused_windows(
    random: &mut Random,
    corner: usize,
    minute: u16,
    open: bool,
) -> Vec<(u16, u16)> {
    let count = match corner / (2 * LATE_PLACES) {
        0 => random.pick(&[1, 2, 3]),
        1 => EIGHT,
        _ => random.pick(&[9, 9, 9, 9, 10, 15, 16]),
    };
    let mut windows: Vec<(u16, u16)> = (0..count)
        .map(|_| match open {
            true => open_window(random, minute),
            false => closed_window(random, minute),
        })
        .collect();
    if count > EIGHT && random.chance(1, 2) {
        return windows;
    }
    let late = match corner % 2 {
        0 => WEEK,
        _ => refused_minute(random),
    };
    let last = count - 1;
    match corner / 2 % LATE_PLACES {
        0 => windows[0].0 = late,
        1 => windows[0].1 = late,
        2 => windows[last].0 = late,
        _ => windows[last].1 = late,
    }
    windows
}

#[cfg(test)]
mod tests {
    use super::*;
    use crate::hours::Window;

    fn any_open(windows: &[(u16, u16)], minute: u16) -> bool {
        let mut windows = windows.iter();
        windows.any(|&(start, end)| Window { start, end }.is_open(minute))
    }

    #[test]
    fn windows_are_open_or_closed_as_asked() {
        let mut random = Random::new(1);
        for _ in 0..20_000 {
            let minute = minute(&mut random);
            let closed = closed_windows(&mut random, minute);
            assert!(!any_open(&closed, minute), "{minute} {closed:?}");
            let open = open_windows(&mut random, minute);
            assert!(any_open(&open, minute), "{minute} {open:?}");
            assert!((1..=8).contains(&open.len()) && (1..=8).contains(&closed.len()));
        }
    }

    #[test]
    fn refused_windows_are_too_many_or_have_a_late_end() {
        let mut random = Random::new(1);
        let mut seen = [0; 4];
        for corner in 0..40 * REFUSALS {
            let windows = refused_windows(&mut random, corner % REFUSALS, 600, true);
            let late = windows.iter().any(|&(start, end)| start.max(end) >= WEEK);
            let many = windows.len() > 8;
            assert!(windows.len() <= 16);
            seen[usize::from(many) + 2 * usize::from(late)] += 1;
        }
        assert_eq!(seen[0], 0);
        assert!(seen[1..].iter().all(|&count| count > 100), "{seen:?}");
    }
}
