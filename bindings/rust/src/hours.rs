//! Opening hours: the minute of the week, and the windows in which a channel is
//! open.
//!
//! ```
//! use pd3120::{hours, Window};
//!
//! // From 22:00 on the week's last day to 04:00 on its first, over its end.
//! let night = Window {
//!     start: hours::minute(6, 22, 0),
//!     end: hours::minute(0, 4, 0),
//! };
//! assert_eq!((night.start, night.end), (9960, 240));
//! ```

/// The minutes of a week, numbered from 0.
pub const WEEK: u16 = 10_080;

/// The most windows of a channel.
pub const MOST_WINDOWS: usize = 8;

/// A window, by two minutes of the week. One whose end is before its start runs
/// over the week's end; one with equal ends never opens.
#[derive(Clone, Copy, Debug, Default, PartialEq, Eq)]
pub struct Window {
    /// The first minute that is in it.
    pub start: u16,
    /// The first minute that is no longer in it. The week's end is 0.
    pub end: u16,
}

impl Window {
    /// As the C boundary takes it.
    #[inline]
    fn number(self) -> u32 {
        u32::from(self.start) << 16 | u32::from(self.end)
    }
}

/// The minute of the week of a time of day; day 0 is the week's first, as the
/// installer takes it. From [`WEEK`] on it is [`WEEK`], which every call refuses:
/// a window up to the week's end ends at 0.
///
/// ```
/// use pd3120::hours;
///
/// assert_eq!(hours::minute(0, 6, 30), 390);
/// assert_eq!(hours::minute(6, 23, 59), 10_079);
/// assert_eq!(hours::minute(7, 0, 0), hours::WEEK);
/// ```
pub fn minute(day: u32, hour: u32, minute: u32) -> u16 {
    let of_week = u64::from(day) * 1440 + u64::from(hour) * 60 + u64::from(minute);
    u16::try_from(of_week).map_or(WEEK, |of_week| of_week.min(WEEK))
}

/// Windows as the C boundary takes them, and their count. More than eight are
/// refused whatever they are, so that nine stand for any more.
#[inline]
pub(crate) fn numbers(windows: &[Window]) -> ([u32; MOST_WINDOWS + 1], usize) {
    let mut numbers = [0; MOST_WINDOWS + 1];
    for (number, window) in numbers.iter_mut().zip(windows) {
        *number = window.number();
    }
    (numbers, windows.len().min(numbers.len()))
}

#[cfg(test)]
mod tests {
    use super::*;
    use std::vec::Vec;

    #[test]
    fn a_window_is_its_start_times_65536_plus_its_end() {
        let window = |start, end| Window { start, end }.number();
        assert_eq!(window(0, 0), 0);
        assert_eq!(window(1, 2), 65_538);
        assert_eq!(window(u16::MAX, 0), 0xFFFF_0000);
        assert_eq!(window(0, u16::MAX), 0xFFFF);
    }

    #[test]
    fn up_to_eight_windows_go_over_as_they_are_and_more_as_nine() {
        let windows: Vec<Window> = (0..20).map(|start| Window { start, end: 7 }).collect();
        for count in 0..=windows.len() {
            let (numbers, taken) = numbers(&windows[..count]);
            assert_eq!(taken, count.min(9));
            for (at, &number) in numbers[..taken].iter().enumerate() {
                assert_eq!(number, at as u32 * 65_536 + 7);
            }
        }
    }

    #[test]
    fn a_time_past_the_week_is_no_minute_of_it() {
        let times = [(6, 24, 0), (7, 0, 0), (45, 12, 16), (0, u32::MAX, 0)];
        for (day, hour, of_hour) in times {
            assert_eq!(minute(day, hour, of_hour), WEEK);
        }
        assert_eq!(minute(u32::MAX, u32::MAX, u32::MAX), WEEK);
        assert_eq!(minute(1, 0, 0), 1440);
    }
}
