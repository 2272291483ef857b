//! Change 6: minutes and windows, and what the writer knows of them.

use super::Script;
use crate::generator::values::WEEK;
use crate::hours::MOST_WINDOWS;
use crate::player::Call;
use crate::CHANNELS;

/// Ticks of a minute.
const MINUTE: u64 = 1_920;

/// The minute that was last set, the ticks since then, and each channel's
/// windows; what was refused is left out.
#[derive(Default)]
pub(super) struct Timetable {
    minute: Option<u16>,
    ticks: u64,
    windows: [Vec<(u16, u16)>; CHANNELS],
}

impl Timetable {
    pub(super) fn pass(&mut self, count: u64) {
        self.ticks += count;
    }
}

impl Script {
    pub fn minute(&mut self, minute: u16) {
        self.calls.push(Call::Minute(minute));
        if minute < WEEK {
            self.timetable.minute = Some(minute);
            self.timetable.ticks = 0;
        }
    }

    pub fn windows(&mut self, channel: u8, windows: &[(u16, u16)]) {
        self.calls.push(Call::Windows(channel, windows.to_vec()));
        let index = usize::from(channel).wrapping_sub(1);
        let allowed = |&(start, end): &(u16, u16)| start < WEEK && end < WEEK;
        match self.timetable.windows.get_mut(index) {
            Some(held) if windows.len() <= MOST_WINDOWS && windows.iter().all(allowed) => {
                *held = windows.to_vec();
            }
            _ => {}
        }
    }

    /// The windows of a channel.
    pub fn windows_of(&self, channel: u8) -> &[(u16, u16)] {
        &self.timetable.windows[usize::from(channel) - 1]
    }

    /// The minute now, where it is set.
    pub fn minute_now(&self) -> Option<u16> {
        let set = u64::from(self.timetable.minute?);
        let passed = self.timetable.ticks / MINUTE;
        Some(((set + passed) % u64::from(WEEK)) as u16)
    }

    /// How many ticks there are up to and with the one that moves the minute.
    pub fn ticks_to_minute(&self) -> u64 {
        MINUTE - self.timetable.ticks % MINUTE
    }
}

#[cfg(test)]
mod tests {
    use super::*;

    #[test]
    fn the_minute_is_that_of_the_box() {
        let mut script = Script::new(1);
        script.power(&[]);
        assert_eq!(script.minute_now(), None);
        script.minute(10_079);
        script.tick(1_000);
        script.minute(10_080);
        assert_eq!(script.ticks_to_minute(), 920);
        script.tick(919);
        assert_eq!(script.minute_now(), Some(10_079));
        script.tick(1);
        assert_eq!(script.minute_now(), Some(0));
        assert_eq!(script.ticks_to_minute(), 1_920);
        script.write(0x03, &[0xFF]);
        assert_eq!(script.minute_now(), None);
    }

    #[test]
    fn windows_are_those_last_accepted() {
        let mut script = Script::new(1);
        script.windows(3, &[(1, 2)]);
        script.windows(3, &[(1, 2); 9]);
        script.windows(3, &[(1, 10_080)]);
        script.windows(0, &[(3, 4)]);
        assert_eq!(script.windows_of(3), [(1, 2)]);
        script.windows(3, &[]);
        assert_eq!(script.windows_of(3), []);
    }
}
