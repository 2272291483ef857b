//! Change 6: "Standpipe opening hours. Public standpipes open by timetable."
//! The minute of the week, which the box has, and the windows, which each
//! channel has. Neither stands in an image. Both calls are local ones: they
//! clear nothing, preset nothing and mark no tick.

use crate::calls::ChannelBox;
use crate::channel::Channel;

/// "a minute of the week, 0 to 10079".
pub const LAST_MINUTE: u16 = 10_079;
/// "Each channel has up to eight windows".
pub const MOST_WINDOWS: usize = 8;
/// "as each 1920th tick from then begins": ticks are counted from 0 to 1919.
pub const LAST_OF_MINUTE: u16 = 1_919;

/// The minute of the week, "unset after power-up or reset".
#[derive(Clone, Copy, Debug, Default, PartialEq, Eq)]
pub struct Clock {
    pub minute: Option<u16>,
    /// Ticks since the minute was set or moved.
    pub ticks: u16,
}

impl Clock {
    /// "set by a local call": each setting, of the same minute too, starts the
    /// 1920 ticks anew.
    fn set(minute: u16) -> Clock {
        Clock {
            minute: Some(minute),
            ticks: 0,
        }
    }

    /// The minute, if it is set. Change 1: "a number that a change adds to the
    /// box acts, where it is out of its range [...], as it stands after a
    /// refused power-up": any above 10079 acts as unset.
    pub fn now(&self) -> Option<u16> {
        self.minute.filter(|&minute| minute <= LAST_MINUTE)
    }

    /// The ticks counted; any number above 1919 acts as 0.
    fn counted(&self) -> u16 {
        if self.ticks <= LAST_OF_MINUTE {
            self.ticks
        } else {
            0
        }
    }

    /// "advanced, 10079 to 0, as each 1920th tick from then begins": the 1920th
    /// tick has the new minute from its step 1 on.
    pub fn begin_tick(&mut self) {
        let Some(minute) = self.now() else {
            return;
        };
        if self.counted() < LAST_OF_MINUTE {
            self.ticks = self.counted() + 1;
        } else {
            self.ticks = 0;
            self.minute = Some(following(minute));
        }
    }
}

/// The minute after a minute: "10079 to 0".
fn following(minute: u16) -> u16 {
    if minute < LAST_MINUTE {
        minute + 1
    } else {
        0
    }
}

/// A window, with "start included and end not".
#[derive(Clone, Copy, Debug, PartialEq, Eq)]
pub struct Window {
    pub start: u16,
    pub end: u16,
}

impl Window {
    /// "start included and end not; a window whose end is before its start runs
    /// over the week's end, and equal ends mean it never opens."
    pub fn is_open(self, minute: u16) -> bool {
        let (start, end) = (end_in_week(self.start), end_in_week(self.end));
        if start <= end {
            start <= minute && minute < end
        } else {
            start <= minute || minute < end
        }
    }
}

/// A start or an end; any above 10079 acts as 0.
fn end_in_week(minute: u16) -> u16 {
    if minute <= LAST_MINUTE {
        minute
    } else {
        0
    }
}

/// The windows of a channel, which has none where all places are empty.
pub type Windows = [Option<Window>; MOST_WINDOWS];

impl Channel {
    /// "While the minute is set, a channel with windows has OutFlag and Control
    /// cleared at each tick outside all of them". A channel with windows has at
    /// least one, also where none ever opens.
    pub fn is_closed(&self, minute: Option<u16>) -> bool {
        let Some(minute) = minute else {
            return false;
        };
        let mut any = false;
        for window in self.windows.iter().flatten() {
            any = true;
            if window.is_open(minute) {
                return false;
            }
        }
        any
    }

    /// "given whole by a local call": those of before are gone.
    fn give_windows(&mut self, windows: &[(u16, u16)]) {
        self.windows = Windows::default();
        for (place, &(start, end)) in self.windows.iter_mut().zip(windows) {
            *place = Some(Window { start, end });
        }
    }
}

/// The two local calls.
impl ChannelBox {
    /// Sets the minute of the week. "18 when a minute, start or end is above
    /// 10079."
    pub fn minute(&mut self, minute: u16) -> u8 {
        if minute > LAST_MINUTE {
            return 18;
        }
        self.clock = Clock::set(minute);
        0
    }

    /// Gives a channel its windows, each a start and an end; an empty list takes
    /// them away. "19 when more than eight windows are given; for windows the
    /// order is 8, 19, 18."
    pub fn windows(&mut self, channel: u8, windows: &[(u16, u16)]) -> u8 {
        let is_late = |&(start, end): &(u16, u16)| start > LAST_MINUTE || end > LAST_MINUTE;
        match self.digital(channel) {
            None => 8,
            Some(_) if windows.len() > MOST_WINDOWS => 19,
            Some(_) if windows.iter().any(is_late) => 18,
            Some(channel) => {
                channel.give_windows(windows);
                0
            }
        }
    }
}

#[cfg(test)]
mod tests;
