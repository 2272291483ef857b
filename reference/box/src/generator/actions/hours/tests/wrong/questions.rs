//! The two calls, right or wrong.

use super::device::Wrongly;
use super::Wrong::{self, *};
use crate::channel::Channel;
use crate::hours::{Clock, Window, Windows, LAST_MINUTE, MOST_WINDOWS};

fn is_late(wrong: Wrong, windows: &[(u16, u16)]) -> bool {
    let late = |minute: u16| minute > LAST_MINUTE;
    let late_end = |minute: u16| minute > LAST_MINUTE + u16::from(wrong == End10080);
    let asked = match wrong {
        FirstWindowAsked => &windows[..windows.len().min(1)],
        _ => windows,
    };
    asked.iter().any(|&(start, end)| match wrong {
        StartNotAsked => late(end),
        EndNotAsked => late(start),
        _ => late(start) || late_end(end),
    })
}

fn are_many(wrong: Wrong, windows: &[(u16, u16)]) -> bool {
    match (wrong, windows.len()) {
        (NineTaken, 9) => false,
        (EightRefused, 8) => true,
        (_, count) => count > MOST_WINDOWS,
    }
}

/// The number that windows are answered with.
fn number(wrong: Wrong, channel: u8, windows: &[(u16, u16)]) -> u8 {
    let none = !(1..=16).contains(&channel);
    let (many, late) = (are_many(wrong, windows), is_late(wrong, windows));
    let order = match wrong {
        EighteenBeforeNineteen => [(none, 8), (late, 18), (many, 19)],
        EighteenFirst => [(late, 18), (none, 8), (many, 19)],
        NineteenFirst => [(many, 19), (none, 8), (late, 18)],
        _ => [(none, 8), (many, 19), (late, 18)],
    };
    let no = order.iter().find(|(no, _)| *no);
    no.map_or(0, |&(_, number)| number)
}

fn held(channel: &Channel) -> Vec<(u16, u16)> {
    let windows = channel.windows.iter().flatten();
    windows.map(|window| (window.start, window.end)).collect()
}

impl Wrongly {
    pub(super) fn wrong_minute(&mut self, minute: u16) -> u8 {
        if self.wrong == MinuteIsWire {
            self.inner.wd_timer = self.inner.wd_preset;
        }
        let before = self.inner.clock;
        let refused = match (self.wrong, minute) {
            (Minute10080, 10_080) => false,
            (Minute10079Refused, LAST_MINUTE) => true,
            _ => minute > LAST_MINUTE,
        };
        let set = |minute: u16| Clock {
            minute: Some(minute % 10_080),
            ticks: 0,
        };
        self.inner.clock = match (self.wrong, refused) {
            (SettingKeepsTicks, false) => Clock {
                ticks: before.ticks,
                ..set(minute)
            },
            (SameSettingIgnored, false) if before.minute == Some(minute) => before,
            (RefusedStartsAnew, true) => Clock { ticks: 0, ..before },
            (RefusedUnsets, true) => Clock::default(),
            (RefusedTaken, _) | (_, false) => set(minute),
            (_, true) => before,
        };
        18 * u8::from(refused)
    }

    pub(super) fn wrong_windows(&mut self, channel: u8, windows: &[(u16, u16)]) -> u8 {
        if self.wrong == WindowsAreWire {
            self.inner.wd_timer = self.inner.wd_preset;
        }
        let channel = match (self.wrong, channel) {
            (ChannelsAgain, 17..=32) => channel - 16,
            _ => channel,
        };
        let number = number(self.wrong, channel, windows);
        if let (1..=16, Some(taken)) = (channel, self.taken(channel, number, windows)) {
            let windows = &mut self.inner.channels[usize::from(channel) - 1].windows;
            *windows = Windows::default();
            for (place, (start, end)) in windows.iter_mut().zip(taken) {
                *place = Some(Window { start, end });
            }
        }
        if self.wrong == WindowsStartAnew && number == 0 {
            self.inner.clock.ticks = 0;
        }
        number
    }

    /// The windows that a digital channel has from then on, if it gets others.
    fn taken(&self, channel: u8, number: u8, windows: &[(u16, u16)]) -> Option<Vec<(u16, u16)>> {
        let index = usize::from(channel).checked_sub(1)?;
        let state = self.inner.channels.get(index)?;
        match (self.wrong, number) {
            (EmptyIgnored, 0) if windows.is_empty() => None,
            (EmptyCloses, 0) if windows.is_empty() => Some(vec![(0, 0)]),
            (WindowsAdded, 0) if !windows.is_empty() => Some([&held(state), windows].concat()),
            (RefusedWindowsEmpty, 18 | 19) => Some(Vec::new()),
            (RefusedWindowsTaken, 18 | 19) | (_, 0) => Some(windows.to_vec()),
            _ => None,
        }
    }
}
