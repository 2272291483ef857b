//! Whether a channel is closed, and how the minute moves, right or wrong.

use super::Wrong::{self, *};
use crate::channel::Channel;
use crate::hours::{Clock, Window, LAST_MINUTE, LAST_OF_MINUTE};
use crate::{ChannelBox, CHANNELS};

fn is_open(wrong: Wrong, window: Window, minute: u16) -> bool {
    let Window { start, end } = window;
    match wrong {
        EndIncluded if start != end => window.is_open(minute) || minute == end,
        StartExcluded => window.is_open(minute) && minute != start,
        WeeksEndNever => start <= minute && minute < end,
        WeeksEndTurned => start.min(end) <= minute && minute < start.max(end),
        EqualEndsAlways => start == end || window.is_open(minute),
        EqualEndsOneMinute if start == end => minute == start,
        _ => window.is_open(minute),
    }
}

/// The windows that are looked at.
fn looked_at(wrong: Wrong, channels: &[Channel], index: usize) -> Vec<Window> {
    let index = match wrong {
        NextChannels => (index + 1) % CHANNELS,
        _ => index,
    };
    let mut windows: Vec<Window> = channels[index].windows.iter().flatten().copied().collect();
    match wrong {
        FirstWindowOnly => windows.truncate(1),
        LastWindowOnly => windows = windows.last().copied().into_iter().collect(),
        EighthIgnored => windows.truncate(7),
        _ => {}
    }
    windows
}

pub(super) fn is_closed(wrong: Wrong, device: &ChannelBox, index: usize) -> bool {
    let minute = match (wrong, device.clock.now()) {
        (UnsetIsZero, None) => Some(0),
        (_, minute) => minute,
    };
    let Some(minute) = minute else {
        return false;
    };
    let windows = looked_at(wrong, &device.channels, index);
    let mut open = windows.iter().map(|&window| is_open(wrong, window, minute));
    match wrong {
        NoWindowsClosed if windows.is_empty() => true,
        OutsideAny => !open.all(|open| open),
        _ => !windows.is_empty() && !open.any(|open| open),
    }
}

/// The minute as a tick begins.
pub(super) fn moved(wrong: Wrong, clock: Clock, since_power_up: u16) -> Clock {
    let mut moved = clock;
    let last = match wrong {
        MovedEarly => LAST_OF_MINUTE - 1,
        MovedLate => LAST_OF_MINUTE + 1,
        _ => LAST_OF_MINUTE,
    };
    let now = match (wrong, clock.minute) {
        (_, None) | (NeverMoved, _) => return clock,
        (TicksSincePowerUp, _) => since_power_up == last,
        _ => clock.ticks == last,
    };
    moved.ticks = clock.ticks.saturating_add(1);
    if !now {
        return moved;
    }
    // Ticks that have gone past the last of a minute never come there again.
    moved.ticks = if wrong == MovedOnce { last + 1 } else { 0 };
    moved.minute = clock.minute.map(|minute| match (wrong, minute) {
        (WeekStops, LAST_MINUTE) => minute,
        (WeekShort, 10_078..) | (_, LAST_MINUTE) => 0,
        _ => minute + 1,
    });
    moved
}
