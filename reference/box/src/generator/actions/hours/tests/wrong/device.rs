//! The box in which one thing is wrong.

use super::judging::{is_closed, moved};
use super::Wrong::{self, *};
use crate::hours::Windows;
use crate::player::Device;
use crate::reals::Real;
use crate::tick::wrong::Clearing;
use crate::{Answer, ChannelBox, CHANNELS};

pub(super) struct Wrongly {
    pub(super) inner: ChannelBox,
    pub(super) wrong: Wrong,
    /// The channels that the last tick found closed.
    closed: [bool; CHANNELS],
}

impl Wrongly {
    pub(super) fn new(wrong: Wrong) -> Wrongly {
        Wrongly {
            inner: ChannelBox::default(),
            wrong,
            closed: [false; CHANNELS],
        }
    }

    fn closed_now(&self) -> [bool; CHANNELS] {
        std::array::from_fn(|index| is_closed(self.wrong, &self.inner, index))
    }

    /// What a reset or power-up should have lost.
    fn give_back(&mut self, before: &ChannelBox, windows: Wrong, minute: Wrong) {
        if self.wrong == windows {
            let channels = self.inner.channels.iter_mut();
            for (channel, before) in channels.zip(&before.channels) {
                channel.windows = before.windows;
            }
        }
        if self.wrong == minute {
            self.inner.clock = before.clock;
        }
    }

    /// Clears the channels that are closed now, outside a tick.
    fn clear_now(&mut self) {
        let closed = self.closed_now();
        for (channel, closed) in self.inner.channels.iter_mut().zip(closed) {
            if closed {
                let before = channel.out_flag;
                channel.out_flag = false;
                channel.control = false;
                channel.change_rule(before);
            }
        }
    }

    fn move_minute(&mut self) {
        let since_power_up = self.inner.free_run_timer / 8 % 1_920;
        self.inner.clock = moved(self.wrong, self.inner.clock, since_power_up as u16);
    }

    /// The channels that this tick clears, as it begins.
    fn cleared_by_tick(&mut self) -> [bool; CHANNELS] {
        let now = self.closed_now();
        let before = std::mem::replace(&mut self.closed, now);
        let channels = self.inner.channels.iter_mut();
        for (channel, (before, now)) in channels.zip(before.into_iter().zip(now)) {
            channel.out_flag |= self.wrong == OpeningSwitchesOn && before && !now;
        }
        match self.wrong {
            ClearsOnce => std::array::from_fn(|index| now[index] && !before[index]),
            _ => now,
        }
    }
}

impl Device for Wrongly {
    fn power_up(&mut self, image: &[u8]) -> u8 {
        let before = self.inner.clone();
        let number = self.inner.power_up(image);
        self.give_back(&before, PowerKeepsWindows, PowerKeepsMinute);
        self.closed = [false; CHANNELS];
        number
    }

    fn store(&self, buffer: &mut [u8]) -> (u8, usize) {
        self.inner.store(buffer)
    }

    fn read(&mut self, swno: u16, buffer: &mut [u8]) -> Answer {
        self.inner.read(swno, buffer)
    }

    fn write(&mut self, swno: u16, bytes: &[u8]) -> Answer {
        let before = self.inner.clone();
        let answer = self.inner.write(swno, bytes);
        let digital = (0x10..0x110).contains(&swno);
        match (swno & 0xF, self.wrong) {
            (0x3, _) if swno == 0x03 && answer.number == 0 => {
                self.give_back(&before, ResetKeepsWindows, ResetKeepsMinute);
                self.closed = [false; CHANNELS];
            }
            (0x9, ConfigEmpties) if digital && answer.number == 0 => {
                let index = usize::from(swno >> 4) - 1;
                self.inner.channels[index].windows = Windows::default();
            }
            (0x0, ClearsWrites) => self.clear_now(),
            _ => {}
        }
        answer
    }

    fn sample(&mut self, channel: u8, level: bool, amperes: Real) -> u8 {
        self.inner.sample(channel, level, amperes)
    }

    fn tick(&mut self) {
        if self.wrong != MovedAfterTick {
            self.move_minute();
        }
        let closed = self.cleared_by_tick();
        let clearing = match self.wrong {
            Clears(clearing) => clearing,
            _ => Clearing::Right,
        };
        self.inner.tick_clearing(clearing, closed);
        if self.wrong == MovedAfterTick {
            self.move_minute();
        }
    }

    fn lookup(&self, table: u8, x: Real) -> (u8, Real) {
        self.inner.lookup(table, x)
    }

    fn charge(
        &self,
        earlier: i32,
        later: i32,
        litres_per_pulse: u32,
        limits: &[u64],
        prices: &[u32],
    ) -> (u8, u64) {
        self.inner
            .charge(earlier, later, litres_per_pulse, limits, prices)
    }

    fn minute(&mut self, minute: u16) -> u8 {
        let number = self.wrong_minute(minute);
        if self.wrong == ClearsAtCall {
            self.clear_now();
        }
        number
    }

    fn windows(&mut self, channel: u8, windows: &[(u16, u16)]) -> u8 {
        let number = self.wrong_windows(channel, windows);
        if self.wrong == ClearsAtCall {
            self.clear_now();
        }
        number
    }

    fn output(&self, channel: u8) -> bool {
        Device::output(&self.inner, channel)
    }
}
