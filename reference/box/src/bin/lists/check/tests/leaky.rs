//! Boxes in which c learns of its strangers, and lists that are given to them.

use super::Files;
use crate::pair::Pair;
use reference_box::channel::Channel;
use reference_box::image::Settings;
use reference_box::player::{Call, Device};
use reference_box::{Answer, ChannelBox};

/// What of a stranger reaches c.
#[derive(Clone, Copy, Debug, PartialEq)]
pub enum Leak {
    /// InFlag of the next channel counts for the quarters as well.
    Run,
    /// An accepted write of any OperatingTime loses all quarters.
    Write,
    /// A refused one does.
    RefusedWrite,
    /// A write of any ChConfig does.
    Config,
    /// A sample for any channel does.
    Sample,
    /// All channels have the quarters of channel 1.
    Shared,
    /// The next channel takes a sample's level too.
    Level,
    /// The next channel takes a sample's current too.
    Current,
    /// A sample that trips switches all channels off.
    Trip,
    /// A refused sample sets the level of the next channel.
    RefusedLevel,
    /// After a refused sample the next one, for any channel, is refused too.
    RefusedNext,
    /// A sample's current acts only when the next sample comes, for any
    /// channel.
    Late,
    /// A sample presets the watchdog as a wire call does.
    Wire,
    /// The next channel gets a channel's windows too.
    Windows,
    /// All channels are given them.
    WindowsForAll,
    /// Refused windows empty those of all channels.
    RefusedWindows,
    /// Accepted windows, for any channel, start the 1920 ticks of the minute
    /// anew.
    MinuteTicks,
    /// Refused windows, for any channel, unset the minute.
    MinuteUnset,
    /// Windows preset the watchdog as a wire call does.
    WindowsWire,
    /// A channel that closes takes the next one with it.
    Closing,
    /// The next channel's Output shows as a channel's own, and no register does.
    Output,
    /// The Outputs are shown for the channels from 16 to 1.
    OutputMirrored,
    /// No leak: the box has no opening hours at all.
    NoHours,
}

pub struct Leaky {
    inner: ChannelBox,
    leak: Leak,
    /// Whether the last sample was refused, and not by the leak.
    refused: bool,
    /// The channel of the last sample and its current, which is still to act.
    late: Option<(u8, u32)>,
}

impl Leaky {
    pub fn new(leak: Leak) -> Leaky {
        Leaky {
            inner: ChannelBox::default(),
            leak,
            refused: false,
            late: None,
        }
    }

    fn lose_all(&mut self) {
        for channel in &mut self.inner.channels {
            channel.quarters = 0;
        }
    }

    fn run_with_the_next(&mut self) {
        let in_flags = self.inner.channels.map(|channel| channel.in_flag);
        for (index, channel) in self.inner.channels.iter_mut().enumerate() {
            if !in_flags[index] && in_flags[(index + 1) % 16] {
                channel.in_flag = true;
                channel.count_operating();
                channel.in_flag = false;
            }
        }
    }

    fn leaky_windows(&mut self, channel: u8, windows: &[(u16, u16)]) -> u8 {
        let number = self.inner.windows(channel, windows);
        if self.leak == Leak::NoHours && number == 0 {
            self.inner.windows(channel, &[]);
        }
        let digital = (1..=16).contains(&channel);
        match (self.leak, number) {
            (Leak::Windows, 0) => {
                self.inner.windows(channel % 16 + 1, windows);
            }
            (Leak::WindowsForAll, 0) => {
                for channel in 1..=16 {
                    self.inner.windows(channel, windows);
                }
            }
            (Leak::RefusedWindows, 18 | 19) => {
                for channel in 1..=16 {
                    self.inner.windows(channel, &[]);
                }
            }
            (Leak::MinuteTicks, 0) => self.inner.clock.ticks = 0,
            (Leak::MinuteUnset, 18 | 19) => self.inner.clock.minute = None,
            (Leak::WindowsWire, _) if digital => self.inner.wd_timer = self.inner.wd_preset,
            _ => {}
        }
        number
    }

    /// Switches off each channel that comes after a closed one.
    fn close_the_next(&mut self) {
        let minute = self.inner.clock.now();
        let closed = self.inner.channels.map(|channel| channel.is_closed(minute));
        for (index, channel) in self.inner.channels.iter_mut().enumerate() {
            channel.out_flag &= !closed[(index + 15) % 16];
        }
    }

    /// A sample as the box should take it, and what leaks of it.
    fn leaky_sample(&mut self, channel: u8, level: bool, amperes: u32) -> u8 {
        let number = self.inner.sample(channel, level, amperes);
        let next = usize::from(channel) % 16;
        let Channel {
            in_flag,
            out_current,
            ..
        } = self.inner.channels[next];
        match (self.leak, number) {
            (Leak::Sample, _) => self.lose_all(),
            (Leak::Level, 0) | (Leak::RefusedLevel, 9) => {
                self.inner.channels[next].sample(level, out_current);
            }
            (Leak::Current, 0) => self.inner.channels[next].sample(in_flag, amperes),
            (Leak::Trip, 0) if self.inner.channels[usize::from(channel) - 1].is_above_two() => {
                let channels = self.inner.channels.iter_mut();
                channels.for_each(|channel| channel.out_flag = false);
            }
            (Leak::Wire, _) => self.inner.wd_timer = self.inner.wd_preset,
            _ => {}
        }
        number
    }

    /// The level acts at once, the current with the next sample.
    fn late_sample(&mut self, channel: u8, level: bool, amperes: u32) -> u8 {
        if let Some((late, amperes)) = self.late.take() {
            let level = self.inner.channels[usize::from(late) - 1].in_flag;
            self.inner.sample(late, level, amperes);
        }
        let index = usize::from(channel).wrapping_sub(1);
        let state = self.inner.channels.get(index);
        let before = state.map_or(0, |state| state.out_current);
        let mut asked = self.inner.clone();
        let number = asked.sample(channel, level, amperes);
        if number == 0 {
            self.inner.sample(channel, level, before);
            self.late = Some((channel, amperes));
        }
        number
    }
}

impl Device for Leaky {
    fn power_up(&mut self, image: &[u8]) -> u8 {
        self.late = None;
        self.refused = false;
        self.inner.power_up(image)
    }

    fn store(&self, buffer: &mut [u8]) -> (u8, usize) {
        self.inner.store(buffer)
    }

    fn read(&mut self, swno: u16, buffer: &mut [u8]) -> Answer {
        self.inner.read(swno, buffer)
    }

    fn write(&mut self, swno: u16, bytes: &[u8]) -> Answer {
        let answer = self.inner.write(swno, bytes);
        let digital = (0x10..0x110).contains(&swno);
        let done = answer.number == 0;
        match (self.leak, swno & 0xF) {
            (Leak::Write, 4) if digital && done => self.lose_all(),
            (Leak::RefusedWrite, 4) if digital && !done => self.lose_all(),
            (Leak::Config, 9) if digital => self.lose_all(),
            _ => {}
        }
        answer
    }

    fn sample(&mut self, channel: u8, level: bool, amperes: u32) -> u8 {
        if self.leak == Leak::RefusedNext && self.refused {
            self.refused = false;
            return 9;
        }
        let number = match self.leak {
            Leak::Late => self.late_sample(channel, level, amperes),
            _ => self.leaky_sample(channel, level, amperes),
        };
        self.refused = number != 0;
        number
    }

    fn tick(&mut self) {
        if self.leak == Leak::Run {
            self.run_with_the_next();
        }
        self.inner.tick();
        if self.leak == Leak::Closing {
            self.close_the_next();
        }
        if self.leak == Leak::Shared {
            let quarters = self.inner.channels[0].quarters;
            for channel in &mut self.inner.channels {
                channel.quarters = quarters;
            }
        }
    }

    fn lookup(&self, table: u8, x: u32) -> (u8, u32) {
        self.inner.lookup(table, x)
    }

    fn charge(
        &self,
        earlier: i32,
        later: i32,
        litres_per_pulse: u32,
        limits: &[u64],
        prices: &[u32],
    ) -> (u8, u64) {
        self.inner
            .charge(earlier, later, litres_per_pulse, limits, prices)
    }

    fn minute(&mut self, minute: u16) -> u8 {
        self.inner.minute(minute)
    }

    fn windows(&mut self, channel: u8, windows: &[(u16, u16)]) -> u8 {
        self.leaky_windows(channel, windows)
    }

    fn output(&self, channel: u8) -> bool {
        let channel = match self.leak {
            Leak::Output => channel % 16 + 1,
            Leak::OutputMirrored => 17 - channel,
            _ => channel,
        };
        Device::output(&self.inner, channel)
    }
}

fn list(script: &str) -> Vec<Call> {
    let call = |line| Call::parse(str::as_bytes(line)).expect("a call");
    script.split(", ").filter_map(call).collect()
}

/// A pair for channel 1, which has no reference, with lists of its own.
fn pair(first: &str, second: &str) -> Pair {
    let mut pairs = (0..).map(|seed| Pair::draw(seed, false));
    let drawn = pairs.find(|pair| pair.channel == 1).expect("some pair");
    Pair {
        image: Settings::default().encode().to_vec(),
        strangers: (2..=16).collect(),
        first: list(first),
        second: list(second),
        ..drawn
    }
}

/// The files of two lists for which c is channel 1, with the answers of a
/// leaky box.
pub fn files(leak: Leak, first: &str, second: &str) -> Files {
    Files::of_pair(&pair(first, second), || Leaky::new(leak))
}
