//! Boxes that take samples wrongly: one script of samples tells each of them
//! from the model.

use crate::channel::Channel;
use crate::generator::kinds::{self, Kind};
use crate::player::{play, Device};
use crate::reals::{self, Real};
use crate::{Answer, ChannelBox};

#[derive(Clone, Copy, Debug, PartialEq)]
enum Fault {
    /// A sample that 9 refuses sets its level.
    RefusedLevel,
    /// It stores its current.
    RefusedCurrent,
    /// 9 is asked before 8.
    NineFirst,
    /// Channels 17 to 32 are channels 1 to 16 again.
    ChannelsAgain,
    /// A sample that trips leaves the level.
    TripAlone,
    /// A simulated input drops the current too.
    SimulatedDropsAll,
    /// A simulated input takes the level.
    SimulatedTakesAll,
    /// The same level and current again do nothing.
    AgainIgnored,
    /// The change rule does not run.
    NoChangeRule,
    /// 2 trips.
    TwoTrips,
    /// −0 is kept as 0.
    MinusZeroLost,
    /// A sample presets WDTimer.
    Wire,
    /// A written OutCurrent makes InFlag FALSE.
    WrittenLevel,
    /// A written OutCurrent that trips does not.
    WrittenQuiet,
}

struct Faulty {
    inner: ChannelBox,
    fault: Fault,
}

impl Faulty {
    /// What goes wrong after a sample that the box took or refused.
    fn spoil(&mut self, index: usize, number: u8, level: bool, amperes: Real) {
        let channel = &mut self.inner.channels[index];
        match (self.fault, number) {
            (Fault::RefusedLevel, 9) => channel.sample(level, channel.out_current),
            (Fault::RefusedCurrent, 9) => channel.out_current = amperes,
            (Fault::TwoTrips, 0) if amperes == reals::TWO => channel.trip(),
            (Fault::MinusZeroLost, 0) if amperes == 0x8000_0000 => channel.out_current = 0,
            _ => {}
        }
    }

    /// What a channel is to be given back after an accepted sample.
    fn give_back(&mut self, index: usize, before: &Channel, level: bool) {
        let channel = &mut self.inner.channels[index];
        let simulated = before.kept.config.simulates_input();
        let same = (before.in_flag, before.out_current) == (level, channel.out_current);
        match self.fault {
            Fault::TripAlone if channel.is_above_two() => {
                channel.in_flag = before.in_flag;
                channel.counter = before.counter;
            }
            Fault::SimulatedDropsAll if simulated => *channel = *before,
            Fault::SimulatedTakesAll if simulated => {
                let rise = i32::from(level && !before.in_flag);
                channel.counter = channel.counter.wrapping_add(rise);
                channel.in_flag = level;
            }
            Fault::AgainIgnored if same => *channel = *before,
            Fault::NoChangeRule => {
                channel.fb_timer = before.fb_timer;
                channel.fb_status = before.fb_status;
            }
            _ => {}
        }
    }
}

impl Device for Faulty {
    fn power_up(&mut self, image: &[u8]) -> u8 {
        self.inner.power_up(image)
    }

    fn store(&self, buffer: &mut [u8]) -> (u8, usize) {
        self.inner.store(buffer)
    }

    fn read(&mut self, swno: u16, buffer: &mut [u8]) -> Answer {
        self.inner.read(swno, buffer)
    }

    fn write(&mut self, swno: u16, bytes: &[u8]) -> Answer {
        let before = self.inner.channels;
        let answer = self.inner.write(swno, bytes);
        let out_current = swno & 0xF == 3 && (0x10..0x110).contains(&swno);
        if out_current && answer.number == 0 {
            let index = usize::from(swno >> 4) - 1;
            let channel = &mut self.inner.channels[index];
            match self.fault {
                Fault::WrittenLevel => channel.in_flag = false,
                Fault::WrittenQuiet => {
                    let out_current = channel.out_current;
                    *channel = Channel {
                        out_current,
                        ..before[index]
                    };
                }
                _ => {}
            }
        }
        answer
    }

    fn sample(&mut self, channel: u8, level: bool, amperes: Real) -> u8 {
        if self.fault == Fault::NineFirst && !reals::is_finite(amperes) {
            return 9;
        }
        let channel = match (self.fault, channel) {
            (Fault::ChannelsAgain, 17..=32) => channel - 16,
            _ => channel,
        };
        let index = usize::from(channel).wrapping_sub(1);
        let before = self.inner.channels.get(index).copied();
        let number = self.inner.sample(channel, level, amperes);
        if self.fault == Fault::Wire {
            self.inner.wd_timer = self.inner.wd_preset;
        }
        if let Some(before) = before {
            self.spoil(index, number, level, amperes);
            if number == 0 {
                self.give_back(index, &before, level);
            }
        }
        number
    }

    fn tick(&mut self) {
        self.inner.tick();
    }

    fn lookup(&self, table: u8, x: Real) -> (u8, Real) {
        self.inner.lookup(table, x)
    }

    fn charge(
        &self,
        earlier: i32,
        later: i32,
        litres_per_pulse: u32,
        limits: &[u64],
        prices: &[u32],
    ) -> (u8, u64) {
        self.inner
            .charge(earlier, later, litres_per_pulse, limits, prices)
    }

    fn minute(&mut self, minute: u16) -> u8 {
        self.inner.minute(minute)
    }

    fn windows(&mut self, channel: u8, windows: &[(u16, u16)]) -> u8 {
        self.inner.windows(channel, windows)
    }

    fn output(&self, channel: u8) -> bool {
        Device::output(&self.inner, channel)
    }
}

fn answers(mut device: impl Device, script: &str) -> String {
    let mut answers = Vec::new();
    play(&mut device, script.as_bytes(), &mut answers).expect("no failure in memory");
    String::from_utf8(answers).expect("plain characters")
}

/// Whether a faulty box's answers are others than the model's.
fn found(fault: Fault, script: &str) -> bool {
    let inner = ChannelBox::default();
    let wrong = answers(Faulty { inner, fault }, script);
    wrong != answers(ChannelBox::default(), script)
}

#[test]
fn one_script_tells_each_fault() {
    for seed in [1, 2, 3, 3120] {
        let script = kinds::generate(seed, 1700, Kind::Samples);
        for fault in [
            Fault::RefusedLevel,
            Fault::RefusedCurrent,
            Fault::NineFirst,
            Fault::ChannelsAgain,
            Fault::TripAlone,
            Fault::SimulatedDropsAll,
            Fault::SimulatedTakesAll,
            Fault::AgainIgnored,
            Fault::NoChangeRule,
            Fault::TwoTrips,
            Fault::MinusZeroLost,
            Fault::Wire,
            Fault::WrittenLevel,
            Fault::WrittenQuiet,
        ] {
            assert!(found(fault, &script), "seed {seed}: {fault:?}");
        }
    }
}
