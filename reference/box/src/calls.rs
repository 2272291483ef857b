//! Calls: power-up, storing, wire reads, wire writes and samples.

mod bytes;
mod questions;
mod reads;
mod writes;

use crate::channel::{Channel, Config};
use crate::data::DataChannel;
use crate::errors::{EXTERNAL_RESET, INTERNAL_RESET, RUN_OUT};
use crate::hours::Clock;
use crate::image::{self, Settings};
use crate::reals::{self, Real};
use crate::registers::{Digital, Register, Service};
use crate::CHANNELS;
use questions::{question_read, question_write};

/// The channel box.
#[derive(Clone, Debug, PartialEq, Eq)]
pub struct ChannelBox {
    pub module_config: Config,
    pub wd_preset: i32,
    pub channels: [Channel; CHANNELS],
    pub data: DataChannel,
    pub free_run_timer: i32,
    pub wd_timer: i32,
    pub write_enable: bool,
    /// The service channel's own His, bit 0 apart.
    pub his: u8,
    /// The service channel's own Act, bit 0 apart.
    pub act: u8,
    /// Ticks since the last save.
    pub save_count: u32,
    /// Change 6: the minute of the week.
    pub clock: Clock,
}

/// What a wire call answers: "a number (0 = done), a length (0 for a write or
/// a refusal) and two bits".
#[derive(Clone, Copy, Debug, PartialEq, Eq)]
pub struct Answer {
    pub number: u8,
    pub length: usize,
    pub data_error: bool,
    pub general_error: bool,
}

impl Default for ChannelBox {
    /// "Refused power-up gives the box that all-zero settings would power up
    /// to, His bit 7 included."
    fn default() -> ChannelBox {
        ChannelBox::restored(Settings::default(), INTERNAL_RESET)
    }
}

/// Power-up, storing and reset.
impl ChannelBox {
    /// "Power-up restores these, WDTimer := WDPreset, all else 0; His bit 7
    /// is set, Act not. Reset does the same from the kept values, with His
    /// bit 6 instead." Change 6: the minute is "unset after power-up or reset".
    fn restored(settings: Settings, his: u8) -> ChannelBox {
        ChannelBox {
            module_config: settings.module_config,
            wd_preset: settings.wd_preset,
            channels: settings.channels.map(Channel::restored),
            data: DataChannel::restored(settings.data),
            free_run_timer: 0,
            wd_timer: settings.wd_preset,
            write_enable: false,
            his,
            act: 0,
            save_count: 0,
            clock: Clock::default(),
        }
    }

    /// The kept values of the whole box.
    pub fn kept(&self) -> Settings {
        Settings {
            module_config: self.module_config,
            wd_preset: self.wd_preset,
            channels: self.channels.map(|channel| channel.kept),
            data: self.data.kept,
        }
    }

    /// Powers the box up from an image.
    pub fn power_up(&mut self, image: &[u8]) -> u8 {
        match Settings::decode(image) {
            Ok(settings) => {
                *self = ChannelBox::restored(settings, INTERNAL_RESET);
                0
            }
            Err(number) => {
                *self = ChannelBox::default();
                number
            }
        }
    }

    /// "Storing writes kept values." "Storing: buffer at least [886]? 14.
    /// Storing answers its number and the length [886]." Change 1: "storing
    /// writes the long one and needs its length".
    pub fn store(&self, buffer: &mut [u8]) -> (u8, usize) {
        match buffer.get_mut(..image::LENGTH) {
            Some(front) => {
                front.copy_from_slice(&self.kept().encode());
                (0, image::LENGTH)
            }
            None => (14, 0),
        }
    }

    fn reset(&mut self) {
        *self = ChannelBox::restored(self.kept(), EXTERNAL_RESET);
    }
}

/// Samples. Change 3: "Our terminal hardware delivers level and current
/// together. The two calls become one that sets the level first and then the
/// current."
impl ChannelBox {
    /// A level and a current in amperes for a channel. Change 3: "Its questions
    /// are 8, then 9, and a refused sample does neither."
    pub fn sample(&mut self, channel: u8, level: bool, amperes: Real) -> u8 {
        match self.digital(channel) {
            None => 8,
            Some(_) if !reals::is_finite(amperes) => 9,
            Some(channel) => {
                channel.sample(level, amperes);
                0
            }
        }
    }

    /// "Samples: channel 1 to 16? 8." Change 6: windows are asked the same.
    pub(crate) fn digital(&mut self, channel: u8) -> Option<&mut Channel> {
        let index = usize::from(channel).checked_sub(1)?;
        self.channels.get_mut(index)
    }
}

/// Wire calls: "A wire call, refused or not, first clears Act bit 3 of the
/// service channel, then acts, then sets WDTimer to WDPreset."
impl ChannelBox {
    /// A wire read into a lent buffer.
    pub fn read(&mut self, swno: u16, buffer: &mut [u8]) -> Answer {
        self.act &= !RUN_OUT;
        let answer = match question_read(swno, buffer.len()) {
            Ok(register) => self.accept_read(register, buffer),
            Err(number) => self.answer(number, 0),
        };
        self.wd_timer = self.wd_preset;
        answer
    }

    /// A wire write of some bytes.
    pub fn write(&mut self, swno: u16, bytes: &[u8]) -> Answer {
        self.act &= !RUN_OUT;
        let number = match question_write(swno, bytes, self.write_enable) {
            Ok(register) => {
                self.accept_write(register, bytes);
                0
            }
            Err(number) => number,
        };
        let answer = self.answer(number, 0);
        self.wd_timer = self.wd_preset;
        answer
    }

    /// The answer with "two bits: DataError (service Act not 0) and
    /// GeneralError (service His not 0)", as they are now.
    fn answer(&self, number: u8, length: usize) -> Answer {
        Answer {
            number,
            length,
            data_error: self.service_act() != 0,
            general_error: self.service_his() != 0,
        }
    }

    /// The bits are taken "for a read before its acknowledgement".
    fn accept_read(&mut self, register: Register, buffer: &mut [u8]) -> Answer {
        let bytes = self.bytes_of(register);
        buffer[..bytes.len()].copy_from_slice(&bytes);
        let answer = self.answer(0, bytes.len());
        self.acknowledge(register);
        answer
    }

    /// "Reading a digital ChError or CommonError gives the old bytes, then
    /// that His := its Act."
    fn acknowledge(&mut self, register: Register) {
        match register {
            Register::Service(Service::CommonError) => self.acknowledge_service(),
            Register::Digital(index, Digital::ChError) => self.channels[index].acknowledge(),
            _ => {}
        }
    }
}

#[cfg(test)]
mod tests;
