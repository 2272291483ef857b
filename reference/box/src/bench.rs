//! A bench for the unit tests: a box with short ways to call it.

use crate::channel::{Channel, Config, Kept};
use crate::image::Settings;
use crate::ChannelBox;

pub struct Bench {
    pub device: ChannelBox,
}

impl Bench {
    /// Powered up from settings, which must be allowed.
    pub fn with(settings: Settings) -> Bench {
        let mut device = ChannelBox::default();
        assert_eq!(device.power_up(&settings.encode()), 0);
        Bench { device }
    }

    /// All settings zero, but the watchdog off.
    pub fn watchdog_off() -> Bench {
        Bench::with(Settings {
            module_config: Config::from_bytes([0, 0x10, 0, 0]),
            ..Settings::default()
        })
    }

    pub fn ticks(&mut self, count: u32) {
        for _ in 0..count {
            self.device.tick();
        }
    }

    /// Writes and gives the number.
    pub fn write(&mut self, swno: u16, bytes: &[u8]) -> u8 {
        self.device.write(swno, bytes).number
    }

    /// Writes four bytes, high byte first.
    pub fn write_word(&mut self, swno: u16, word: u32) -> u8 {
        self.write(swno, &word.to_be_bytes())
    }

    /// An accepted read of a register of `length` bytes.
    pub fn read(&mut self, swno: u16, length: usize) -> Vec<u8> {
        let mut buffer = vec![0xA5; length];
        let answer = self.device.read(swno, &mut buffer);
        assert_eq!((answer.number, answer.length), (0, length));
        buffer
    }

    /// An accepted read of four bytes, high byte first.
    pub fn read_word(&mut self, swno: u16) -> u32 {
        let bytes = self.read(swno, 4);
        u32::from_be_bytes(bytes.try_into().expect("four bytes"))
    }

    /// Writes ChConfig, WriteEnable on for that write alone.
    pub fn configure(&mut self, channel: u16, config: [u8; 4]) {
        assert_eq!(self.write(0x0D, &[1]), 0);
        assert_eq!(self.write(channel * 0x10 + 9, &config), 0);
        assert_eq!(self.write(0x0D, &[0]), 0);
    }

    /// Writes a protected Real, WriteEnable on for that write alone.
    pub fn protect(&mut self, swno: u16, real: u32) {
        assert_eq!(self.write(0x0D, &[1]), 0);
        assert_eq!(self.write_word(swno, real), 0);
        assert_eq!(self.write(0x0D, &[0]), 0);
    }
}

/// A box with the watchdog on and a WDPreset of so many counts.
pub fn with_watchdog(preset: i32) -> Bench {
    Bench::with(Settings {
        wd_preset: preset,
        ..Settings::default()
    })
}

/// A box with the watchdog off in which all sixteen channels are outputs, have
/// the same windows and are switched on, and the minute is set: what each of
/// its ticks does, it does with opening hours to look at.
pub fn with_hours(windows: &[(u16, u16)], minute: u16) -> Bench {
    let mut settings = Settings {
        module_config: Config::from_bytes([0, 0x10, 0, 0]),
        ..Settings::default()
    };
    for kept in &mut settings.channels {
        kept.config = Config::from_bytes([0, 0x10, 0, 0]);
    }
    let mut bench = Bench::with(settings);
    for channel in 1..=16 {
        assert_eq!(bench.device.windows(channel, windows), 0);
    }
    assert_eq!(bench.device.minute(minute), 0);
    assert_eq!(bench.write(0x110, &[0xFF, 0xFF]), 0);
    bench
}

/// A channel just restored with a ChConfig.
pub fn with_channel(config: [u8; 4]) -> Channel {
    Channel::restored(Kept {
        config: Config::from_bytes(config),
        ..Kept::default()
    })
}
