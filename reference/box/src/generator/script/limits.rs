//! What the writer knows of a channel's limits, of WriteEnable and of the
//! watchdog, and currents about the limits.

use super::Script;
use crate::generator::values;
use crate::image::Settings;
use crate::reals;
use crate::registers::Digital;
use crate::CHANNELS;

/// MinCurrent and MaxCurrent of each channel, and whether the watchdog is on.
pub(super) struct Given {
    min: [u32; CHANNELS],
    max: [u32; CHANNELS],
    watchdog_on: bool,
}

impl Given {
    /// As power-up leaves them, accepted or not.
    pub(super) fn by(settings: &Settings) -> Given {
        Given {
            min: settings.channels.map(|kept| kept.min_current),
            max: settings.channels.map(|kept| kept.max_current),
            watchdog_on: settings.module_config.watchdog_is_on(),
        }
    }
}

impl Script {
    /// A write of a limit; what is refused is left out.
    pub(super) fn remember_limit(&mut self, index: usize, register: Digital, real: u32) {
        if !self.write_enable || !reals::is_limit(real) {
            return;
        }
        match register {
            Digital::MinCurrent => self.given.min[index] = real,
            Digital::MaxCurrent => self.given.max[index] = real,
            _ => {}
        }
    }

    /// A write of ModuleConfig.
    pub(super) fn remember_module(&mut self, bytes: &[u8]) {
        match bytes {
            [_, 0, _, _] if self.write_enable => self.given.watchdog_on = true,
            [_, 0x10, _, _] if self.write_enable => self.given.watchdog_on = false,
            _ => {}
        }
    }

    pub fn min_current(&self, channel: u8) -> u32 {
        self.given.min[usize::from(channel) - 1]
    }

    pub fn max_current(&self, channel: u8) -> u32 {
        self.given.max[usize::from(channel) - 1]
    }

    pub fn is_write_enabled(&self) -> bool {
        self.write_enable
    }

    pub fn watchdog_is_on(&self) -> bool {
        self.given.watchdog_on
    }

    /// A current for a channel, often one of the limits that it is compared
    /// with, or a pattern beside one.
    pub fn current_for(&mut self, channel: u8) -> u32 {
        if self.random.chance(3, 5) {
            return values::current(&mut self.random);
        }
        let (min, max) = (self.min_current(channel), self.max_current(channel));
        let limit = self.random.pick(&[values::LEAK, values::TRIP, min, max]);
        let [below, above] = values::beside(limit);
        self.random.pick(&[below, limit, above])
    }
}

#[cfg(test)]
mod tests {
    use super::*;

    #[test]
    fn limits_are_those_of_the_image_and_of_accepted_writes() {
        let mut settings = Settings::default();
        settings.channels[2].min_current = 0x3E80_0000;
        settings.channels[2].max_current = 0x3F00_0000;
        let mut script = Script::new(1);
        script.power(&settings.encode());
        let limits = |script: &Script| (script.min_current(3), script.max_current(3));
        assert_eq!(limits(&script), (0x3E80_0000, 0x3F00_0000));
        script.write(0x3A, &0x3F80_0000_u32.to_be_bytes());
        assert_eq!(limits(&script), (0x3E80_0000, 0x3F00_0000));
        script.write(0x0D, &[1]);
        script.write(0x3A, &0x3F80_0000_u32.to_be_bytes());
        script.write(0x3B, &0x8000_0000_u32.to_be_bytes());
        script.write(0x4B, &0x3F00_0000_u32.to_be_bytes());
        script.write(0x3B, &0x3F80_0001_u32.to_be_bytes());
        assert_eq!(limits(&script), (0x3F80_0000, 0x8000_0000));
        script.write(0x03, &[0xFF]);
        assert_eq!(limits(&script), (0x3F80_0000, 0x8000_0000));
        script.power(&[]);
        assert_eq!(limits(&script), (0, 0));
    }

    #[test]
    fn the_watchdog_is_known() {
        let mut script = Script::new(1);
        assert!(script.watchdog_is_on());
        script.write(0x09, &[0, 0x10, 0, 0]);
        assert!(script.watchdog_is_on());
        script.write(0x0D, &[1]);
        script.write(0x09, &[7, 0x10, 7, 7]);
        assert!(!script.watchdog_is_on());
        script.write(0x09, &[0, 0x20, 0, 0]);
        script.write(0x03, &[0xFF]);
        assert!(!script.watchdog_is_on());
        script.power(&[]);
        assert!(script.watchdog_is_on());
    }

    #[test]
    fn currents_lie_at_and_beside_each_limit() {
        let mut script = Script::new(1);
        script.write(0x0D, &[1]);
        script.write(0x3A, &0x3E99_999A_u32.to_be_bytes());
        script.write(0x3B, &0x3F19_999A_u32.to_be_bytes());
        let drawn: Vec<u32> = (0..1000).map(|_| script.current_for(3)).collect();
        for limit in [0x3DCC_CCCD, 0x4000_0000, 0x3E99_999A, 0x3F19_999A] {
            for amperes in [limit - 1, limit, limit + 1] {
                assert!(drawn.contains(&amperes), "{amperes:08x}");
            }
        }
    }
}
