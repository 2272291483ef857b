//! What a script is played on.

use crate::channel::Channel;
use crate::charge;
use crate::reals::Real;
use crate::{Answer, ChannelBox};

/// A channel box as a player calls it: this model, or an implementation that
/// is compared with it. A number is document 01's, 0 where the call is done.
pub trait Device {
    fn power_up(&mut self, image: &[u8]) -> u8;
    /// Gives its number and length.
    fn store(&self, buffer: &mut [u8]) -> (u8, usize);
    fn read(&mut self, swno: u16, buffer: &mut [u8]) -> Answer;
    fn write(&mut self, swno: u16, bytes: &[u8]) -> Answer;
    /// Change 3: a level and a current at once.
    fn sample(&mut self, channel: u8, level: bool, amperes: Real) -> u8;
    fn tick(&mut self);
    /// Change 1: gives its number and the Real, 0 where it is refused.
    fn lookup(&self, table: u8, x: Real) -> (u8, Real);
    /// Change 4: gives its number and the cents, 0 where it is refused. It is
    /// no call on the box: it changes nothing and asks nothing of it.
    fn charge(
        &self,
        earlier: i32,
        later: i32,
        litres_per_pulse: u32,
        limits: &[u64],
        prices: &[u32],
    ) -> (u8, u64);
    /// Change 6: sets the minute of the week.
    fn minute(&mut self, minute: u16) -> u8;
    /// Change 6: gives a channel its windows, each a start and an end.
    fn windows(&mut self, channel: u8, windows: &[(u16, u16)]) -> u8;
    /// Output of a channel, FALSE where there is no such channel. It changes
    /// nothing and is in no list.
    fn output(&self, channel: u8) -> bool;
}

impl Device for ChannelBox {
    fn power_up(&mut self, image: &[u8]) -> u8 {
        ChannelBox::power_up(self, image)
    }

    fn store(&self, buffer: &mut [u8]) -> (u8, usize) {
        ChannelBox::store(self, buffer)
    }

    fn read(&mut self, swno: u16, buffer: &mut [u8]) -> Answer {
        ChannelBox::read(self, swno, buffer)
    }

    fn write(&mut self, swno: u16, bytes: &[u8]) -> Answer {
        ChannelBox::write(self, swno, bytes)
    }

    fn sample(&mut self, channel: u8, level: bool, amperes: Real) -> u8 {
        ChannelBox::sample(self, channel, level, amperes)
    }

    fn tick(&mut self) {
        ChannelBox::tick(self);
    }

    fn lookup(&self, table: u8, x: Real) -> (u8, Real) {
        ChannelBox::lookup(self, table, x)
    }

    fn charge(
        &self,
        earlier: i32,
        later: i32,
        litres_per_pulse: u32,
        limits: &[u64],
        prices: &[u32],
    ) -> (u8, u64) {
        charge::charge(earlier, later, litres_per_pulse, limits, prices)
    }

    fn minute(&mut self, minute: u16) -> u8 {
        ChannelBox::minute(self, minute)
    }

    fn windows(&mut self, channel: u8, windows: &[(u16, u16)]) -> u8 {
        ChannelBox::windows(self, channel, windows)
    }

    fn output(&self, channel: u8) -> bool {
        let index = usize::from(channel).checked_sub(1);
        let channel = index.and_then(|index| self.channels.get(index));
        channel.is_some_and(Channel::output)
    }
}

#[cfg(test)]
mod tests {
    use super::*;
    use crate::bench::Bench;

    #[test]
    fn output_is_that_of_the_channel_with_the_number() {
        let mut bench = Bench::watchdog_off();
        bench.configure(16, [0, 0x10, 0, 0]);
        bench.write(0x100, &[0x80]);
        let on: Vec<u8> = (0..=255).filter(|&k| bench.device.output(k)).collect();
        assert_eq!(on, [16]);
    }
}
