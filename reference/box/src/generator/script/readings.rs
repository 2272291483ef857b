//! Change 4: charges, and the Counter values that a script's own box has.

use super::Script;
use crate::player::{Call, Charge};
use crate::ChannelBox;

/// The box on which the calls so far were made, as far as it was asked for.
#[derive(Default)]
pub(super) struct Played {
    device: ChannelBox,
    calls: usize,
}

impl Played {
    /// Makes the calls that are new since the last time.
    fn follow(&mut self, calls: &[Call]) {
        for call in &calls[self.calls..] {
            call.make(&mut self.device);
        }
        self.calls = calls.len();
    }
}

impl Script {
    pub fn charge(&mut self, charge: Charge) {
        self.calls.push(Call::Charge(charge));
    }

    /// Counter of a digital channel, as a read that comes next gives it. It is
    /// unknown once the calls are taken out.
    pub fn counter(&mut self, channel: u8) -> i32 {
        self.played.follow(&self.calls);
        self.played.device.channels[usize::from(channel) - 1].counter
    }
}

#[cfg(test)]
mod tests {
    use super::*;

    #[test]
    fn a_counter_is_that_of_the_scripts_box() {
        let mut script = Script::new(1);
        script.power(&[]);
        assert_eq!(script.counter(3), 0);
        script.write(0x32, &[0x7F, 0xFF, 0xFF, 0xFF]);
        assert_eq!(script.counter(3), i32::MAX);
        script.sample(3, true, 0);
        assert_eq!(script.counter(3), i32::MIN);
        assert_eq!(script.counter(3), i32::MIN);
        assert_eq!(script.counter(4), 0);
    }
}
