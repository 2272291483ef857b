//! The error registers of the service and common channels.
//!
//! Only each channel's own His and Act are held; every word over several
//! channels is worked out when it is asked for, service bit 0 too.

use crate::calls::ChannelBox;
use crate::channel::Channel;
use crate::registers::COMMON_ERROR_LENGTH;

/// Service bit 7: "His bit 7 is set" by power-up.
pub const INTERNAL_RESET: u8 = 1 << 7;
/// Service bit 6: set by reset.
pub const EXTERNAL_RESET: u8 = 1 << 6;
/// Service bit 3: the watchdog ran out.
pub const RUN_OUT: u8 = 1 << 3;
/// Service bit 0: some channel's is not 0.
const ANY_CHANNEL: u8 = 1 << 0;
/// The common channel's bit in ComHis and ComAct.
const COMMON_BIT: u32 = 1 << 17;

impl ChannelBox {
    /// A word with bit k−1 for channel k.
    fn word(&self, is_set: impl Fn(&Channel) -> bool) -> u16 {
        let bits = self.channels.iter().enumerate();
        bits.filter(|(_, channel)| is_set(channel))
            .fold(0, |word, (index, _)| word | 1 << index)
    }

    pub(crate) fn out_flags(&self) -> u16 {
        self.word(|channel| channel.out_flag)
    }

    pub(crate) fn in_flags(&self) -> u16 {
        self.word(|channel| channel.in_flag)
    }

    fn his_word(&self) -> u16 {
        self.word(|channel| channel.his != 0)
    }

    fn act_word(&self) -> u16 {
        self.word(|channel| channel.act != 0)
    }

    /// "$112 R IOChError, 4 bytes: His word and Act word, bit k−1 set where
    /// channel k's is not 0."
    pub(crate) fn io_ch_error(&self) -> [u8; 4] {
        let [his_high, his_low] = self.his_word().to_be_bytes();
        let [act_high, act_low] = self.act_word().to_be_bytes();
        [his_high, his_low, act_high, act_low]
    }

    /// "$11F R ChError, bit 0 where that word is not 0."
    pub(crate) fn common_ch_error(&self) -> [u8; 4] {
        let his = u8::from(self.his_word() != 0);
        let act = u8::from(self.act_word() != 0);
        [his, 0, act, 0]
    }

    /// "Service bit 0 is set where ComHis (for Act, ComAct) is not 0."
    pub(crate) fn service_his(&self) -> u8 {
        self.his | any_channel(self.his_word())
    }

    pub(crate) fn service_act(&self) -> u8 {
        self.act | any_channel(self.act_word())
    }

    /// "CommonError holds His at 0, Act at 2, ComHis at 4 to 6, ComAct at 8
    /// to 10 (bit n for channel n, low byte first; channels 1 to 17), the
    /// rest 0."
    pub(crate) fn common_error(&self) -> [u8; COMMON_ERROR_LENGTH] {
        let mut bytes = [0; COMMON_ERROR_LENGTH];
        bytes[0] = self.service_his();
        bytes[2] = self.service_act();
        bytes[4..8].copy_from_slice(&per_channel(self.his_word()).to_le_bytes());
        bytes[8..12].copy_from_slice(&per_channel(self.act_word()).to_le_bytes());
        bytes
    }

    pub(crate) fn set_service_error(&mut self, bit: u8) {
        self.act |= bit;
        self.his |= bit;
    }

    /// "Reading [...] CommonError gives the old bytes, then that His := its
    /// Act": the service channel's own.
    pub(crate) fn acknowledge_service(&mut self) {
        self.his = self.act;
    }

    /// "Writing CommonError with 12 zeros does this for service and all
    /// digital channels."
    pub(crate) fn acknowledge_all(&mut self) {
        self.acknowledge_service();
        self.channels.iter_mut().for_each(Channel::acknowledge);
    }
}

fn any_channel(word: u16) -> u8 {
    if word == 0 {
        0
    } else {
        ANY_CHANNEL
    }
}

/// ComHis or ComAct: "bit n for channel n", the common channel included.
fn per_channel(word: u16) -> u32 {
    let common = if word == 0 { 0 } else { COMMON_BIT };
    u32::from(word) << 1 | common
}

#[cfg(test)]
mod tests {
    use super::*;
    use crate::bench::Bench;
    use crate::channel::error;

    #[test]
    fn common_error_lays_its_bits_low_byte_first() {
        let mut bench = Bench::watchdog_off();
        bench.device.channels[0].his = error::FEEDBACK;
        bench.device.channels[7].his = error::FEEDBACK;
        bench.device.channels[15].set_error(error::OVERLOAD);
        let expected = [0x81, 0, 0x01, 0, 0x02, 0x01, 0x03, 0, 0, 0, 0x03, 0];
        assert_eq!(bench.device.common_error(), expected);
    }

    #[test]
    fn the_common_channel_sums_up() {
        let mut bench = Bench::watchdog_off();
        assert_eq!(bench.read(0x11F, 4), [0; 4]);
        bench.device.channels[0].his = 1;
        assert_eq!(bench.read(0x112, 4), [0, 1, 0, 0]);
        assert_eq!(bench.read(0x11F, 4), [1, 0, 0, 0]);
        bench.device.channels[15].act = 1;
        assert_eq!(bench.read(0x112, 4), [0, 1, 0x80, 0]);
        assert_eq!(bench.read(0x11F, 4), [1, 0, 1, 0]);
        assert_eq!(bench.read(0x112, 4), [0, 1, 0x80, 0]);
    }

    #[test]
    fn reading_common_error_acknowledges_the_service_channel_alone() {
        let mut bench = Bench::watchdog_off();
        bench.device.channels[4].his = error::UNDERLOAD;
        assert_eq!(bench.read(0x0F, 12)[0], 0x81);
        assert_eq!(bench.read(0x0F, 12)[0], 0x01);
        assert_eq!(bench.device.channels[4].his, error::UNDERLOAD);
    }

    #[test]
    fn reading_ch_error_acknowledges_that_channel() {
        let mut bench = Bench::watchdog_off();
        bench.device.channels[4].his = error::UNDERLOAD | error::OVERLOAD;
        bench.device.channels[4].act = error::OVERLOAD;
        bench.device.channels[5].his = error::UNDERLOAD;
        assert_eq!(bench.read(0x5F, 4), [0x60, 0, 0x40, 0]);
        assert_eq!(bench.read(0x5F, 4), [0x40, 0, 0x40, 0]);
        assert_eq!(bench.device.channels[5].his, error::UNDERLOAD);
    }

    #[test]
    fn writing_zeros_acknowledges_all_but_keeps_standing_errors() {
        let mut bench = Bench::watchdog_off();
        bench.device.channels[1].his = 0x7F;
        bench.device.channels[1].act = error::OVERLOAD;
        bench.device.channels[2].his = 0x7F;
        assert_eq!(bench.write(0x0F, &[0; 12]), 0);
        assert_eq!(bench.device.channels[1].his, error::OVERLOAD);
        assert_eq!(bench.device.channels[2].his, 0);
        assert_eq!(bench.device.his, 0);
        assert_eq!(bench.device.service_his(), ANY_CHANNEL);
    }

    #[test]
    fn flag_words_have_bit_k_less_1_for_channel_k() {
        let mut bench = Bench::watchdog_off();
        bench.device.channels[0].out_flag = true;
        bench.device.channels[15].in_flag = true;
        assert_eq!(bench.read(0x110, 2), [0x00, 0x01]);
        assert_eq!(bench.read(0x111, 2), [0x80, 0x00]);
    }
}
