//! Accepted writes.

use super::bytes::{config, fixed, real};
use super::ChannelBox;
use crate::channel::Channel;
use crate::data::LookUp;
use crate::reals;
use crate::registers::{Common, Data, Digital, Register, Service};

impl ChannelBox {
    pub(super) fn accept_write(&mut self, register: Register, bytes: &[u8]) {
        match register {
            Register::Service(register) => self.write_service(register, bytes),
            Register::Digital(index, register) => self.write_digital(index, register, bytes),
            Register::Common(register) => self.write_common(register, bytes),
            Register::Data(register) => self.write_data(register, bytes),
        }
    }

    fn write_service(&mut self, register: Service, bytes: &[u8]) {
        match register {
            Service::Reset => self.reset(),
            Service::ModuleConfig => self.module_config = config(bytes),
            Service::WdPreset => self.wd_preset = reals::to_timer_count(real(bytes)),
            Service::WriteEnable => self.write_enable = bytes[0] == 1,
            Service::CommonError => self.acknowledge_all(),
            // "after a write it holds WDPreset, as after every wire call"
            Service::WdTimer => {}
            Service::NumberOfSwNo | Service::FreeRunTimer => {}
        }
    }

    fn write_digital(&mut self, index: usize, register: Digital, bytes: &[u8]) {
        let keep = self.write_enable;
        let channel = &mut self.channels[index];
        match register {
            Digital::FlagReg => channel.write_flag_reg(bytes[0]),
            Digital::OutTimer => channel.out_timer = reals::to_timer_count(real(bytes)),
            Digital::FbTimer => channel.fb_timer = reals::to_timer_count(real(bytes)),
            Digital::OutCurrent => channel.set_current(real(bytes)),
            Digital::Counter | Digital::OperatingTime | Digital::UserBytes => {
                write_working(channel, register, bytes, keep);
            }
            _ => write_protected(channel, register, bytes),
        }
    }

    /// "OutFlags takes bit 7 alike [...]. InFlags sets simulated channels
    /// only."
    fn write_common(&mut self, register: Common, bytes: &[u8]) {
        let word = u16::from_be_bytes(fixed(bytes));
        for (index, channel) in self.channels.iter_mut().enumerate() {
            let on = word >> index & 1 == 1;
            match register {
                Common::OutFlags => channel.write_out_flags_bit(on),
                Common::InFlags => channel.simulate_in_flag(on),
                Common::IoChError | Common::ChError => {}
            }
        }
    }

    /// Change 1. The tables are protected, and so kept at once.
    fn write_data(&mut self, register: Data, bytes: &[u8]) {
        let keep = self.write_enable;
        let data = &mut self.data;
        match register {
            Data::RealA => data.write_real_a(real(bytes), keep),
            Data::RealB => data.write_real_b(real(bytes), keep),
            Data::TimerA => data.timer_a = reals::to_timer_count(real(bytes)),
            Data::TimerB => data.timer_b = reals::to_timer_count(real(bytes)),
            Data::LookUp1 => data.kept.tables[0] = LookUp::from_bytes(&fixed(bytes)),
            Data::LookUp2 => data.kept.tables[1] = LookUp::from_bytes(&fixed(bytes)),
        }
    }
}

/// Registers 2, 4 and 5: a write is kept at once "while WriteEnable is TRUE".
fn write_working(channel: &mut Channel, register: Digital, bytes: &[u8], keep: bool) {
    match register {
        Digital::Counter => channel.counter = i32::from_be_bytes(fixed(bytes)),
        Digital::OperatingTime => channel.write_operating(reals::to_operating_count(real(bytes))),
        _ => channel.user_bytes = fixed(bytes),
    }
    if !keep {
        return;
    }
    match register {
        Digital::Counter => channel.kept.counter = channel.counter,
        Digital::OperatingTime => channel.kept.operating = channel.operating,
        _ => channel.kept.user_bytes = channel.user_bytes,
    }
}

/// "A protected write is kept at once".
fn write_protected(channel: &mut Channel, register: Digital, bytes: &[u8]) {
    match register {
        Digital::FbPreset => channel.kept.fb_preset = reals::to_timer_count(real(bytes)),
        Digital::OutPreset => channel.kept.out_preset = reals::to_timer_count(real(bytes)),
        Digital::ChConfig => channel.write_config(config(bytes)),
        Digital::MinCurrent => channel.kept.min_current = real(bytes),
        Digital::MaxCurrent => channel.kept.max_current = real(bytes),
        Digital::UserReals => channel.kept.user_reals = fixed(bytes),
        Digital::Maintenance => channel.kept.maintenance = fixed(bytes),
        _ => unreachable!("not a protected register"),
    }
}
