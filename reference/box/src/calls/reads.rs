//! The registers as they read.

use super::ChannelBox;
use crate::reals::{self, Real};
use crate::registers::{Common, Data, Digital, Register, Service, HIGHEST_SWNO};

impl ChannelBox {
    pub(super) fn bytes_of(&self, register: Register) -> Vec<u8> {
        match register {
            Register::Service(register) => self.service_bytes(register),
            Register::Digital(index, register) => self.digital_bytes(index, register),
            Register::Common(register) => self.common_bytes(register),
            Register::Data(register) => self.data_bytes(register),
        }
    }

    fn service_bytes(&self, register: Service) -> Vec<u8> {
        match register {
            Service::NumberOfSwNo => HIGHEST_SWNO.to_be_bytes().to_vec(),
            Service::Reset => vec![0],
            Service::FreeRunTimer => self.free_run_timer.to_be_bytes().to_vec(),
            Service::WdTimer => timer_bytes(self.wd_timer),
            Service::ModuleConfig => self.module_config.to_bytes().to_vec(),
            Service::WdPreset => timer_bytes(self.wd_preset),
            Service::WriteEnable => vec![u8::from(self.write_enable)],
            Service::CommonError => self.common_error().to_vec(),
        }
    }

    fn digital_bytes(&self, index: usize, register: Digital) -> Vec<u8> {
        let channel = &self.channels[index];
        let kept = &channel.kept;
        match register {
            Digital::FlagReg => vec![channel.flag_reg(self.in_flags())],
            Digital::OutTimer => timer_bytes(channel.out_timer),
            Digital::Counter => channel.counter.to_be_bytes().to_vec(),
            Digital::OutCurrent => real_bytes(channel.out_current),
            Digital::OperatingTime => operating_bytes(channel.operating),
            Digital::UserBytes => channel.user_bytes.to_vec(),
            Digital::FbTimer => timer_bytes(channel.fb_timer),
            Digital::FbPreset => timer_bytes(kept.fb_preset),
            Digital::OutPreset => timer_bytes(kept.out_preset),
            Digital::ChConfig => kept.config.to_bytes().to_vec(),
            Digital::MinCurrent => real_bytes(kept.min_current),
            Digital::MaxCurrent => real_bytes(kept.max_current),
            Digital::UserReals => kept.user_reals.to_vec(),
            Digital::Maintenance => kept.maintenance.to_vec(),
            // "ChError is His, 0, Act, 0."
            Digital::ChError => vec![channel.his, 0, channel.act, 0],
        }
    }

    fn common_bytes(&self, register: Common) -> Vec<u8> {
        match register {
            Common::OutFlags => self.out_flags().to_be_bytes().to_vec(),
            Common::InFlags => self.in_flags().to_be_bytes().to_vec(),
            Common::IoChError => self.io_ch_error().to_vec(),
            Common::ChError => self.common_ch_error().to_vec(),
        }
    }

    fn data_bytes(&self, register: Data) -> Vec<u8> {
        let data = &self.data;
        match register {
            Data::RealA => real_bytes(data.real_a),
            Data::RealB => real_bytes(data.real_b),
            Data::TimerA => timer_bytes(data.timer_a),
            Data::TimerB => timer_bytes(data.timer_b),
            Data::LookUp1 => data.kept.tables[0].to_bytes().to_vec(),
            Data::LookUp2 => data.kept.tables[1].to_bytes().to_vec(),
        }
    }
}

fn timer_bytes(count: i32) -> Vec<u8> {
    reals::from_timer_count(count).to_be_bytes().to_vec()
}

fn operating_bytes(count: u32) -> Vec<u8> {
    reals::from_operating_count(count).to_be_bytes().to_vec()
}

fn real_bytes(real: Real) -> Vec<u8> {
    reals::as_read(real).to_be_bytes().to_vec()
}
