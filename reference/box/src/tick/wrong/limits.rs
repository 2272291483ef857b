//! Boxes that have one limit wrong: of a current, of FBTimer or of what a
//! register takes. Tests ask whether generated scripts tell them from the model.

use super::Common;
use crate::calls::ChannelBox;
use crate::channel::{error, Channel};
use crate::player::{Call, Reply};
use crate::reals::{self, Real};
use crate::registers::{Data, Digital, Register, Service};

/// The limits of a box, each as the question that a rule asks.
#[derive(Clone, Copy)]
pub(crate) struct Limits {
    /// "above 2 it trips", as a sample, as a write and in each tick.
    pub(crate) trips: fn(Real) -> bool,
    /// "OutFlag, FBTimer < 0 and OutCurrent > MaxCurrent", in a tick.
    pub(crate) overloads: fn(&Channel) -> bool,
    /// Bit 5.
    pub(crate) underloads: fn(&Channel) -> bool,
    /// Bit 3, where the input is wired.
    pub(crate) leaks: fn(&Channel) -> bool,
    /// Bit 1.
    pub(crate) feeds_back: fn(&Channel) -> bool,
    /// What registers of times and of limits take.
    pub(crate) is_timer: fn(Real) -> bool,
    pub(crate) is_preset: fn(Real) -> bool,
    pub(crate) is_operating: fn(Real) -> bool,
    pub(crate) is_limit: fn(Real) -> bool,
}

impl Limits {
    /// As the model has them.
    pub(crate) const RIGHT: Limits = Limits {
        trips: |amperes| reals::greater(amperes, 0x4000_0000),
        overloads: |channel| channel.out_flag && channel.fb_timer < 0 && channel.is_above_max(),
        underloads: |channel| channel.is_underloaded(),
        leaks: |channel| !channel.out_flag && reals::greater(channel.out_current, 0x3DCC_CCCD),
        feeds_back: |channel| channel.fb_timer < 0 && channel.fb_status,
        is_timer: reals::is_timer,
        is_preset: reals::is_preset,
        is_operating: reals::is_operating,
        is_limit: reals::is_limit,
    };

    /// Makes a call on a box that has these limits.
    pub(crate) fn make(&self, call: &Call, device: &mut ChannelBox) -> Reply {
        match call {
            Call::Tick(count) => {
                (0..*count).for_each(|_| device.tick_with(self));
                Reply::Tick
            }
            Call::Sample(channel, level, amperes) if reals::is_finite(*amperes) => {
                let number = device.sample(*channel, *level, 0);
                if number == 0 {
                    device.channels[usize::from(*channel) - 1].take_current(self, *amperes);
                }
                Reply::Sample(number)
            }
            Call::Write(swno, bytes) => self.write(*swno, bytes, device),
            _ => call.make(device),
        }
    }

    /// A write. A value that only one of the two boxes takes is told by the
    /// number, so that it need not be written.
    fn write(&self, swno: u16, bytes: &[u8], device: &mut ChannelBox) -> Reply {
        let real = <[u8; 4]>::try_from(bytes).map(Real::from_be_bytes);
        let (Ok(register), Ok(real)) = (Register::find(swno), real) else {
            return Reply::Write(device.write(swno, bytes));
        };
        if let Register::Digital(index, Digital::OutCurrent) = register {
            return self.write_current(index, real, device);
        }
        let mut answer = device.write(swno, bytes);
        if self.takes(register, real) != Limits::RIGHT.takes(register, real) {
            answer.number = match answer.number {
                0 => 7,
                7 => 0,
                number => number,
            };
        }
        Reply::Write(answer)
    }

    /// The bits are taken "after a write".
    fn write_current(&self, index: usize, amperes: Real, device: &mut ChannelBox) -> Reply {
        let swno = 0x10 * (index as u16 + 1) + 3;
        if !reals::is_finite(amperes) {
            return Reply::Write(device.write(swno, &amperes.to_be_bytes()));
        }
        let mut answer = device.write(swno, &[0; 4]);
        device.channels[index].take_current(self, amperes);
        answer.data_error = device.service_act() != 0;
        answer.general_error = device.service_his() != 0;
        Reply::Write(answer)
    }

    fn takes(&self, register: Register, real: Real) -> bool {
        match register {
            Register::Service(Service::WdTimer | Service::WdPreset) => (self.is_preset)(real),
            Register::Data(Data::TimerA | Data::TimerB) => (self.is_timer)(real),
            Register::Digital(_, register) => match register {
                Digital::OutTimer | Digital::FbTimer => (self.is_timer)(real),
                Digital::FbPreset | Digital::OutPreset => (self.is_preset)(real),
                Digital::OperatingTime => (self.is_operating)(real),
                Digital::MinCurrent | Digital::MaxCurrent => (self.is_limit)(real),
                _ => true,
            },
            _ => true,
        }
    }
}

impl ChannelBox {
    fn tick_with(&mut self, limits: &Limits) {
        self.clock.begin_tick();
        let minute = self.clock.now();
        let common = self.begin_work();
        for channel in self.channels.iter_mut().rev() {
            let cleared = common.run_out || channel.is_closed(minute);
            channel.tick_with(limits, cleared, common);
        }
        if self.count_to_save() {
            self.save();
        }
    }
}

impl Channel {
    pub(crate) fn is_above_max(&self) -> bool {
        reals::greater(self.out_current, self.kept.max_current)
    }

    fn take_current(&mut self, limits: &Limits, amperes: Real) {
        self.out_current = amperes;
        if (limits.trips)(amperes) {
            self.trip();
        }
    }

    fn tick_with(&mut self, limits: &Limits, cleared: bool, common: Common) {
        let start = self.out_flag;
        if cleared {
            self.clear();
        }
        self.count_timers();
        self.run_special_function();
        self.change_rule(start);
        if (limits.trips)(self.out_current) || (limits.overloads)(self) {
            self.trip();
        }
        if common.look {
            self.look(common.in_flags);
        }
        self.count_operating();
        self.judge_with(limits);
    }

    /// Bits 4 and 2 have no limit and are the model's.
    fn judge_with(&mut self, limits: &Limits) {
        let others = error::EXTERNAL_SHORT_CIRCUIT | error::DISCONNECTION;
        let mut found = self.found_errors() & others;
        let wired = !self.kept.config.simulates_input();
        for (bit, on) in [
            (error::UNDERLOAD, (limits.underloads)(self)),
            (error::INTERNAL_SHORT_CIRCUIT, wired && (limits.leaks)(self)),
            (error::FEEDBACK, (limits.feeds_back)(self)),
        ] {
            found |= if on { bit } else { 0 };
        }
        self.act &= error::OVERLOAD | error::PRG_ERROR;
        self.set_error(found);
    }
}
