//! Questions for the Outputs, put between the calls of a script.

use super::Script;
use crate::player::Call;
use crate::registers::{Common, Digital, Register, Service};

impl Script {
    /// Puts lines of `outputs` into the script: one at its end, and one now and
    /// then after a call, oftener where the call may switch an output. They
    /// change nothing, so that all other answers stay.
    pub fn ask_outputs(&mut self) {
        for call in self.take_calls() {
            let times = if may_switch(&call) { 8 } else { 1 };
            self.calls.push(call);
            if self.random.chance(times, 48) {
                self.calls.push(Call::Outputs);
            }
        }
        self.calls.push(Call::Outputs);
    }
}

/// Whether an Output may be another after a call. Currents from 2 on are among
/// them, since a box may take a limit for one that is not there.
fn may_switch(call: &Call) -> bool {
    match call {
        Call::Power(_) | Call::Tick(_) => true,
        Call::Sample(_, _, amperes) => (0x4000_0000..0x7F80_0000).contains(amperes),
        Call::Write(swno, _) => switches(*swno),
        _ => false,
    }
}

fn switches(swno: u16) -> bool {
    match Register::find(swno) {
        Ok(Register::Service(register)) => register == Service::Reset,
        Ok(Register::Common(register)) => register == Common::OutFlags,
        Ok(Register::Digital(_, register)) => matches!(
            register,
            Digital::FlagReg | Digital::OutCurrent | Digital::ChConfig
        ),
        _ => false,
    }
}
