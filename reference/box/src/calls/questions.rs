//! Questions 1 to 7: what a wire call is asked before it acts.

use super::bytes::{config, fixed, real};
use crate::data::LookUp;
use crate::reals;
use crate::registers::{Access, Data, Digital, Register, Service};

/// "$FF resets."
const RESET: u8 = 0xFF;

/// "Wire: SWNo at most [$13F]? 1. Register listed? 2. [...] On a read, buffer
/// long enough? 5."
pub(super) fn question_read(swno: u16, lent: usize) -> Result<Register, u8> {
    let register = Register::find(swno)?;
    if lent < register.length() {
        return Err(5);
    }
    Ok(register)
}

/// "On a write, writable? 3. On a write, exact length? 4. [...] On a write of
/// a protected register, WriteEnable TRUE? 6. On a write, value allowed? 7".
pub(super) fn question_write(swno: u16, bytes: &[u8], write_enable: bool) -> Result<Register, u8> {
    let register = Register::find(swno)?;
    let access = register.access();
    if access == Access::ReadOnly {
        return Err(3);
    }
    if bytes.len() != register.length() {
        return Err(4);
    }
    if access == Access::Protected && !write_enable {
        return Err(6);
    }
    if !is_allowed(register, bytes) {
        return Err(7);
    }
    Ok(register)
}

/// "(Reals finite and in range, where −0 tests as 0, and a current −0 is kept
/// as −0; fields above; Reset $FF)".
fn is_allowed(register: Register, bytes: &[u8]) -> bool {
    match register {
        Register::Service(register) => is_allowed_service(register, bytes),
        Register::Digital(_, register) => is_allowed_digital(register, bytes),
        Register::Common(_) => true,
        Register::Data(register) => is_allowed_data(register, bytes),
    }
}

fn is_allowed_service(register: Service, bytes: &[u8]) -> bool {
    match register {
        Service::Reset => bytes == [RESET],
        Service::WdTimer | Service::WdPreset => reals::is_preset(real(bytes)),
        Service::ModuleConfig => config(bytes).is_allowed_for_module(),
        Service::WriteEnable => bytes[0] <= 1,
        Service::CommonError => bytes.iter().all(|&byte| byte == 0),
        Service::NumberOfSwNo | Service::FreeRunTimer => false,
    }
}

fn is_allowed_digital(register: Digital, bytes: &[u8]) -> bool {
    match register {
        Digital::OutTimer | Digital::FbTimer => reals::is_timer(real(bytes)),
        Digital::FbPreset | Digital::OutPreset => reals::is_preset(real(bytes)),
        Digital::OperatingTime => reals::is_operating(real(bytes)),
        Digital::OutCurrent => reals::is_finite(real(bytes)),
        Digital::MinCurrent | Digital::MaxCurrent => reals::is_limit(real(bytes)),
        Digital::ChConfig => config(bytes).is_allowed_for_channel(),
        Digital::FlagReg
        | Digital::Counter
        | Digital::UserBytes
        | Digital::UserReals
        | Digital::Maintenance => true,
        Digital::ChError => false,
    }
}

/// Change 1: "written Reals are finite", and "TimerA and TimerB as OutTimer".
fn is_allowed_data(register: Data, bytes: &[u8]) -> bool {
    match register {
        Data::RealA | Data::RealB => reals::is_finite(real(bytes)),
        Data::TimerA | Data::TimerB => reals::is_timer(real(bytes)),
        Data::LookUp1 | Data::LookUp2 => LookUp::from_bytes(&fixed(bytes)).is_allowed(),
    }
}
