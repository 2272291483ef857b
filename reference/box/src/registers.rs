//! Registers: which there are, how long they are and who may write them.
//!
//! "SWNo = channel times $10 + register. R read only, P protected, W
//! writable."

mod data;

pub use data::Data;

/// "0 R highest SWNo, 2 bytes". Change 1: "The highest SWNo is $13F".
pub const HIGHEST_SWNO: u16 = 0x013F;
/// The length of CommonError.
pub const COMMON_ERROR_LENGTH: usize = 12;
/// The length of a lookup table: "ten pairs of Reals X and Y".
pub const TABLE_LENGTH: usize = 80;
/// The length of the longest registers.
pub const LONGEST: usize = TABLE_LENGTH;

const COMMON_CHANNEL: u16 = 17;
/// The manual's Calculator, which is left out.
const CALCULATOR: u16 = 18;
const DATA_CHANNEL: u16 = 19;

#[derive(Clone, Copy, Debug, PartialEq, Eq)]
pub enum Access {
    ReadOnly,
    Protected,
    Writable,
}

/// Registers of the service channel.
#[derive(Clone, Copy, Debug, PartialEq, Eq)]
pub enum Service {
    NumberOfSwNo,
    Reset,
    FreeRunTimer,
    WdTimer,
    ModuleConfig,
    WdPreset,
    WriteEnable,
    CommonError,
}

/// Registers of a digital channel.
#[derive(Clone, Copy, Debug, PartialEq, Eq)]
pub enum Digital {
    FlagReg,
    OutTimer,
    Counter,
    OutCurrent,
    OperatingTime,
    UserBytes,
    FbTimer,
    FbPreset,
    OutPreset,
    ChConfig,
    MinCurrent,
    MaxCurrent,
    UserReals,
    Maintenance,
    ChError,
}

/// Registers of the common channel.
#[derive(Clone, Copy, Debug, PartialEq, Eq)]
pub enum Common {
    OutFlags,
    InFlags,
    IoChError,
    ChError,
}

/// A listed register. A digital one goes with its channel's index, which is
/// the channel less one.
#[derive(Clone, Copy, Debug, PartialEq, Eq)]
pub enum Register {
    Service(Service),
    Digital(usize, Digital),
    Common(Common),
    Data(Data),
}

impl Register {
    /// "SWNo at most [$13F]? 1. Register listed? 2." Change 1: "SWNos of $12
    /// answer 2."
    pub fn find(swno: u16) -> Result<Register, u8> {
        if swno > HIGHEST_SWNO {
            return Err(1);
        }
        let register = swno & 0xF;
        let found = match swno >> 4 {
            0 => Service::find(register).map(Register::Service),
            COMMON_CHANNEL => Common::find(register).map(Register::Common),
            CALCULATOR => None,
            DATA_CHANNEL => Data::find(register).map(Register::Data),
            channel => {
                let index = usize::from(channel) - 1;
                Digital::find(register).map(|digital| Register::Digital(index, digital))
            }
        };
        found.ok_or(2)
    }

    /// The register's length in bytes.
    pub fn length(self) -> usize {
        match self {
            Register::Service(register) => register.length(),
            Register::Digital(_, register) => register.length(),
            Register::Common(register) => register.length(),
            Register::Data(register) => register.length(),
        }
    }

    pub fn access(self) -> Access {
        match self {
            Register::Service(register) => register.access(),
            Register::Digital(_, register) => register.access(),
            Register::Common(register) => register.access(),
            Register::Data(register) => register.access(),
        }
    }
}

impl Service {
    fn find(register: u16) -> Option<Service> {
        Some(match register {
            0x0 => Service::NumberOfSwNo,
            0x3 => Service::Reset,
            0x7 => Service::FreeRunTimer,
            0x8 => Service::WdTimer,
            0x9 => Service::ModuleConfig,
            0xA => Service::WdPreset,
            0xD => Service::WriteEnable,
            0xF => Service::CommonError,
            _ => return None,
        })
    }

    fn length(self) -> usize {
        match self {
            Service::Reset | Service::WriteEnable => 1,
            Service::NumberOfSwNo => 2,
            Service::CommonError => COMMON_ERROR_LENGTH,
            Service::FreeRunTimer
            | Service::WdTimer
            | Service::ModuleConfig
            | Service::WdPreset => 4,
        }
    }

    fn access(self) -> Access {
        match self {
            Service::NumberOfSwNo | Service::FreeRunTimer => Access::ReadOnly,
            Service::ModuleConfig | Service::WdPreset => Access::Protected,
            Service::Reset | Service::WdTimer | Service::WriteEnable | Service::CommonError => {
                Access::Writable
            }
        }
    }
}

impl Digital {
    fn find(register: u16) -> Option<Digital> {
        Some(match register {
            0x0 => Digital::FlagReg,
            0x1 => Digital::OutTimer,
            0x2 => Digital::Counter,
            0x3 => Digital::OutCurrent,
            0x4 => Digital::OperatingTime,
            0x5 => Digital::UserBytes,
            0x6 => Digital::FbTimer,
            0x7 => Digital::FbPreset,
            0x8 => Digital::OutPreset,
            0x9 => Digital::ChConfig,
            0xA => Digital::MinCurrent,
            0xB => Digital::MaxCurrent,
            0xC => Digital::UserReals,
            0xD => Digital::Maintenance,
            0xF => Digital::ChError,
            _ => return None,
        })
    }

    fn length(self) -> usize {
        match self {
            Digital::FlagReg => 1,
            Digital::UserReals => 8,
            _ => 4,
        }
    }

    fn access(self) -> Access {
        match self {
            Digital::FlagReg
            | Digital::OutTimer
            | Digital::Counter
            | Digital::OutCurrent
            | Digital::OperatingTime
            | Digital::UserBytes
            | Digital::FbTimer => Access::Writable,
            Digital::FbPreset
            | Digital::OutPreset
            | Digital::ChConfig
            | Digital::MinCurrent
            | Digital::MaxCurrent
            | Digital::UserReals
            | Digital::Maintenance => Access::Protected,
            Digital::ChError => Access::ReadOnly,
        }
    }
}

impl Common {
    fn find(register: u16) -> Option<Common> {
        Some(match register {
            0x0 => Common::OutFlags,
            0x1 => Common::InFlags,
            0x2 => Common::IoChError,
            0xF => Common::ChError,
            _ => return None,
        })
    }

    fn length(self) -> usize {
        match self {
            Common::OutFlags | Common::InFlags => 2,
            Common::IoChError | Common::ChError => 4,
        }
    }

    fn access(self) -> Access {
        match self {
            Common::OutFlags | Common::InFlags => Access::Writable,
            Common::IoChError | Common::ChError => Access::ReadOnly,
        }
    }
}

#[cfg(test)]
mod tests;
