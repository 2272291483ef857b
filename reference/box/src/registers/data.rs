//! Change 1: the registers of the data channel.

use super::{Access, TABLE_LENGTH};

/// "$130 RealA [...], $131 RealB [...], TimerA and TimerB as OutTimer, and
/// LookUp1 and LookUp2, protected, ten pairs of Reals X and Y, at the manual's
/// numbers."
#[derive(Clone, Copy, Debug, PartialEq, Eq)]
pub enum Data {
    RealA,
    RealB,
    TimerA,
    TimerB,
    LookUp1,
    LookUp2,
}

impl Data {
    /// Manual: "130 RealA", "131 RealB", "13A TimerA", "13B TimerB", "13C
    /// LookUp1", "13D LookUp2". The manual's others are not added.
    pub(super) fn find(register: u16) -> Option<Data> {
        Some(match register {
            0x0 => Data::RealA,
            0x1 => Data::RealB,
            0xA => Data::TimerA,
            0xB => Data::TimerB,
            0xC => Data::LookUp1,
            0xD => Data::LookUp2,
            _ => return None,
        })
    }

    pub(super) fn length(self) -> usize {
        match self {
            Data::RealA | Data::RealB | Data::TimerA | Data::TimerB => 4,
            Data::LookUp1 | Data::LookUp2 => TABLE_LENGTH,
        }
    }

    pub(super) fn access(self) -> Access {
        match self {
            Data::RealA | Data::RealB | Data::TimerA | Data::TimerB => Access::Writable,
            Data::LookUp1 | Data::LookUp2 => Access::Protected,
        }
    }
}
