//! Change 1: the manual's Data Channel, and the lookup in its tables.

mod lookup;

use crate::reals::{self, Real};
use crate::registers::TABLE_LENGTH;

/// Pairs in a table.
pub const PAIRS: usize = 10;

/// A pair of a table.
#[derive(Clone, Copy, Debug, Default, PartialEq, Eq)]
pub struct Pair {
    pub x: Real,
    pub y: Real,
}

/// "LookUp1 and LookUp2, [...] ten pairs of Reals X and Y".
#[derive(Clone, Copy, Debug, Default, PartialEq, Eq)]
pub struct LookUp(pub [Pair; PAIRS]);

/// The kept values of the data channel, which its section of the image holds.
/// Of the tables there is no other copy, since "a protected write is kept at
/// once".
#[derive(Clone, Copy, Debug, Default, PartialEq, Eq)]
pub struct KeptData {
    pub real_a: Real,
    pub real_b: Real,
    pub tables: [LookUp; 2],
}

/// The data channel.
#[derive(Clone, Copy, Debug, Default, PartialEq, Eq)]
pub struct DataChannel {
    pub kept: KeptData,
    pub real_a: Real,
    pub real_b: Real,
    pub timer_a: i32,
    pub timer_b: i32,
}

impl DataChannel {
    /// The data channel restored from its kept values, "all else 0". Manual:
    /// "The timer registers are cleared after a power failure or reset."
    pub fn restored(kept: KeptData) -> DataChannel {
        DataChannel {
            kept,
            real_a: kept.real_a,
            real_b: kept.real_b,
            timer_a: 0,
            timer_b: 0,
        }
    }

    /// RealA is "kept every ten hours and as RealB".
    pub fn write_real_a(&mut self, real: Real, write_enable: bool) {
        self.real_a = real;
        if write_enable {
            self.kept.real_a = real;
        }
    }

    /// RealB is "kept when written with WriteEnable".
    pub fn write_real_b(&mut self, real: Real, write_enable: bool) {
        self.real_b = real;
        if write_enable {
            self.kept.real_b = real;
        }
    }

    /// "TimerA and TimerB as OutTimer": a tick counts them down, and they wrap.
    pub fn count_timers(&mut self, step: i32) {
        self.timer_a = self.timer_a.wrapping_sub(step);
        self.timer_b = self.timer_b.wrapping_sub(step);
    }

    /// Step 7 of a tick: RealA is "kept every ten hours".
    pub fn keep_real_a(&mut self) {
        self.kept.real_a = self.real_a;
    }
}

impl KeptData {
    /// "written Reals are finite", and so is each in an image.
    pub fn is_allowed(&self) -> bool {
        reals::is_finite(self.real_a)
            && reals::is_finite(self.real_b)
            && self.tables.iter().all(LookUp::is_allowed)
    }
}

impl LookUp {
    /// Manual: "Coordinate: Record X:Real; Y:Real; End; LookUp: Array[1..10]
    /// of Coordinate".
    pub fn from_bytes(bytes: &[u8; TABLE_LENGTH]) -> LookUp {
        let real = |offset: usize| {
            let word = bytes[offset..offset + 4].try_into();
            u32::from_be_bytes(word.expect("four bytes"))
        };
        LookUp(std::array::from_fn(|index| Pair {
            x: real(8 * index),
            y: real(8 * index + 4),
        }))
    }

    /// As it is read and stored.
    pub fn to_bytes(self) -> [u8; TABLE_LENGTH] {
        let mut bytes = [0; TABLE_LENGTH];
        for (place, pair) in bytes.chunks_exact_mut(8).zip(self.0) {
            place[..4].copy_from_slice(&reals::as_read(pair.x).to_be_bytes());
            place[4..].copy_from_slice(&reals::as_read(pair.y).to_be_bytes());
        }
        bytes
    }

    /// All its Reals are finite. "Installers keep X rising": nothing asks it.
    pub fn is_allowed(&self) -> bool {
        let finite = |pair: &Pair| reals::is_finite(pair.x) && reals::is_finite(pair.y);
        self.0.iter().all(finite)
    }
}

#[cfg(test)]
mod tests;
