//! The bytes of a register as the value that they stand for.

use crate::channel::Config;
use crate::reals::Real;

/// A register's bytes, whose length question 4 has settled.
pub(super) fn fixed<const N: usize>(bytes: &[u8]) -> [u8; N] {
    bytes.try_into().expect("question 4 settles the length")
}

/// "Numbers of several bytes have the high byte first."
pub(super) fn real(bytes: &[u8]) -> Real {
    u32::from_be_bytes(fixed(bytes))
}

pub(super) fn config(bytes: &[u8]) -> Config {
    Config::from_bytes(fixed(bytes))
}
