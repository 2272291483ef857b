//! A level table of the data channel, as ten pairs and as the bytes of LookUp1
//! ($13C) or LookUp2 ($13D): X1 Y1 X2 Y2 … X10 Y10, the high byte first.
//!
//! ```
//! use pd3120::{table, Pair};
//!
//! let mut pairs = [Pair::default(); table::PAIRS];
//! pairs[9] = Pair { x: 5.0, y: 1.5 };
//! let bytes = table::to_bytes(&pairs);
//! assert_eq!(bytes[72..], [0x40, 0xA0, 0, 0, 0x3F, 0xC0, 0, 0]);
//! assert_eq!(table::from_bytes(&bytes), pairs);
//! ```

/// The pairs of a table.
pub const PAIRS: usize = 10;

/// The bytes of a table.
pub const LENGTH: usize = 8 * PAIRS;

/// A pair of a level table. X should rise from pair to pair; nothing tests it.
#[derive(Clone, Copy, Debug, Default, PartialEq)]
pub struct Pair {
    /// What is looked up, such as the position of a float.
    pub x: f32,
    /// What is answered there, such as litres.
    pub y: f32,
}

/// The bytes of a table, as they are written and read.
pub fn to_bytes(pairs: &[Pair; PAIRS]) -> [u8; LENGTH] {
    let mut bytes = [0; LENGTH];
    for (place, pair) in bytes.chunks_exact_mut(8).zip(pairs) {
        place[..4].copy_from_slice(&pair.x.to_be_bytes());
        place[4..].copy_from_slice(&pair.y.to_be_bytes());
    }
    bytes
}

/// The pairs of a table that was read.
pub fn from_bytes(bytes: &[u8; LENGTH]) -> [Pair; PAIRS] {
    let real = |at: usize| {
        let bits = [bytes[at], bytes[at + 1], bytes[at + 2], bytes[at + 3]];
        f32::from_be_bytes(bits)
    };
    core::array::from_fn(|k| Pair {
        x: real(8 * k),
        y: real(8 * k + 4),
    })
}

#[cfg(test)]
mod tests {
    use super::*;

    /// Of Reals that are none too.
    #[test]
    fn every_pattern_of_bits_goes_through_both() {
        for step in 0..=255_u8 {
            let bytes = std::array::from_fn(|at| (at as u8).wrapping_mul(37).wrapping_add(step));
            assert_eq!(to_bytes(&from_bytes(&bytes)), bytes);
        }
    }

    #[test]
    fn the_sign_of_zero_stays() {
        let mut pairs = [Pair::default(); PAIRS];
        pairs[0].y = -0.0;
        let bytes = to_bytes(&pairs);
        assert_eq!(bytes[..8], [0, 0, 0, 0, 0x80, 0, 0, 0]);
        assert!(from_bytes(&bytes)[0].y.is_sign_negative());
    }
}
