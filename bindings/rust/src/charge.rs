//! The charge for the water between two readings of a Counter, for the office
//! program. It stands above the box and asks nothing of it.
//!
//! ```
//! use pd3120::{charge, Block, Pd3120, Tariff};
//!
//! // 1.50 cents a litre up to 1000 litres, 2.00 up to 2000, and 3.25 above.
//! let limited = [(1000, 150), (2000, 200)].map(|(limit, price)| Block { limit, price });
//! let tariff = Tariff::new(&limited, 325);
//!
//! // Two readings of the meter on channel 4, and 250 pulses between them.
//! let mut module = Pd3120::default();
//! let mut bytes = [0; 4];
//! module.read(0x42, &mut bytes)?;
//! let earlier = i32::from_be_bytes(bytes);
//! for _ in 0..250 {
//!     module.sample(4, true, 0.0)?;
//!     module.sample(4, false, 0.0)?;
//! }
//! module.read(0x42, &mut bytes)?;
//! let later = i32::from_be_bytes(bytes);
//!
//! // Ten litres a pulse: 51.25.
//! assert_eq!(charge(earlier, later, 10, &tariff), Ok(5125));
//! # Ok::<(), pd3120::Error>(())
//! ```

use crate::boundary;
use core::fmt;

/// The most blocks of a tariff.
pub const MOST_BLOCKS: u32 = 4;

/// The most litres per pulse. The fewest are 1.
pub const MOST_LITRES_PER_PULSE: u32 = 10_000;

/// The highest price, in hundredths of a cent per litre.
pub const HIGHEST_PRICE: u32 = 100_000;

/// A block with an upper limit. A tariff's last block has none.
#[derive(Clone, Copy, Debug, PartialEq, Eq)]
pub struct Block {
    /// A total from the first litre. The litre of this number is still in the
    /// block.
    pub limit: u64,
    /// In hundredths of a cent per litre.
    pub price: u32,
}

/// The blocks that the litres fill in order. Each limit is above the one before;
/// the first may be 0. What stands past the blocks is not looked at.
#[derive(Clone, Copy, Debug, PartialEq, Eq)]
pub struct Tariff {
    /// How many blocks there are, 1 to 4.
    pub blocks: u32,
    /// The limits of all blocks but the last, in litres.
    pub limits: [u64; 3],
    /// The price of each block, in hundredths of a cent per litre.
    pub prices: [u32; 4],
}

impl Tariff {
    /// The tariff of some blocks with a limit and the price above all limits. A
    /// charge by one with more than three limits is refused.
    ///
    /// ```
    /// use pd3120::{Block, Tariff};
    ///
    /// let tariff = Tariff::new(&[Block { limit: 10, price: 100 }], 200);
    /// assert_eq!((tariff.blocks, tariff.limits[0]), (2, 10));
    /// assert_eq!(tariff.prices[..2], [100, 200]);
    /// ```
    pub fn new(limited: &[Block], last: u32) -> Tariff {
        let mut tariff = Tariff {
            blocks: u32::try_from(limited.len() + 1).unwrap_or(u32::MAX),
            limits: [0; 3],
            prices: [last; 4],
        };
        let places = tariff.limits.iter_mut().zip(&mut tariff.prices);
        for ((limit, price), block) in places.zip(limited) {
            (*limit, *price) = (block.limit, block.price);
        }
        tariff
    }
}

/// The charge in cents for the pulses from the earlier Counter to the later one:
/// the later minus the earlier, modulo 4294967296. The sum is rounded to a cent
/// once, half upward.
///
/// ```
/// use pd3120::{charge, ChargeRefusal, Tariff};
///
/// let half = Tariff::new(&[], 50);
/// assert_eq!(charge(0, 1, 1, &half), Ok(1));
/// assert_eq!(charge(i32::MAX, i32::MIN, 3, &half), Ok(2));
/// assert_eq!(charge(0, 1, 0, &half), Err(ChargeRefusal::LitresPerPulse));
/// let none = Tariff { blocks: 0, ..half };
/// assert_eq!(charge(0, 1, 1, &none), Err(ChargeRefusal::Blocks));
/// ```
#[inline]
pub fn charge(
    earlier: i32,
    later: i32,
    litres_per_pulse: u32,
    tariff: &Tariff,
) -> Result<u64, ChargeRefusal> {
    let (number, cents) = boundary::charge::charge(earlier, later, litres_per_pulse, tariff);
    if number == 0 {
        return Ok(cents);
    }
    let refusal = u8::try_from(number).ok().and_then(ChargeRefusal::numbered);
    Err(refusal.expect("the library is proved to answer 0, 16 or 17"))
}

/// The reasons to refuse a charge, with the numbers of document 02. A charge is
/// refused for the first that applies.
#[derive(Clone, Copy, Debug, PartialEq, Eq, Hash)]
#[repr(u8)]
pub enum ChargeRefusal {
    /// The litres per pulse are not from 1 to 10000.
    LitresPerPulse = 16,
    /// There are no blocks or more than four, a limit is not above the one
    /// before, or a price is above 100000.
    Blocks = 17,
}

impl ChargeRefusal {
    /// Every refusal, in the order of the numbers.
    pub const ALL: [ChargeRefusal; 2] = [ChargeRefusal::LitresPerPulse, ChargeRefusal::Blocks];

    /// The refusal of a number, which is 16 or 17.
    #[inline]
    pub fn numbered(number: u8) -> Option<ChargeRefusal> {
        let index = usize::from(number).checked_sub(16)?;
        ChargeRefusal::ALL.get(index).copied()
    }

    /// The paper's number, 16 or 17.
    #[inline]
    pub fn number(self) -> u8 {
        self as u8
    }

    /// A plain sentence.
    pub fn sentence(self) -> &'static str {
        match self {
            ChargeRefusal::LitresPerPulse => "the litres per pulse are not from 1 to 10000",
            ChargeRefusal::Blocks => {
                "there are not 1 to 4 blocks, a limit does not rise, or a price is above 100000"
            }
        }
    }
}

impl fmt::Display for ChargeRefusal {
    fn fmt(&self, formatter: &mut fmt::Formatter) -> fmt::Result {
        let (number, sentence) = (self.number(), self.sentence());
        write!(formatter, "refused by {number}: {sentence}")
    }
}

#[cfg(feature = "std")]
impl std::error::Error for ChargeRefusal {}

#[cfg(test)]
mod tests {
    use super::*;
    use std::string::ToString;
    use std::vec;

    #[test]
    fn each_refusal_has_its_number_and_a_sentence_of_its_own() {
        for number in 0..=255 {
            let found = ChargeRefusal::numbered(number).map(ChargeRefusal::number);
            assert_eq!(found, [16, 17].contains(&number).then_some(number));
        }
        let [litres, blocks] = ChargeRefusal::ALL;
        assert_ne!(litres.sentence(), blocks.sentence());
        let shown = "refused by 16: the litres per pulse are not from 1 to 10000";
        assert_eq!(litres.to_string(), shown);
    }

    #[test]
    fn a_tariff_has_a_block_for_each_limit_and_the_last() {
        let block = |k: u32| Block {
            limit: u64::from(k) * 10,
            price: k,
        };
        let limited = [1, 2, 3, 4, 5].map(block);
        let made = |count: usize| Tariff::new(&limited[..count], 9);
        assert_eq!((made(0).blocks, made(0).prices[0]), (1, 9));
        assert_eq!(
            (made(2).blocks, made(2).limits[..2].to_vec()),
            (3, vec![10, 20])
        );
        assert_eq!(made(2).prices[..3], [1, 2, 9]);
        let full = Tariff {
            blocks: 4,
            limits: [10, 20, 30],
            prices: [1, 2, 3, 9],
        };
        assert_eq!(made(3), full);
        assert_eq!((made(4).blocks, made(5).blocks), (5, 6));
    }
}
