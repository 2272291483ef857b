//! Change 4: the line `charge EARLIER LATER LITRES [LIMIT PRICE]... PRICE`.

use super::device::Device;
use super::reply::Reply;
use super::words::{counter_of, decimal, decimal_word, Why};
use std::fmt;

/// "up to eight blocks are taken in": eight prices and seven limits.
const MOST_WORDS: usize = 15;

/// A charge as the script gives it: two Counter values, litres per pulse and
/// the blocks, which have a price each and, but for the last, a limit.
#[derive(Clone, Debug, PartialEq, Eq)]
pub struct Charge {
    pub earlier: i32,
    pub later: i32,
    pub litres_per_pulse: u32,
    pub limits: Vec<u64>,
    pub prices: Vec<u32>,
}

impl Charge {
    /// The charge of the words after its name.
    pub(super) fn from_words(words: &[&[u8]]) -> Result<Charge, Why> {
        match words {
            [earlier, later, litres, blocks @ ..] if are_blocks(blocks.len()) => {
                let (earlier, later) = (counter_of(earlier)?, counter_of(later)?);
                let litres_per_pulse = decimal_word(litres)?;
                let (limits, prices) = blocks_of(blocks)?;
                Ok(Charge {
                    earlier,
                    later,
                    litres_per_pulse,
                    limits,
                    prices,
                })
            }
            _ => Err(Why::WrongNumberOfWords),
        }
    }

    /// Makes the charge, as a call is made on a box.
    pub(super) fn make(&self, device: &impl Device) -> Reply {
        let (limits, prices) = (&self.limits, &self.prices);
        let (number, cents) = device.charge(
            self.earlier,
            self.later,
            self.litres_per_pulse,
            limits,
            prices,
        );
        Reply::Charge(number, cents)
    }
}

/// Whether so many words are blocks: "the last a price alone", "none is no
/// word".
fn are_blocks(words: usize) -> bool {
    words == 0 || words % 2 == 1 && words <= MOST_WORDS
}

/// Limits and prices by turns, the last a price.
fn blocks_of(words: &[&[u8]]) -> Result<(Vec<u64>, Vec<u32>), Why> {
    let (mut limits, mut prices) = (Vec::new(), Vec::new());
    for block in words.chunks(2) {
        match block {
            [limit, price] => {
                limits.push(decimal(limit, u64::MAX)?);
                prices.push(decimal_word(price)?);
            }
            [price] => prices.push(decimal_word(price)?),
            _ => unreachable!("chunks of 2 have one or two words"),
        }
    }
    Ok((limits, prices))
}

/// The line of a script.
impl fmt::Display for Charge {
    fn fmt(&self, formatter: &mut fmt::Formatter) -> fmt::Result {
        let (earlier, later) = (self.earlier, self.later);
        write!(formatter, "charge {earlier:08x} {later:08x} ")?;
        write!(formatter, "{}", self.litres_per_pulse)?;
        let mut limits = self.limits.iter();
        for price in &self.prices {
            match limits.next() {
                Some(limit) => write!(formatter, " {limit} {price}")?,
                None => write!(formatter, " {price}")?,
            }
        }
        Ok(())
    }
}

#[cfg(test)]
mod tests;
