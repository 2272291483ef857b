//! Change 4: the water charge from two readings.
//!
//! "It takes two Counter values, litres per pulse (1 to 10000) and one to four
//! blocks, each with an upper limit in litres (the last without) and a price in
//! hundredths of a cent per litre, at most 100000."
//!
//! It stands above the box and asks nothing of it: a Counter value is the
//! number that a read gave. Sentences in quotation marks are Change 4's.

const LITRES_PER_PULSE: std::ops::RangeInclusive<u32> = 1..=10_000;
/// "one to four blocks".
const MOST_BLOCKS: usize = 4;
/// In hundredths of a cent per litre.
const HIGHEST_PRICE: u32 = 100_000;
/// Hundredths in a cent.
const CENT: i128 = 100;

/// The number, 0 where the charge is done, and the cents, 0 where it is
/// refused: "a refusal gives 0 for every value it would have answered"
/// (document 01).
///
/// "16 when litres per pulse is out of range. 17 when there are no blocks or
/// more than four, a limit isn't above the one before, or a price is too high;
/// 16 is asked first."
///
/// A block is a price and, but for the last, a limit. So there is one limit
/// less than there are prices, and no limit where there is no block.
///
/// # Panics
///
/// Where the two slices have lengths that no blocks give, before any question.
pub fn charge(
    earlier: i32,
    later: i32,
    litres_per_pulse: u32,
    limits: &[u64],
    prices: &[u32],
) -> (u8, u64) {
    assert_eq!(
        limits.len(),
        prices.len().saturating_sub(1),
        "all blocks but the last have a limit"
    );
    if !LITRES_PER_PULSE.contains(&litres_per_pulse) {
        return (16, 0);
    }
    if !are_allowed(limits, prices) {
        return (17, 0);
    }
    let litres = u64::from(pulses(earlier, later)) * u64::from(litres_per_pulse);
    (0, rounded(hundredths(litres, limits, prices)))
}

/// "Pulses are the later count minus the earlier, modulo 4294967296."
pub fn pulses(earlier: i32, later: i32) -> u32 {
    let difference = i64::from(later) - i64::from(earlier);
    difference.rem_euclid(4_294_967_296) as u32
}

/// Question 17. The first limit has none before it and may be 0: then the first
/// block is empty. Every price is asked, whether or not a litre has it.
fn are_allowed(limits: &[u64], prices: &[u32]) -> bool {
    let number = (1..=MOST_BLOCKS).contains(&prices.len());
    let rising = limits.windows(2).all(|pair| pair[1] > pair[0]);
    number && rising && prices.iter().all(|&price| price <= HIGHEST_PRICE)
}

/// "Litres fill the blocks in order." A limit is a total from the first litre,
/// and the litre of that number is still in its block. So every litre has the
/// first price, and those above a limit have, beside it, what the next price is
/// more (or less) than the one before. Limits rise, and there is a price.
pub(crate) fn hundredths(litres: u64, limits: &[u64], prices: &[u32]) -> i128 {
    let first = i128::from(litres) * i128::from(prices[0]);
    let steps = prices
        .windows(2)
        .map(|pair| i128::from(pair[1]) - i128::from(pair[0]));
    let above = limits.iter().map(|&limit| litres.saturating_sub(limit));
    let changes = above
        .zip(steps)
        .map(|(above, step)| i128::from(above) * step);
    first + changes.sum::<i128>()
}

/// "The sum is rounded to a cent once, half upward." The highest is
/// 4294967295 pulses of 10000 litres at 100000.
fn rounded(hundredths: i128) -> u64 {
    let cents = (hundredths + CENT / 2) / CENT;
    u64::try_from(cents).expect("no price is below 0, and 64 bits hold every sum")
}

#[cfg(test)]
mod tests;
