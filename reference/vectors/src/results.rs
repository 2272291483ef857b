//! The expected result of each conversion. Nothing means refused.

use crate::real::{is_nan, nearest, Finite, QUIET_NAN, SIGN};

pub const TIMER_UNITS: u128 = 256;
pub const OPERATING_UNITS: u128 = 8;
const TIMER_END: u128 = 8_388_608;
const OPERATING_END: u128 = 536_870_912;

/// Timers lose or gain this many counts at a tick.
const TICK: i64 = 8;
const LOWEST: i64 = -2_147_483_648;
const HIGHEST_UNSIGNED: u64 = 4_294_967_295;

/// The number as a 32-bit word, going round where it leaves 32 bits.
fn word(number: i64) -> u32 {
    number.rem_euclid(1 << 32) as u32
}

/// The word as a two's-complement number.
fn signed(word: u32) -> i64 {
    let number = i64::from(word);
    if word & SIGN == 0 {
        number
    } else {
        number - (1 << 32)
    }
}

/// A Real time from -`minus` up to, not including, `end`, as the nearest count.
/// The range is tested on the Real itself, before rounding.
fn time_written(bits: u32, minus: u128, end: u128, units: u128) -> Option<u32> {
    let real = Finite::from_bits(bits)?;
    if !real.is_at_least_minus(minus) || !real.is_below(end) {
        return None;
    }
    let magnitude = i64::try_from(real.nearest_count(units)).expect("in range");
    Some(word(if real.negative { -magnitude } else { magnitude }))
}

pub fn timer_written(bits: u32) -> Option<u32> {
    time_written(bits, TIMER_END, TIMER_END, TIMER_UNITS)
}

pub fn preset_written(bits: u32) -> Option<u32> {
    time_written(bits, 0, TIMER_END, TIMER_UNITS)
}

pub fn operating_time_written(bits: u32) -> Option<u32> {
    time_written(bits, 0, OPERATING_END, OPERATING_UNITS)
}

pub fn current_limit_written(bits: u32) -> Option<u32> {
    let real = Finite::from_bits(bits)?;
    (real.is_at_least_minus(0) && real.is_at_most(1)).then_some(bits)
}

pub fn out_current_written(bits: u32) -> Option<u32> {
    Finite::from_bits(bits).map(|_| bits)
}

pub fn timer_read(count: u32) -> Option<u32> {
    let count = signed(count);
    let magnitude = nearest(u128::from(count.unsigned_abs()), TIMER_UNITS);
    Some(if count < 0 {
        magnitude | SIGN
    } else {
        magnitude
    })
}

pub fn operating_time_read(count: u32) -> Option<u32> {
    Some(nearest(u128::from(count), OPERATING_UNITS))
}

pub fn real_in_and_out(bits: u32) -> Option<u32> {
    Some(if is_nan(bits) { QUIET_NAN } else { bits })
}

pub fn out_timer_tick(count: u32) -> Option<u32> {
    Some(word(signed(count) - TICK))
}

pub fn fb_timer_tick(count: u32) -> Option<u32> {
    Some(word((signed(count) - TICK).max(LOWEST)))
}

pub fn wd_timer_tick(count: u32) -> Option<u32> {
    Some(word((signed(count) - TICK).max(0)))
}

pub fn free_run_timer_tick(count: u32) -> Option<u32> {
    Some(word(signed(count) + TICK))
}

pub fn counter_rise(count: u32) -> Option<u32> {
    Some(word(signed(count) + 1))
}

pub fn operating_step(count: u32) -> Option<u32> {
    Some((u64::from(count) + 1).min(HIGHEST_UNSIGNED) as u32)
}

/// The two low bytes, high byte first, as an unsigned number.
pub fn pair_unsigned(pair: u32) -> Option<u32> {
    let (high, low) = (pair / 256 % 256, pair % 256);
    Some(high * 256 + low)
}
