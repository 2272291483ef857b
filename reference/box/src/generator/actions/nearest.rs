//! Change 5: times that a write rounds, each with a read of what it became.

use crate::generator::script::Script;
use crate::generator::values::{self, Flavour, Unit};

const SIGN: u32 = 0x8000_0000;

/// OutTimer, OperatingTime, FBTimer, FBPreset and OutPreset; those of both signs
/// oftener.
const TIMES: &[u16] = &[1, 1, 4, 6, 6, 7, 8];
/// WDTimer, of which a read shows WDPreset, and WDPreset.
const WATCHDOG: &[u16] = &[0x08, 0x0A];
const DATA_TIMERS: &[u16] = &[0x13A, 0x13B];
/// A WDPreset of 1024 s, which no script runs out of soon.
const LONG: u32 = 0x4480_0000;

pub fn write_rounded_time(script: &mut Script) {
    let register = script.random.pick(TIMES);
    let swno = script.digital(register);
    let (unit, both_signs) = match register {
        1 | 6 => (Unit::Timer, true),
        4 => (Unit::Operating, false),
        _ => (Unit::Timer, false),
    };
    write_rounded(script, swno, unit, both_signs);
}

pub fn write_rounded_operating_time(script: &mut Script) {
    let swno = script.digital(4);
    write_rounded(script, swno, Unit::Operating, false);
}

pub fn write_rounded_data_timer(script: &mut Script) {
    let swno = script.random.pick(DATA_TIMERS);
    write_rounded(script, swno, Unit::Timer, true);
}

pub fn write_rounded_watchdog(script: &mut Script) {
    let swno = script.random.pick(WATCHDOG);
    write_rounded(script, swno, Unit::Timer, false);
    if script.flavour != Flavour::Watchdog && script.random.chance(3, 4) {
        script.write_word(0x0A, LONG);
    }
}

/// A tie that becomes the count below it and one that becomes the count above
/// it, the Reals just below and above such a tie, and a time as typed.
fn write_rounded(script: &mut Script, swno: u16, unit: Unit, both_signs: bool) {
    let negative = both_signs && script.random.chance(1, 2);
    let sign = if negative { SIGN } else { 0 };
    let random = &mut script.random;
    let [down, up] = values::ties(random, unit);
    let beside = random.pick(&[down, up]);
    let typed = values::typed_time(random);
    for time in [down, up, beside - 1, beside + 1, typed] {
        write_and_read(script, swno, sign | time);
    }
}

/// "Ranges are tested before rounding": a register from 0 is asked to take what
/// would become 0, the last Real below 0 and half a count.
pub fn write_just_below_zero(script: &mut Script) {
    let register = script.random.pick(&[4, 7, 8]);
    let digital = script.digital(register);
    let swno = script.random.pick(&[0x08, 0x0A, digital, digital]);
    let unit = match swno & 0xF {
        4 => Unit::Operating,
        _ => Unit::Timer,
    };
    for magnitude in [1, values::half_count(unit)] {
        write_and_read(script, swno, SIGN | magnitude);
    }
}

fn write_and_read(script: &mut Script, swno: u16, time: u32) {
    script.write_word(swno, time);
    script.read_register(swno);
}

#[cfg(test)]
mod tests;
