//! Samples: levels, currents and the trips that they bring.

use super::ticks::few_ticks;
use crate::generator::script::Script;

/// A sample whose level matters.
pub fn sample_level(script: &mut Script) {
    let channel = script.channel();
    let on = script.random.chance(1, 2);
    script.sample_level(channel, on);
}

/// Rises and falls without a tick between.
pub fn pulses(script: &mut Script) {
    let channel = script.channel();
    for _ in 0..script.random.within(1, 3) {
        script.sample_level(channel, true);
        script.sample_level(channel, false);
    }
}

/// A sample whose current matters.
pub fn sample_current(script: &mut Script) {
    let channel = script.channel();
    let amperes = script.current_for(channel);
    script.sample_current(channel, amperes);
}

/// A trip, after which the current goes back to rest; sometimes Control rises
/// again before the next tick.
pub fn overload(script: &mut Script) {
    let channel = script.channel();
    script.sample_current(channel, 0x4040_0000);
    if script.random.chance(1, 3) {
        script.tick(1);
    }
    script.sample_current(channel, 0);
    if script.random.chance(1, 2) {
        script.write(u16::from(channel) * 0x10, &[0x08]);
    }
}

/// OutFlag comes back by OutFlags while the overload stands: no disconnection
/// then.
pub fn out_flags_after_overload(script: &mut Script) {
    let channel = script.channel();
    let swno = u16::from(channel) * 0x10;
    if script.random.chance(1, 2) {
        script.write_with_enable(swno + 9, &[0, 0x10, 0, 0]);
    }
    script.sample_current(channel, 0x4040_0000);
    script.sample(channel, false, 0);
    let word = 1_u16 << (channel - 1);
    script.write(0x110, &word.to_be_bytes());
    few_ticks(script);
    script.read(swno + 0xF, 4);
}

/// A trip in the tick, by MaxCurrent: OutFlag, FBTimer below 0 and a current
/// above every limit but not above 2.
pub fn trip_in_tick(script: &mut Script) {
    let channel = script.channel();
    let swno = u16::from(channel) * 0x10;
    for _ in 0..script.random.within(1, 4) {
        script.write(swno, &[0x80]);
        script.write(swno + 6, &[0xBB, 0x80, 0, 0]);
        script.sample_current(channel, 0x3F80_0001);
        script.tick(1);
        script.read(swno, 1);
    }
    if script.random.chance(1, 2) {
        script.sample_current(channel, 0);
    }
}
