//! Change 3: the corners of a sample, and what shows them.

use crate::generator::random::Random;
use crate::generator::script::Script;
use crate::generator::values;

/// FlagReg, Counter, OutCurrent, FBTimer and ChError: what a sample reaches.
const REACHED: &[u16] = &[0, 2, 3, 6, 0xF];

pub(super) fn swno(channel: u8, register: u16) -> u16 {
    u16::from(channel) * 0x10 + register
}

/// Reads what a sample reaches: FlagReg, Counter and OutCurrent mostly, and
/// often the rest.
pub(super) fn look(script: &mut Script, channel: u8) {
    let all = script.random.chance(1, 4);
    for &register in REACHED {
        let times = if register <= 3 { 6 } else { 4 };
        if all || script.random.chance(times, 8) {
            script.read_register(swno(channel, register));
        }
    }
}

/// The same once more after a few ticks, or up to a look at the feedback.
pub(super) fn look_later(script: &mut Script, channel: u8) {
    let count = match script.random.below(2) {
        0 => script.random.within(1, 3),
        _ => script.ticks_to_look(),
    };
    script.tick(count);
    look(script, channel);
}

/// Gives a channel a ChConfig that simulates its input or doesn't, mostly of
/// an output.
pub(super) fn configure(script: &mut Script, channel: u8, simulated: bool) {
    let random = &mut script.random;
    let mut config = values::config(random, channel, &script.focus, script.flavour);
    config[0] = config[0] & !1 | u8::from(simulated);
    script.write_with_enable(swno(channel, 9), &config);
}

/// Makes OutFlag TRUE or FALSE, and InFlag where it is simulated; often by
/// OutFlags, which skips the change rule, so that FBStatus is FALSE. FBTimer is
/// then often another than FBPreset, and a change rule after it shows.
fn switch(script: &mut Script, channel: u8, on: bool, in_flag: bool) {
    let control = script.random.pick(&[0, 0, 0, 0x08]);
    let byte = u8::from(on) << 7 | u8::from(in_flag) << 6 | control;
    if on && script.random.chance(1, 2) {
        script.write(swno(channel, 0), &[byte & 0x7F]);
        let word = 1_u16 << (channel - 1);
        script.write(0x110, &word.to_be_bytes());
    } else {
        script.write(swno(channel, 0), &[byte]);
    }
    if on && script.random.chance(1, 2) {
        let register = script.random.pick(&[6, 6, 7]);
        script.write_suiting(swno(channel, register));
    }
}

/// A channel of which OutFlag is TRUE, where its Functions let it.
pub(super) fn switch_on(script: &mut Script, channel: u8, simulated: bool) {
    configure(script, channel, simulated);
    let in_flag = script.random.chance(1, 2);
    switch(script, channel, true, in_flag);
}

/// The currents of corners: exactly 2, just above it, any above it, −0, one that
/// is not finite, and any that does not trip.
const CORNER_CURRENTS: &[fn(&mut Random) -> u32] = &[
    |_| values::TRIP,
    |_| values::TRIP + 1,
    values::tripping_current,
    |_| 0x8000_0000,
    values::refused_current,
    values::quiet_current,
];

/// What a sample meets: a wired or a simulated input, InFlag and OutFlag before
/// it, and its level.
struct Corner {
    simulated: bool,
    before: bool,
    level: bool,
    on: bool,
}

impl Corner {
    /// Brings a channel there, and samples it.
    fn take(&self, script: &mut Script, channel: u8, current: fn(&mut Random) -> u32) {
        configure(script, channel, self.simulated);
        let quiet = values::quiet_current(&mut script.random);
        script.sample(channel, self.before, quiet);
        switch(script, channel, self.on, self.before);
        if script.random.chance(1, 6) {
            let count = script.ticks_to_look();
            script.tick(count);
        }
        let amperes = current(&mut script.random);
        script.sample(channel, self.level, amperes);
        look(script, channel);
        if script.random.chance(1, 6) {
            look_later(script, channel);
        }
    }
}

/// Corner by corner, with each sort of current. The script goes on with the
/// next one each time, so that a long one has most of them.
pub fn sample_corner(script: &mut Script) {
    let channel = script.channel();
    let number = script.next_corner(16 * CORNER_CURRENTS.len());
    let [simulated, before, level, on] = [1, 2, 4, 8].map(|bit| number & bit != 0);
    let corner = Corner {
        simulated,
        before,
        level,
        on,
    };
    corner.take(script, channel, CORNER_CURRENTS[number / 16]);
}

/// A sample that trips a channel which is on and changes its level at once: a
/// rise still counts, and the change rule runs.
pub fn trip_at_once(script: &mut Script) {
    let channel = script.channel();
    let before = script.random.chance(1, 4);
    let corner = Corner {
        simulated: false,
        before,
        level: !before,
        on: true,
    };
    corner.take(script, channel, values::tripping_current);
}
