//! Change 6: what a closing finds and leaves: special functions, the change
//! rule, the watchdog, currents, and what empties the windows.

use super::corners::swno;
use super::hours::{look, look_closely, prepare, switch_on, try_on, windows_at};
use super::images::{power, power_damaged};
use crate::generator::script::Script;
use crate::generator::values;
use crate::reals;

/// A channel with Functions, FBPreset and OutPreset, open at the minute now.
struct Standpipe {
    channel: u8,
    minute: u16,
}

/// A ChConfig of any Functions, with references or without.
fn configure(script: &mut Script, channel: u8) {
    let random = &mut script.random;
    let functions = random.pick(&[0, 0x10, 0x10, 0x20, 0x20, 0x20, 0x30, 0x30, 0x50, 0x50]);
    let enable = random.pick(&[0, 0, 0, 0, 1, 4, 0x20, 0x40]);
    let other = random.pick(&script.focus);
    let [ref_a, ref_b] = random.pick(&[[0, 0], [other, 0], [0, other], [channel, 0], [other, 16]]);
    let config = [enable, functions, ref_a, ref_b];
    script.write_with_enable(swno(channel, 9), &config);
}

/// A time of so many ticks.
fn ticks(count: i32) -> u32 {
    reals::from_timer_count(8 * count)
}

impl Standpipe {
    /// One with its presets, which is open and has run for some ticks.
    fn running(script: &mut Script) -> Standpipe {
        let channel = script.channel();
        configure(script, channel);
        let level = script.random.chance(1, 2);
        script.sample(channel, level, 0);
        let preset = script.random.pick(&[1, 3, 10, 40, 5_000]);
        script.write_word(swno(channel, 8), ticks(preset));
        if script.random.chance(3, 4) {
            let preset = script.random.pick(&[0, 1, 5, 50, 5_000]);
            script.write_word(swno(channel, 7), ticks(preset));
        }
        let minute = values::minute(&mut script.random);
        let windows = windows_at(script, minute, true);
        script.windows(channel, &windows);
        script.minute(minute);
        let pipe = Standpipe { channel, minute };
        pipe.start(script);
        let count = script.random.within(1, 6);
        script.tick(count);
        look(script, channel);
        pipe
    }

    /// Sets OutFlag, Control or both. A timer output mostly gets its time.
    fn start(&self, script: &mut Script) {
        if script.random.chance(1, 2) {
            let count = script.random.pick(&[2, 20, 5_000]);
            script.write_word(swno(self.channel, 1), ticks(count));
        }
        let byte = script.random.pick(&[0x80, 0x08, 0x08, 0x88, 0x88]);
        script.write(swno(self.channel, 0), &[byte]);
    }

    /// Closed or open from now on, by the minute or by the windows.
    fn turn(&self, script: &mut Script, open: bool) {
        let windows = windows_at(script, self.minute, open);
        if script.random.chance(1, 2) {
            return script.windows(self.channel, &windows);
        }
        // The minute goes away and comes back to windows that are as asked.
        script.minute(values::away(self.minute, 5_000));
        script.windows(self.channel, &windows);
        script.minute(self.minute);
    }

    /// Closed by the minute's own movement: the window ends with it.
    fn close_by_itself(&self, script: &mut Script) {
        let end = values::away(self.minute, 1);
        let windows = [(values::away(self.minute, -30), end)];
        script.windows(self.channel, &windows);
        let left = script.ticks_to_minute();
        if left > 1 {
            script.tick(left - 1);
        }
        look_closely(script, self.channel);
    }
}

/// A channel of any Functions closes with OutFlag or Control TRUE. Then it is
/// tried while closed, opens again, which turns nothing on, and Control is
/// written anew: a new edge.
pub fn closing(script: &mut Script) {
    let pipe = Standpipe::running(script);
    let channel = pipe.channel;
    if script.random.chance(1, 6) {
        pipe.close_by_itself(script);
    } else {
        pipe.turn(script, false);
    }
    script.tick(1);
    look_closely(script, channel);
    if script.random.chance(1, 2) {
        pipe.start(script);
        script.tick(1);
        look_closely(script, channel);
    }
    let count = script.random.below(4);
    if count > 0 {
        script.tick(count);
        look(script, channel);
    }
    pipe.turn(script, true);
    if script.random.chance(1, 2) {
        script.tick(1);
        look(script, channel);
    }
    let byte = script.random.pick(&[0x08, 0x08, 0x88]);
    script.write(swno(channel, 0), &[byte]);
    script.tick(1);
    look_closely(script, channel);
}

/// A current as the channel closes: one that trips, or one above MaxCurrent with
/// FBTimer below 0, which trips no channel that is off.
pub fn closing_with_current(script: &mut Script) {
    let pipe = Standpipe::running(script);
    let channel = pipe.channel;
    if script.random.chance(1, 2) {
        script.write_word(swno(channel, 0xB), 0x3E80_0000);
        script.write(swno(channel, 0), &[0x80]);
        script.write(swno(channel, 6), &[0xBB, 0x80, 0, 0]);
        let amperes = script.random.pick(&[0x3E80_0001, 0x3F80_0000, reals::TWO]);
        script.sample_current(channel, amperes);
    } else {
        let amperes = values::tripping_current(&mut script.random);
        script.sample_current(channel, amperes);
        script.write(swno(channel, 0), &[0x80]);
    }
    let closes = script.random.chance(5, 6);
    pipe.turn(script, !closes);
    script.tick(1);
    look_closely(script, channel);
    script.sample_current(channel, 0);
    if script.random.chance(1, 2) {
        script.tick(1);
        look(script, channel);
    }
}

/// A write between ticks switches a closed channel on until the next tick.
pub fn write_while_closed(script: &mut Script) {
    let channel = script.channel();
    prepare(script, channel);
    let minute = values::minute(&mut script.random);
    let windows = windows_at(script, minute, false);
    script.windows(channel, &windows);
    script.minute(minute);
    for _ in 0..script.random.within(1, 3) {
        switch_on(script, channel);
        let swno = script.random.pick(&[0x110, swno(channel, 0)]);
        script.read_register(swno);
        script.tick(1);
        look_closely(script, channel);
    }
}

/// A channel that closes and opens with no tick between stays on: the clearing
/// is in the tick alone.
pub fn open_and_close_between_ticks(script: &mut Script) {
    let pipe = Standpipe::running(script);
    let channel = pipe.channel;
    for _ in 0..script.random.within(1, 2) {
        switch_on(script, channel);
        pipe.turn(script, false);
        if script.random.chance(1, 2) {
            look(script, channel);
        }
        pipe.turn(script, true);
        script.tick(1);
        look_closely(script, channel);
    }
}

/// A reset or a power-up, accepted or refused, leaves neither minute nor windows:
/// with one of them alone the channel stays on, with both it closes.
pub fn hours_over_reset(script: &mut Script) {
    let channel = script.channel();
    prepare(script, channel);
    let minute = values::minute(&mut script.random);
    let windows = windows_at(script, minute, false);
    let by_power = script.random.chance(1, 2);
    for windows_first in [true, false] {
        script.windows(channel, &windows);
        script.minute(minute);
        if script.random.chance(1, 2) {
            try_on(script, channel);
        }
        if by_power {
            let power = script.random.pick(&[power, power, power, power_damaged]);
            power(script);
            prepare(script, channel);
            script.write_with_enable(0x09, &[0, 0x10, 0, 0]);
        } else {
            script.write(0x03, &[0xFF]);
        }
        if windows_first {
            script.windows(channel, &windows);
        } else {
            script.minute(minute);
        }
        try_on(script, channel);
    }
    script.windows(channel, &windows);
    try_on(script, channel);
    if script.random.chance(1, 2) {
        script.windows(channel, &[]);
    }
}

/// The watchdog runs out before the channel closes, with it, or after it.
pub fn hours_with_watchdog(script: &mut Script) {
    let pipe = Standpipe::running(script);
    let channel = pipe.channel;
    script.write_with_enable(0x09, &[0, 0, 0, 0]);
    script.write_word(0x0A, ticks(4));
    pipe.start(script);
    let count = script.random.within(1, 4);
    script.tick(count);
    let open = script.random.chance(1, 4);
    pipe.turn(script, open);
    for _ in 0..script.random.within(1, 4) {
        script.tick(1);
        if script.random.chance(1, 4) {
            script.minute(pipe.minute);
        }
    }
    look_closely(script, channel);
    script.read_register(0x0F);
    if script.random.chance(5, 6) {
        script.write_with_enable(0x09, &[0, 0x10, 0, 0]);
    }
}
