//! Both sides of each limit: currents about 0.1 A, 2 A, MinCurrent and
//! MaxCurrent, each with a tick and with a read of what it shows, and Reals at
//! the ends of what a register takes.

use super::corners::swno;
use super::Action;
use crate::generator::script::Script;
use crate::generator::values::{self, LEAK, TRIP};

/// FBTimer that a tick takes to 0, and the next one below it.
const A_TICK: u32 = 0x3D00_0000;
/// FBTimer that runs while a limit is tried.
const A_WHILE: u32 = 0x3F80_0000;
const ONE: u32 = 0x3F80_0000;

/// Every limit in turn. Scripts of one seed and of all kinds have each of them;
/// that of a leak, which shows least elsewhere, in three kinds or four.
pub const LIMITS: [Action; 10] = [
    about_leak,
    about_trip,
    about_max_current,
    about_min_current,
    about_fb_timer,
    about_leak,
    about_timer_ends,
    about_preset_ends,
    about_operating_ends,
    about_limit_ends,
];

/// Makes a channel one with a wired input, and off. Nothing but its currents
/// switches it off from then on: the watchdog is off, and it has no windows.
fn settle(script: &mut Script, channel: u8, config: [u8; 4]) {
    enable_writes(script);
    if script.watchdog_is_on() {
        script.write(0x09, &[0, 0x10, 0, 0]);
    }
    if !script.windows_of(channel).is_empty() {
        script.windows(channel, &[]);
    }
    script.write(swno(channel, 9), &config);
}

fn enable_writes(script: &mut Script) {
    if !script.is_write_enabled() {
        script.write(0x0D, &[1]);
    }
}

/// Switches an output on and gives FBTimer.
fn turn_on(script: &mut Script, channel: u8, fb_timer: u32) {
    script.write(swno(channel, 0), &[0x80]);
    script.write(swno(channel, 6), &fb_timer.to_be_bytes());
}

/// A current as a sample or as a write.
fn give(script: &mut Script, channel: u8, amperes: u32) {
    match script.random.below(3) {
        0 => script.write(swno(channel, 3), &amperes.to_be_bytes()),
        _ => script.sample_current(channel, amperes),
    }
}

/// A current, a tick and a read of a register.
fn try_current(script: &mut Script, channel: u8, amperes: u32, register: u16) {
    give(script, channel, amperes);
    script.tick(1);
    script.read_register(swno(channel, register));
}

/// "3 not OutFlag, OutCurrent > $3DCCCCCD as a Real", of Functions 0 too.
pub fn about_leak(script: &mut Script) {
    let channel = script.channel();
    let functions = script.random.pick(&[0, 0x10, 0x10, 0x20, 0x30, 0x50]);
    settle(script, channel, [0, functions, 0, 0]);
    let [_, above] = values::beside(LEAK);
    let mut sides = [LEAK, above];
    if script.random.chance(1, 2) {
        sides.reverse();
    }
    for amperes in sides {
        try_current(script, channel, amperes, 0xF);
    }
}

/// "above 2 it trips", by itself and in a tick, in which FBTimer still runs.
pub fn about_trip(script: &mut Script) {
    let channel = script.channel();
    let enable = script.random.pick(&[0, 0, 0x40]);
    settle(script, channel, [enable, 0x10, 0, 0]);
    turn_on(script, channel, A_WHILE);
    try_current(script, channel, TRIP, 0);
    let [_, above] = values::beside(TRIP);
    give(script, channel, above);
    script.read_register(swno(channel, 0));
    if script.random.chance(1, 2) {
        script.write(swno(channel, 0), &[0x80]);
        script.tick(1);
        script.read_register(swno(channel, 0));
    }
    script.read_register(swno(channel, 0xF));
}

/// MaxCurrent itself and the pattern above it, on an output that is on; above
/// it also in the tick that takes FBTimer to 0.
pub fn about_max_current(script: &mut Script) {
    let channel = script.channel();
    settle(script, channel, [0, 0x10, 0, 0]);
    if script.random.chance(1, 2) {
        script.write_suiting(swno(channel, 0xB));
    }
    let max = script.max_current(channel);
    let [_, above] = values::beside(max);
    turn_on(script, channel, A_TICK);
    for amperes in [above, max, above] {
        try_current(script, channel, amperes, 0);
    }
}

/// MinCurrent itself and the pattern below it, with MaxCurrent above it; below
/// it also in the tick that takes FBTimer to 0.
pub fn about_min_current(script: &mut Script) {
    let channel = script.channel();
    settle(script, channel, [0x20, 0x10, 0, 0]);
    if script.random.chance(1, 2) {
        script.write_suiting(swno(channel, 0xA));
    }
    script.write(swno(channel, 0xB), &ONE.to_be_bytes());
    let min = script.min_current(channel);
    let [below, _] = values::beside(min);
    turn_on(script, channel, A_TICK);
    for amperes in [below, min, below] {
        try_current(script, channel, amperes, 0xF);
    }
}

/// "1 FBTimer < 0 and FBStatus": in the tick that takes FBTimer to 0 and in the
/// next. The channel is its own contact, which stays away.
pub fn about_fb_timer(script: &mut Script) {
    let channel = script.channel();
    settle(script, channel, [0, 0x10, channel, 0]);
    turn_on(script, channel, A_TICK);
    script.sample(channel, false, 0);
    for _ in 0..2 {
        script.tick(1);
        script.read_register(swno(channel, 0xF));
    }
}

/// The first and the last Real that a register takes, and those beside them that
/// it does not; then one that suits it.
fn about_ends(script: &mut Script, swno: u16, ends: [u32; 4]) {
    enable_writes(script);
    for real in ends {
        script.write(swno, &real.to_be_bytes());
    }
    script.read_register(swno);
    script.write_suiting(swno);
}

/// "−8388608 up to, not including, 8388608".
pub fn about_timer_ends(script: &mut Script) {
    let register = script.random.pick(&[1, 6]);
    let digital = script.digital(register);
    let swno = script.random.pick(&[0x13A, 0x13B, digital, digital]);
    about_ends(
        script,
        swno,
        [0x4AFF_FFFF, 0x4B00_0000, 0xCB00_0001, 0xCB00_0000],
    );
}

/// "WDTimer and the presets the same from 0", −0 included.
pub fn about_preset_ends(script: &mut Script) {
    let register = script.random.pick(&[7, 8]);
    let digital = script.digital(register);
    let swno = script.random.pick(&[0x08, 0x0A, digital, digital]);
    about_ends(
        script,
        swno,
        [0x4AFF_FFFF, 0x4B00_0000, 0x8000_0001, 0x8000_0000],
    );
}

/// "OperatingTime 0 up to, not including, 536870912".
pub fn about_operating_ends(script: &mut Script) {
    let swno = script.digital(4);
    about_ends(
        script,
        swno,
        [0x8000_0001, 0x8000_0000, 0x4E00_0000, 0x4DFF_FFFF],
    );
}

/// "MinCurrent and MaxCurrent allow 0 to 1."
pub fn about_limit_ends(script: &mut Script) {
    let register = script.random.pick(&[0xA, 0xB]);
    let swno = script.digital(register);
    about_ends(
        script,
        swno,
        [0x8000_0001, 0x8000_0000, 0x3F80_0001, 0x3F80_0000],
    );
}
