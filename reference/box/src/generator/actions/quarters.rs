//! Change 2: what comes in the middle of quarters, and whether it loses them.

use super::data::lookup;
use super::images::power;
use super::refusals::{refused_read, refused_sample, refused_write};
use super::runs::{set_in_flag, watched_ticks, write_refused_time, write_time};
use crate::generator::script::Script;
use crate::generator::values;
use crate::image::LENGTH;

/// What is done to a channel, or beside it.
type Deed = fn(&mut Script, u8);

/// What "the left-over quarters are lost" by, and what leaves them.
const DEEDS: &[(u64, Deed)] = &[
    (5, write_time),
    (10, write_refused_time),
    (2, |script, _| script.write(0x03, &[0xFF])),
    (1, |script, _| power(script)),
    (5, write_config),
    (2, write_refused_config),
    (4, write_flag_reg),
    (4, |script, channel| write_other(script, channel, &[2])),
    (3, |script, channel| {
        write_other(script, channel, &[1, 3, 5, 6, 7, 8, 0xA, 0xB, 0xC, 0xD]);
    }),
    (1, |script, channel| read(script, channel)),
    (1, |script, channel| script.read(swno(channel, 4), 3)),
    (1, pulse),
    (2, current),
    (1, |script, _| script.store(LENGTH)),
    (1, |script, _| refused_read(script)),
    (1, |script, _| refused_write(script)),
    (1, |script, _| refused_sample(script)),
    (1, |script, _| lookup(script)),
    (1, |script, _| script.write(0x0F, &[0; 12])),
    (2, beside),
    (1, pause),
];

fn swno(channel: u8, register: u16) -> u16 {
    u16::from(channel) * 0x10 + register
}

/// Up to 7 quarters, then something else, then the ticks that show what is
/// left of them.
pub fn quarters_through(script: &mut Script) {
    let channel = script.channel();
    if script.random.chance(1, 2) {
        write_time(script, channel);
    }
    set_in_flag(script, channel, true);
    let count = script.random.pick(&[1, 2, 3, 3, 5, 6, 7]);
    script.tick(count);
    for _ in 0..script.random.within(1, 2) {
        let deed = script.random.weighted(DEEDS);
        deed(script, channel);
    }
    script.read_register(swno(channel, 4));
    if script.random.chance(1, 2) {
        script.sample_level(channel, true);
        script.write(0x111, &(1_u16 << (channel - 1)).to_be_bytes());
    }
    for _ in 0..4 {
        watched_ticks(script, channel, 1);
    }
}

/// ChConfig, which may make a wired channel a simulated one: InFlag stays.
fn write_config(script: &mut Script, channel: u8) {
    script.write_suiting(swno(channel, 9));
}

/// ChConfig that is refused, by 6 or by 7.
fn write_refused_config(script: &mut Script, channel: u8) {
    if script.random.chance(1, 2) {
        script.write(0x0D, &[0]);
        script.write(swno(channel, 9), &[0, 0x10, 0, 0]);
    } else {
        script.write_with_enable(swno(channel, 9), &[0, 0x40, 0, 17]);
    }
}

/// FlagReg, in which bit 6 is often set.
fn write_flag_reg(script: &mut Script, channel: u8) {
    let byte = values::flag_reg(&mut script.random);
    let in_flag = script.random.pick(&[0, 0x40, 0x40]);
    script.write(swno(channel, 0), &[byte | in_flag]);
}

/// Another register of the channel.
fn write_other(script: &mut Script, channel: u8, registers: &[u16]) {
    if script.random.chance(1, 3) {
        script.write_suiting(0x0D);
    }
    let register = script.random.pick(registers);
    script.write_suiting(swno(channel, register));
}

fn read(script: &mut Script, channel: u8) {
    let register = script.random.pick(&[0, 2, 4, 4, 9, 0xF]);
    script.read_register(swno(channel, register));
}

/// InFlag falls and rises between two ticks.
fn pulse(script: &mut Script, channel: u8) {
    set_in_flag(script, channel, false);
    set_in_flag(script, channel, true);
}

/// A current, which often trips, as a sample or written.
fn current(script: &mut Script, channel: u8) {
    let amperes = match script.random.below(2) {
        0 => 0x4040_0000,
        _ => values::current(&mut script.random),
    };
    if script.random.chance(1, 2) {
        script.sample_current(channel, amperes);
    } else {
        script.write(swno(channel, 3), &amperes.to_be_bytes());
    }
}

/// The same for another channel.
fn beside(script: &mut Script, channel: u8) {
    let other = script.channel();
    let other = if other == channel {
        channel % 16 + 1
    } else {
        other
    };
    match script.random.below(4) {
        0 => set_in_flag(script, other, true),
        1 => write_config(script, other),
        _ => write_time(script, other),
    }
}

/// Ticks in which the pump stands still.
fn pause(script: &mut Script, channel: u8) {
    set_in_flag(script, channel, false);
    let count = script.random.within(1, 9);
    script.tick(count);
    set_in_flag(script, channel, true);
}
