//! Bytes that suit a register.

use super::currents::current;
use super::lookups::{finite, table};
use super::numbers::{count, limit, signed_time, time};
use super::settings::{config, module_config, wd_preset};
use super::{rounded_time, Flavour, Unit};
use crate::generator::random::Random;
use crate::reals;

/// Bytes that a write of a listed, writable register may well be accepted
/// with.
pub fn suiting(random: &mut Random, swno: u16, focus: &[u8], flavour: Flavour) -> Vec<u8> {
    match (swno >> 4, swno & 0xF) {
        (0, register) => suiting_service(random, register, flavour),
        (17, _) => random.bytes(2),
        (19, register) => suiting_data(random, register),
        (channel, register) => suiting_digital(random, channel as u8, register, focus, flavour),
    }
}

fn suiting_service(random: &mut Random, register: u16, flavour: Flavour) -> Vec<u8> {
    match register {
        0x3 => vec![0xFF],
        0x8 => time(random).to_be_bytes().to_vec(),
        0x9 => module_config(random, flavour).to_vec(),
        0xA => wd_preset_time(random, flavour).to_be_bytes().to_vec(),
        0xD => vec![u8::from(random.chance(3, 4))],
        _ => vec![0; 12],
    }
}

/// WDPreset; now and then a time that is rounded.
fn wd_preset_time(random: &mut Random, flavour: Flavour) -> u32 {
    if random.chance(1, 6) {
        return rounded_time(random, Unit::Timer);
    }
    let count = wd_preset(random, flavour).min(0x7FFF_FF80);
    reals::from_timer_count(count)
}

/// OperatingTime; now and then a time that is rounded.
fn operating_time(random: &mut Random, flavour: Flavour) -> u32 {
    if random.chance(1, 4) {
        return rounded_time(random, Unit::Operating);
    }
    reals::from_operating_count(count(random, flavour) & 0xFFFF_FF00)
}

fn suiting_digital(
    random: &mut Random,
    own: u8,
    register: u16,
    focus: &[u8],
    flavour: Flavour,
) -> Vec<u8> {
    let word = match register {
        0x0 => return vec![flag_reg(random)],
        0xC => return random.bytes(8),
        0x1 | 0x6 => signed_time(random),
        0x2 => count(random, flavour),
        0x3 => current(random),
        0x4 => operating_time(random, flavour),
        0x7 | 0x8 => time(random),
        0x9 => u32::from_be_bytes(config(random, own, focus, flavour)),
        0xA | 0xB => limit(random),
        _ => random.word(),
    };
    word.to_be_bytes().to_vec()
}

/// Change 1: the data channel.
fn suiting_data(random: &mut Random, register: u16) -> Vec<u8> {
    let word = match register {
        0xC | 0xD => return table(random).to_bytes().to_vec(),
        0xA | 0xB => signed_time(random),
        _ => finite(random),
    };
    word.to_be_bytes().to_vec()
}

/// A FlagReg to write: OutFlag, Control and InFlag in every mixture.
pub fn flag_reg(random: &mut Random) -> u8 {
    match random.below(6) {
        0 => random.byte(),
        _ => random.pick(&[0x00, 0x08, 0x08, 0x48, 0x40, 0x80, 0x88, 0xC0, 0xC8]),
    }
}
