//! Refusals: questions that are answered with no, most often.

use super::data::write_end_data;
use super::ends::{write_end_current, write_end_time, write_end_watchdog};
use super::reads::read_errors;
use super::ticks::few_ticks;
use super::writes::any_writable;
use super::{COMMON, DATA, DIGITAL, SERVICE};
use crate::generator::script::Script;
use crate::generator::values;
use crate::registers::{Register, HIGHEST_SWNO};

pub fn refused_read(script: &mut Script) {
    let swno = match script.random.below(3) {
        0 => beyond(script),
        1 => unlisted(script),
        _ => return read_into_short_buffer(script),
    };
    let length = script.random.below(14) as usize;
    script.read(swno, length);
}

fn beyond(script: &mut Script) -> u16 {
    let first = u64::from(HIGHEST_SWNO) + 1;
    match script.random.below(3) {
        0 => script.random.within(first, first + 0x20) as u16,
        1 => script
            .random
            .pick(&[0x140, 0x150, 0x1000, 0x1010, 0x1130, 0xFFFF]),
        _ => script.random.within(first, 0xFFFF) as u16,
    }
}

fn unlisted(script: &mut Script) -> u16 {
    match script.random.below(5) {
        0 => script
            .random
            .pick(&[0x01, 0x02, 0x04, 0x05, 0x06, 0x0B, 0x0C, 0x0E]),
        1 => script.random.within(0x113, 0x11E) as u16,
        2 => script.random.within(0x120, 0x12F) as u16,
        3 => script
            .random
            .pick(&[0x132, 0x133, 0x134, 0x136, 0x137, 0x139, 0x13E, 0x13F]),
        _ => script.digital(0xE),
    }
}

fn read_into_short_buffer(script: &mut Script) {
    let swno = any_listed(script);
    let length = Register::find(swno).map_or(1, Register::length);
    let shorter = script.random.below(length as u64) as usize;
    script.read(swno, shorter);
}

fn any_listed(script: &mut Script) -> u16 {
    match script.random.below(5) {
        0 => script.random.pick(SERVICE),
        1 => script.random.pick(COMMON),
        2 => script.random.pick(DATA),
        _ => {
            let register = script.random.pick(DIGITAL);
            script.digital(register)
        }
    }
}

pub fn refused_write(script: &mut Script) {
    match script.random.below(7) {
        0 => {
            let swno = beyond(script);
            write_random(script, swno);
        }
        1 => {
            let swno = unlisted(script);
            write_random(script, swno);
        }
        2 => write_read_only(script),
        3 => write_of_wrong_length(script),
        4 => write_unprepared(script),
        _ => write_unsuiting(script),
    }
}

fn write_random(script: &mut Script, swno: u16) {
    let length = script.random.pick(&[0, 1, 2, 3, 4, 5, 8, 12, 13]);
    let bytes = script.random.bytes(length);
    script.write(swno, &bytes);
}

fn write_read_only(script: &mut Script) {
    let error = script.digital(0xF);
    let swno = script.random.pick(&[0x00, 0x07, 0x112, 0x11F, error]);
    write_random(script, swno);
}

fn write_of_wrong_length(script: &mut Script) {
    let swno = any_writable(script);
    let mut bytes = values::suiting(&mut script.random, swno, &script.focus, script.flavour);
    match script.random.below(3) {
        0 => bytes.push(0),
        1 => bytes.truncate(bytes.len() - 1),
        _ => bytes.clear(),
    }
    script.write(swno, &bytes);
}

/// A protected write after WriteEnable was made FALSE.
fn write_unprepared(script: &mut Script) {
    let register = script.random.pick(&[7, 8, 9, 0xA, 0xB, 0xC, 0xD]);
    let digital = script.digital(register);
    let swno = script
        .random
        .pick(&[0x09, 0x0A, 0x13C, 0x13D, digital, digital, digital]);
    let bytes = values::suiting(&mut script.random, swno, &script.focus, script.flavour);
    script.write(0x0D, &[0]);
    script.write(swno, &bytes);
}

/// A value that doesn't suit, most often.
fn write_unsuiting(script: &mut Script) {
    match script.random.below(9) {
        0 => {
            let byte = script.random.pick(&[0x00, 0x01, 0x7F, 0xFE]);
            script.write(0x03, &[byte]);
        }
        1 => {
            let byte = script.random.pick(&[2, 3, 0x80, 0xFE, 0xFF]);
            script.write(0x0D, &[byte]);
        }
        2 => {
            let mut bytes = [0; 12];
            bytes[script.random.below(12) as usize] = script.random.byte();
            script.write(0x0F, &bytes);
        }
        3 => {
            let mut bytes = script.random.word().to_be_bytes();
            bytes[1] = wild_functions(script);
            script.write_with_enable(0x09, &bytes);
        }
        4 => write_wild_config(script),
        5 => write_end_watchdog(script),
        6 => write_end_current(script),
        7 => write_end_data(script),
        _ => write_end_time(script),
    }
}

/// Functions of either configuration, and some of none.
pub(super) fn wild_functions(script: &mut Script) -> u8 {
    let listed = [0x00, 0x10, 0x20, 0x30, 0x50];
    let others = [0x40, 0x60, 0x11, 0x01, 0xFF];
    let some = script.random.pick(&[listed, others]);
    script.random.pick(&some)
}

fn write_wild_config(script: &mut Script) {
    let swno = script.digital(9);
    let functions = wild_functions(script);
    let random = &mut script.random;
    let ref_a = random.pick(&[0, 1, 16, 17, 255]);
    let ref_b = random.pick(&[0, 1, 16, 17, 128]);
    let enable = random.byte();
    script.write_with_enable(swno, &[enable, functions, ref_a, ref_b]);
}

/// A refused wire call between ticks, and what it left of the watchdog.
pub fn refused_between_ticks(script: &mut Script) {
    few_ticks(script);
    if script.random.chance(1, 2) {
        refused_read(script);
    } else {
        refused_write(script);
    }
    if script.random.chance(1, 2) {
        script.read(0x08, 4);
    } else {
        few_ticks(script);
        read_errors(script);
    }
}

/// A sample that is refused, most often: by 8, by 9, or by 8 before 9. Where
/// only the current is bad, the level is often one that would count.
pub fn refused_sample(script: &mut Script) {
    let none = script.random.pick(&[0, 17, 18, 128, 255]);
    let other = script.channel();
    let channel = script.random.pick(&[none, none, other]);
    let amperes = match script.random.below(3) {
        0 => values::current(&mut script.random),
        _ => values::refused_current(&mut script.random),
    };
    let level = script.random.chance(3, 4);
    script.sample(channel, level, amperes);
}

pub fn refused_store(script: &mut Script) {
    let length = script
        .random
        .pick(&[0, 1, 10, 716, 717, 718, 884, 885, 885]);
    script.store(length);
}
