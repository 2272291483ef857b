//! Writes, mostly of values that suit.

use super::DATA;
use crate::generator::script::Script;

pub fn write_flag_reg(script: &mut Script) {
    let swno = script.digital(0);
    script.write_suiting(swno);
}

/// Sets Control, which starts a special function.
pub fn start(script: &mut Script) {
    let swno = script.digital(0);
    let byte = script.random.pick(&[0x08, 0x08, 0x48, 0x88]);
    script.write(swno, &[byte]);
}

pub fn write_out_flags(script: &mut Script) {
    let bytes = focus_word(script);
    script.write(0x110, &bytes);
}

pub fn write_in_flags(script: &mut Script) {
    let bytes = focus_word(script);
    script.write(0x111, &bytes);
}

/// A word with bits of focus channels, now and then with any.
fn focus_word(script: &mut Script) -> [u8; 2] {
    if script.random.chance(1, 4) {
        return (script.random.word() as u16).to_be_bytes();
    }
    let mut word = 0_u16;
    for channel in script.focus.clone() {
        if script.random.chance(1, 2) {
            word |= 1 << (channel - 1);
        }
    }
    word.to_be_bytes()
}

pub fn write_config(script: &mut Script) {
    let swno = script.digital(9);
    script.write_suiting(swno);
}

/// The ChConfig last written once more, which still switches off.
pub fn repeat_config(script: &mut Script) {
    let channel = script.channel();
    if let Some(config) = script.last_config(channel) {
        let swno = u16::from(channel) * 0x10 + 9;
        script.write_with_enable(swno, &config);
        script.read(swno - 9, 1);
    }
}

pub fn write_fb_preset(script: &mut Script) {
    let swno = script.digital(7);
    script.write_suiting(swno);
}

pub fn write_out_preset(script: &mut Script) {
    let swno = script.digital(8);
    script.write_suiting(swno);
}

pub fn write_timer(script: &mut Script) {
    let register = script.random.pick(&[1, 6]);
    let swno = script.digital(register);
    script.write_suiting(swno);
}

pub fn write_limit(script: &mut Script) {
    let register = script.random.pick(&[0xA, 0xB]);
    let swno = script.digital(register);
    script.write_suiting(swno);
}

pub fn write_out_current(script: &mut Script) {
    let channel = script.channel();
    let amperes = script.current_for(channel);
    script.write_word(u16::from(channel) * 0x10 + 3, amperes);
}

/// Registers 2, 4 and 5, which have a working and a kept value.
pub fn write_working(script: &mut Script) {
    let register = script.random.pick(&[2, 4, 5]);
    let swno = script.digital(register);
    script.write_suiting(swno);
}

/// Registers C and D, which only keep bytes.
pub fn write_notes(script: &mut Script) {
    let register = script.random.pick(&[0xC, 0xD]);
    let swno = script.digital(register);
    script.write_suiting(swno);
}

pub fn write_any(script: &mut Script) {
    let swno = any_writable(script);
    script.write_suiting(swno);
}

/// Any writable register but Reset.
pub(super) fn any_writable(script: &mut Script) -> u16 {
    match script.random.below(9) {
        0 => script.random.pick(&[0x08, 0x09, 0x0A, 0x0D, 0x0F]),
        1 => script.random.pick(&[0x110, 0x111]),
        2 => script.random.pick(DATA),
        _ => {
            let register = script.random.below(14) as u16;
            script.digital(register)
        }
    }
}

pub fn toggle_write_enable(script: &mut Script) {
    script.write_suiting(0x0D);
}

pub fn write_module_config(script: &mut Script) {
    script.write_suiting(0x09);
}

pub fn write_wd_preset(script: &mut Script) {
    script.write_suiting(0x0A);
}

pub fn write_wd_timer(script: &mut Script) {
    script.write_suiting(0x08);
}

pub fn reset(script: &mut Script) {
    script.write(0x03, &[0xFF]);
}
