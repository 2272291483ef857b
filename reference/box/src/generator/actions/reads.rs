//! Reads.

use super::{COMMON, DATA, DIGITAL, SERVICE};
use crate::generator::script::Script;

/// The registers that show most: FlagReg, ChError and the timers.
pub fn read_state(script: &mut Script) {
    let register = script.random.pick(&[0, 0, 0, 1, 2, 4, 6, 0xF]);
    let swno = script.digital(register);
    script.read_register(swno);
}

pub fn read_any(script: &mut Script) {
    let swno = match script.random.below(7) {
        0 => script.random.pick(SERVICE),
        1 => script.random.pick(COMMON),
        2 => script.random.pick(DATA),
        _ => {
            let register = script.random.pick(DIGITAL);
            script.digital(register)
        }
    };
    script.read_register(swno);
}

pub fn read_watchdog(script: &mut Script) {
    let swno = script.random.pick(&[0x08, 0x08, 0x0A, 0x09, 0x07]);
    script.read_register(swno);
}

pub fn read_flag_words(script: &mut Script) {
    let swno = script.random.pick(&[0x110, 0x111]);
    script.read_register(swno);
}

pub fn read_errors(script: &mut Script) {
    let swno = match script.random.below(5) {
        0 => 0x0F,
        1 => 0x112,
        2 => 0x11F,
        _ => script.digital(0xF),
    };
    script.read_register(swno);
}
