//! Values at the ends of ranges.

use crate::generator::script::Script;
use crate::generator::values;

const TIMES: &[u16] = &[1, 4, 6, 7, 8];
const CURRENT_REGISTERS: &[u16] = &[3, 0xA, 0xB];

pub fn write_end_time(script: &mut Script) {
    let register = script.random.pick(TIMES);
    let swno = script.digital(register);
    let real = values::end_real(&mut script.random);
    script.write_word(swno, real);
}

pub fn write_end_current(script: &mut Script) {
    let register = script.random.pick(CURRENT_REGISTERS);
    let swno = script.digital(register);
    let real = values::end_real(&mut script.random);
    script.write_word(swno, real);
}

pub fn write_end_counter(script: &mut Script) {
    let swno = script.digital(2);
    let count = values::end_count(&mut script.random);
    script.write_word(swno, count);
}

pub fn write_end_watchdog(script: &mut Script) {
    let swno = script.random.pick(&[0x08, 0x0A]);
    let real = values::end_real(&mut script.random);
    script.write_word(swno, real);
    if script.random.chance(3, 4) {
        script.write_word(0x0A, 0x4480_0000);
    }
}

pub fn sample_end_current(script: &mut Script) {
    let channel = script.channel();
    let real = values::end_real(&mut script.random);
    script.sample_current(channel, real);
}

/// A counter at its end, with pulses that carry it over.
pub fn count_over(script: &mut Script) {
    let channel = script.channel();
    let swno = u16::from(channel) * 0x10;
    script.write_word(swno + 2, 0x7FFF_FFFE);
    for on in [true, false, true, false, true] {
        script.sample_level(channel, on);
        script.write(swno, &[u8::from(on) << 6]);
    }
    script.read(swno + 2, 4);
}

/// Timers at the low end, with ticks that carry them over.
pub fn time_over(script: &mut Script) {
    let swno = script.digital(0);
    script.write_word(swno + 1, 0xCB00_0000);
    script.write_word(swno + 6, 0xCB00_0000);
    let ticks = script.random.within(1, 3);
    script.tick(ticks);
    script.read(swno + 1, 4);
    script.read(swno + 6, 4);
    script.read(swno, 1);
}
