//! Ticks, one or many, and the ten-hour save.

use super::samples::pulses;
use crate::generator::script::Script;
use crate::image::LENGTH;

pub fn tick(script: &mut Script) {
    script.tick(1);
}

pub fn few_ticks(script: &mut Script) {
    let count = script.random.within(1, 5);
    script.tick(count);
}

pub fn some_ticks(script: &mut Script) {
    let count = script.random.within(6, 60);
    script.tick(count);
}

pub fn many_ticks(script: &mut Script) {
    let count = script.random.within(61, 2000);
    script.tick(count);
}

/// Goes up to the ten-hour save and looks around it.
pub fn save(script: &mut Script) {
    if script.long_runs == 0 {
        return few_ticks(script);
    }
    script.long_runs -= 1;
    script.write(0x0D, &[0]);
    let swno = script.digital(5);
    for swno in [swno, 0x130, 0x131] {
        script.write_suiting(swno);
    }
    let before = script.random.below(4);
    let count = script.ticks_to_save();
    script.tick(count.saturating_sub(before).max(1));
    for _ in 0..5 {
        pulses(script);
        script.store(LENGTH);
        script.tick(1);
    }
    script.store(LENGTH);
}
