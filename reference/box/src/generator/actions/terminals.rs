//! Change 3: "One sample per terminal." Samples whose level and current both
//! do something, samples that do neither, and a written current, which is a
//! current alone.

use super::corners::{configure, look, look_later, switch_on, swno};
use super::ticks::few_ticks;
use crate::generator::script::Script;
use crate::generator::values;

/// A sample of any level and of a current about a limit, mostly 2.
pub fn sample_any(script: &mut Script) {
    let channel = script.channel();
    if script.random.chance(1, 4) {
        let simulated = script.random.chance(1, 4);
        switch_on(script, channel, simulated);
    }
    for _ in 0..script.random.within(1, 3) {
        let level = script.random.chance(1, 2);
        let amperes = values::sample_current(&mut script.random);
        script.sample(channel, level, amperes);
        look(script, channel);
    }
    if script.random.chance(1, 3) {
        look_later(script, channel);
    }
}

/// Samples on a simulated input: the level is dropped, the current acts. Made
/// a wired one again, the channel has not taken that level up.
pub fn sample_simulated(script: &mut Script) {
    let channel = script.channel();
    switch_on(script, channel, true);
    let level = script.random.chance(1, 2);
    for level in [level, !level] {
        let amperes = match script.random.below(2) {
            0 => values::tripping_current(&mut script.random),
            _ => values::sample_current(&mut script.random),
        };
        script.sample(channel, level, amperes);
        look(script, channel);
    }
    if script.random.chance(1, 3) {
        configure(script, channel, false);
        script.read(swno(channel, 0), 1);
        script.sample_level(channel, true);
        look(script, channel);
    }
}

/// The same sample again: no rise, but a trip where it is one. Between them
/// OutFlag is often made TRUE again, or a tick passes.
pub fn sample_again(script: &mut Script) {
    let channel = script.channel();
    let level = script.random.chance(2, 3);
    let amperes = match script.random.below(2) {
        0 => values::tripping_current(&mut script.random),
        _ => values::sample_current(&mut script.random),
    };
    if script.random.chance(1, 2) {
        switch_on(script, channel, false);
    }
    for _ in 0..script.random.within(2, 3) {
        script.sample(channel, level, amperes);
        look(script, channel);
        match script.random.below(4) {
            0 => {}
            1 => script.tick(1),
            _ => script.write(swno(channel, 0), &[0x80]),
        }
    }
}

/// "a refused sample does neither": after a bad current, whose level would
/// have been a rise or a fall, all stands as before, and an accepted sample
/// then brings it.
pub fn refused_change(script: &mut Script) {
    let channel = script.channel();
    if script.random.chance(1, 2) {
        switch_on(script, channel, false);
    }
    let before = script.random.chance(1, 4);
    let quiet = values::quiet_current(&mut script.random);
    script.sample(channel, before, quiet);
    for _ in 0..script.random.within(1, 3) {
        let level = before != script.random.chance(4, 5);
        let amperes = values::refused_current(&mut script.random);
        script.sample(channel, level, amperes);
        look(script, channel);
    }
    if script.random.chance(1, 2) {
        let amperes = values::sample_current(&mut script.random);
        script.sample(channel, !before, amperes);
        look(script, channel);
    }
}

/// Samples for no channel, with a good current or a bad one: always 8.
pub fn sample_no_channel(script: &mut Script) {
    for _ in 0..script.random.within(1, 3) {
        let none = script.random.within(17, 255) as u8;
        let channel = script.random.pick(&[0, 0, 17, 17, 255, 255, 18, none]);
        let amperes = match script.random.below(2) {
            0 => values::refused_current(&mut script.random),
            _ => values::sample_current(&mut script.random),
        };
        let level = script.random.chance(3, 4);
        script.sample(channel, level, amperes);
    }
    match script.random.below(3) {
        0 => script.read_register(0x111),
        1 => script.read_register(0x112),
        _ => {
            let channel = script.channel();
            look(script, channel);
        }
    }
}

/// "Writing OutCurrent acts as a current", alone: InFlag and Counter stay. A
/// bad one is refused by 7.
pub fn write_current_alone(script: &mut Script) {
    let channel = script.channel();
    if script.random.chance(1, 2) {
        switch_on(script, channel, false);
    }
    for _ in 0..script.random.within(1, 3) {
        let level = script.random.chance(2, 3);
        script.sample_level(channel, level);
        let amperes = match script.random.below(5) {
            0 | 1 => values::refused_current(&mut script.random),
            2 => values::tripping_current(&mut script.random),
            _ => values::sample_current(&mut script.random),
        };
        script.write(swno(channel, 3), &amperes.to_be_bytes());
        look(script, channel);
    }
}

/// Samples between ticks are no wire calls: WDTimer goes on, and its run-out
/// stands.
pub fn sample_between_ticks(script: &mut Script) {
    let channel = script.channel();
    if script.random.chance(3, 4) {
        script.write_word(0x0A, 0x3E80_0000);
    }
    for _ in 0..script.random.within(1, 4) {
        few_ticks(script);
        let level = script.random.chance(1, 2);
        let amperes = match script.random.below(4) {
            0 => values::refused_current(&mut script.random),
            _ => values::sample_current(&mut script.random),
        };
        let channel = script.random.pick(&[channel, channel, 0]);
        script.sample(channel, level, amperes);
    }
    script.read_register(0x08);
    if script.random.chance(1, 3) {
        script.read_register(0x0F);
    }
}

/// A channel that names others, or itself, as its feedback contacts, which get
/// samples: InA and InB follow at once, FBStatus with a look.
pub fn sample_references(script: &mut Script) {
    let channel = script.channel();
    switch_on(script, channel, false);
    let other = script.channel();
    let [_, _, ref_a, ref_b] = script.last_config(channel).unwrap_or_default();
    for contact in [ref_a, ref_b, other, channel] {
        if contact == 0 || script.random.chance(1, 3) {
            continue;
        }
        let level = script.random.chance(1, 2);
        let amperes = values::sample_current(&mut script.random);
        script.sample(contact, level, amperes);
        script.read_register(swno(channel, 0));
    }
    look_later(script, channel);
}

/// A sample for every channel, and the words that show them all.
pub fn sample_all(script: &mut Script) {
    let rotation = script.random.below(16) as u8;
    for place in 0..16 {
        let channel = (place + rotation) % 16 + 1;
        let level = script.random.chance(1, 2);
        let amperes = values::current(&mut script.random);
        script.sample(channel, level, amperes);
    }
    for swno in [0x110, 0x111, 0x112] {
        script.read_register(swno);
    }
}

/// A counter at its end, carried over by a sample that mostly trips.
pub fn count_over_at_once(script: &mut Script) {
    let channel = script.channel();
    switch_on(script, channel, false);
    script.sample(channel, false, 0);
    let count = script.random.pick(&[0x7FFF_FFFF, 0x7FFF_FFFE, 0xFFFF_FFFF]);
    script.write_word(swno(channel, 2), count);
    for level in [true, false, true] {
        let amperes = match script.random.below(3) {
            0 => values::sample_current(&mut script.random),
            _ => values::tripping_current(&mut script.random),
        };
        script.sample(channel, level, amperes);
        if script.random.chance(1, 2) {
            script.read_register(swno(channel, 2));
        }
    }
    look(script, channel);
}

#[cfg(test)]
mod faults;
#[cfg(test)]
mod tests;
