//! Change 2: pump runs, short and long, and the time that they add up to.

use crate::generator::script::Script;
use crate::generator::values;
use crate::image::LENGTH;

/// The register OperatingTime of a channel.
fn operating_time(channel: u8) -> u16 {
    u16::from(channel) * 0x10 + 4
}

/// Makes InFlag of a channel TRUE or FALSE: by a sample, whose level a simulated
/// input drops, and by FlagReg or InFlags, whose bit a wired one drops; now and
/// then in one way alone.
pub(super) fn set_in_flag(script: &mut Script, channel: u8, on: bool) {
    let way = script.random.below(8);
    if way >= 2 {
        script.sample_level(channel, on);
    }
    match way {
        0 | 3 => write_in_flags_with(script, channel, on),
        2 => {}
        _ => {
            let other = script.random.pick(&[0, 0, 0x08, 0x80]);
            script.write(u16::from(channel) * 0x10, &[u8::from(on) << 6 | other]);
        }
    }
}

/// InFlags with a bit for the channel, and any for the rest of the focus.
fn write_in_flags_with(script: &mut Script, channel: u8, on: bool) {
    let mut word = 0_u16;
    for other in script.focus.clone() {
        word |= u16::from(script.random.chance(1, 2)) << (other - 1);
    }
    let bit = 1_u16 << (channel - 1);
    word = if on { word | bit } else { word & !bit };
    script.write(0x111, &word.to_be_bytes());
}

pub fn set_any_in_flag(script: &mut Script) {
    let channel = script.channel();
    let on = script.random.chance(1, 2);
    set_in_flag(script, channel, on);
}

pub fn read_operating_time(script: &mut Script) {
    let channel = script.channel();
    script.read_register(operating_time(channel));
}

/// Ticks one by one, with reads of OperatingTime, or all in a line.
pub(super) fn watched_ticks(script: &mut Script, channel: u8, count: u64) {
    if script.random.chance(1, 3) {
        script.tick(count);
    } else {
        for _ in 1..count {
            script.tick(1);
            if script.random.chance(1, 2) {
                script.read_register(operating_time(channel));
            }
        }
        script.tick(1);
    }
    script.read_register(operating_time(channel));
}

/// Some ticks, or none.
fn idle(script: &mut Script, count: u64) {
    if count > 0 {
        script.tick(count);
    }
}

/// A run of 1 to 7 ticks that begins anywhere between looks.
pub fn run(script: &mut Script) {
    let channel = script.channel();
    let count = script.random.below(4);
    idle(script, count);
    set_in_flag(script, channel, true);
    let count = script.random.within(1, 7);
    watched_ticks(script, channel, count);
    if script.random.chance(7, 8) {
        set_in_flag(script, channel, false);
    }
}

/// Runs of 1 to 3 ticks, none of which is a look.
pub fn runs_between_looks(script: &mut Script) {
    let channel = script.channel();
    set_in_flag(script, channel, false);
    for _ in 0..script.random.within(2, 5) {
        let count = script.ticks_to_look() + script.random.below(3);
        script.tick(count);
        set_in_flag(script, channel, true);
        let longest = script.ticks_to_look() - 1;
        let count = script.random.within(1, longest);
        script.tick(count);
        set_in_flag(script, channel, false);
        script.read_register(operating_time(channel));
    }
}

/// Runs of one tick, which is a look.
pub fn runs_on_looks(script: &mut Script) {
    let channel = script.channel();
    set_in_flag(script, channel, false);
    for _ in 0..script.random.within(2, 5) {
        let count = script.ticks_to_look() - 1;
        idle(script, count);
        set_in_flag(script, channel, true);
        script.tick(1);
        set_in_flag(script, channel, false);
        script.read_register(operating_time(channel));
    }
}

/// Runs of the whole focus at once, each begun at a tick of its own.
pub fn runs_together(script: &mut Script) {
    let channels = script.focus.clone();
    for &channel in &channels {
        set_in_flag(script, channel, true);
        let count = script.random.within(1, 2);
        script.tick(count);
    }
    for _ in 0..script.random.within(1, 6) {
        let channel = script.random.pick(&channels);
        watched_ticks(script, channel, 1);
    }
    for &channel in &channels {
        if script.random.chance(1, 2) {
            set_in_flag(script, channel, false);
        }
        script.read_register(operating_time(channel));
    }
}

/// A write that is taken, with WriteEnable or without.
pub fn write_operating_time(script: &mut Script) {
    let channel = script.channel();
    write_time(script, channel);
}

pub(super) fn write_time(script: &mut Script, channel: u8) {
    let enable = script.random.below(3) as u8;
    if enable < 2 {
        script.write(0x0D, &[enable]);
    }
    let time = values::operating_time(&mut script.random);
    script.write(operating_time(channel), &time.to_be_bytes());
}

/// A write that is refused, by 4 or by 7.
pub fn refused_operating_time(script: &mut Script) {
    let channel = script.channel();
    write_refused_time(script, channel);
}

pub(super) fn write_refused_time(script: &mut Script, channel: u8) {
    let enable = script.random.below(4) as u8;
    if enable < 2 {
        script.write(0x0D, &[enable]);
    }
    let bytes = if script.random.chance(1, 2) {
        let length = script.random.pick(&[0, 1, 2, 3, 5, 8]);
        script.random.bytes(length)
    } else {
        let time = values::refused_operating_time(&mut script.random);
        time.to_be_bytes().to_vec()
    };
    script.write(operating_time(channel), &bytes);
}

/// Power-up from an image with many counts at their end or just below, all
/// InFlags FALSE.
fn power_near_the_end(script: &mut Script) {
    let mut settings = values::settings(&mut script.random, &script.focus, script.flavour);
    for kept in &mut settings.channels {
        if script.random.chance(7, 8) {
            kept.operating = values::last_count(&mut script.random);
        }
    }
    if script.random.chance(1, 4) {
        script.power(&settings.encode_old());
    } else {
        script.power(&settings.encode());
    }
}

/// A count that reaches its end within a few ticks, and goes on there.
pub fn run_to_the_end(script: &mut Script) {
    power_near_the_end(script);
    for _ in 0..script.random.within(1, 2) {
        let channel = script.channel();
        set_in_flag(script, channel, true);
        let count = script.random.within(3, 17);
        watched_ticks(script, channel, count);
    }
}

/// Four channels, those of the focus first.
fn four_channels(script: &mut Script) -> Vec<u8> {
    let mut channels = Vec::new();
    let mut next = script.focus.clone();
    while channels.len() < 4 {
        match next.pop() {
            Some(channel) if channels.contains(&channel) => {}
            Some(channel) => channels.push(channel),
            None => next.push(script.random.within(1, 16) as u8),
        }
    }
    channels
}

/// The ten-hour save in the middle of quarters: of four channels, that mostly
/// begin without any, one has its fourth with the save's own tick, and the
/// others have some left over then. Further ticks show these, and a reset what
/// was kept.
pub fn save_in_quarters(script: &mut Script) {
    if script.long_runs == 0 {
        return run(script);
    }
    script.long_runs -= 1;
    let channels = four_channels(script);
    if script.random.chance(1, 3) {
        power_near_the_end(script);
    }
    script.write(0x0D, &[0]);
    script.write(0x111, &[0, 0]);
    for &channel in &channels {
        script.sample(channel, false, 0);
        if script.random.chance(3, 4) {
            let time = values::operating_time(&mut script.random);
            script.write(operating_time(channel), &time.to_be_bytes());
        }
    }
    let long = script.ticks_to_save().saturating_sub(7).max(1);
    script.tick(long);
    for (place, &channel) in channels.iter().enumerate() {
        script.sample_level(channel, true);
        script.write(u16::from(channel) * 0x10, &[0x40]);
        script.tick(if place < 3 { 1 } else { 4 });
    }
    script.store(LENGTH);
    if script.random.chance(2, 3) {
        script.tick(3);
        for &channel in &channels {
            script.read_register(operating_time(channel));
        }
    }
    script.write(0x03, &[0xFF]);
    for &channel in &channels {
        script.read_register(operating_time(channel));
    }
}

#[cfg(test)]
mod tests;
