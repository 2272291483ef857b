//! Change 6: "Standpipe opening hours." Windows and minutes, about the ends of
//! windows, given anew and refused.

use super::corners::swno;
use super::ticks::few_ticks;
use crate::generator::script::Script;
use crate::generator::values;

/// What shows a closing: FlagReg, OutTimer, FBTimer and ChError.
const SHOWING: &[u16] = &[0, 1, 6, 0xF];

/// Reads FlagReg, and now and then the rest of what shows a closing.
pub(super) fn look(script: &mut Script, channel: u8) {
    script.read_register(swno(channel, 0));
    if script.random.chance(1, 3) {
        let register = script.random.pick(&[1, 6, 0xF]);
        script.read_register(swno(channel, register));
    }
}

/// Reads all that shows a closing.
pub(super) fn look_closely(script: &mut Script, channel: u8) {
    for &register in SHOWING {
        script.read_register(swno(channel, register));
    }
}

/// Makes a channel one that can be switched on, mostly a plain output, and
/// takes its current away. Now and then the watchdog is switched off.
pub(super) fn prepare(script: &mut Script, channel: u8) {
    let level = script.random.chance(1, 2);
    script.sample(channel, level, 0);
    let random = &mut script.random;
    let mut config = values::config(random, channel, &script.focus, script.flavour);
    config[1] = random.pick(&[0x10, 0x10, 0x10, 0x20, 0x30, 0x50]);
    script.write_with_enable(swno(channel, 9), &config);
    if script.random.chance(1, 8) {
        script.write_with_enable(0x09, &[0, 0x10, 0, 0]);
    }
}

/// Makes OutFlag TRUE, by FlagReg or by OutFlags, which leaves the others of the
/// focus on.
pub(super) fn switch_on(script: &mut Script, channel: u8) {
    match script.random.below(4) {
        0 => {
            let all = script.focus.iter().chain([&channel]);
            let word = all.fold(0_u16, |word, other| word | 1 << (other - 1));
            script.write(0x110, &word.to_be_bytes());
        }
        1 => script.write(swno(channel, 0), &[0x88]),
        _ => script.write(swno(channel, 0), &[0x80]),
    }
}

/// A channel is switched on, ticks pass, mostly one, and it is looked at.
pub(super) fn try_on(script: &mut Script, channel: u8) {
    switch_on(script, channel);
    let count = script.random.pick(&[1, 1, 1, 2, 3]);
    script.tick(count);
    look(script, channel);
}

/// Windows that are open at a minute or not.
pub(super) fn windows_at(script: &mut Script, minute: u16, open: bool) -> Vec<(u16, u16)> {
    match open {
        true => values::open_windows(&mut script.random, minute),
        false => values::closed_windows(&mut script.random, minute),
    }
}

/// "start included and end not": a channel is tried about the ends of its
/// windows.
pub fn hours_edges(script: &mut Script) {
    let channel = script.channel();
    prepare(script, channel);
    let minute = values::minute(&mut script.random);
    let open = script.random.chance(2, 3);
    let windows = windows_at(script, minute, open);
    script.windows(channel, &windows);
    script.minute(minute);
    try_on(script, channel);
    for _ in 0..script.random.within(2, 5) {
        let edge = values::edge(&mut script.random, &windows);
        script.minute(edge);
        try_on(script, channel);
    }
}

/// Each channel of the focus has windows of its own; all are tried at once, at
/// several minutes.
pub fn hours_of_focus(script: &mut Script) {
    let channels = script.focus.clone();
    let minute = values::minute(&mut script.random);
    for &channel in &channels {
        prepare(script, channel);
        let open = script.random.chance(1, 2);
        let windows = windows_at(script, minute, open);
        script.windows(channel, &windows);
    }
    for by in [0, 1, -1] {
        script.minute(values::away(minute, by));
        let word = channels.iter().fold(0_u16, |word, k| word | 1 << (k - 1));
        script.write(0x110, &word.to_be_bytes());
        script.tick(1);
        script.read_register(0x110);
    }
}

/// Windows for a channel about the minute now, or any; now and then none.
pub fn give_windows(script: &mut Script) {
    let channel = script.channel();
    let minute = match script.minute_now() {
        Some(now) if script.random.chance(3, 4) => now,
        _ => values::minute(&mut script.random),
    };
    let windows = match script.random.below(8) {
        0 => Vec::new(),
        below => windows_at(script, minute, below < 5),
    };
    script.windows(channel, &windows);
}

/// A minute about the windows of a channel, the same minute again, or any.
pub fn set_minute(script: &mut Script) {
    let channel = script.channel();
    let held = script.windows_of(channel).to_vec();
    let minute = match (script.random.below(8), script.minute_now()) {
        (0, _) => values::minute(&mut script.random),
        (1, Some(now)) => now,
        _ => values::edge(&mut script.random, &held),
    };
    script.minute(minute);
}

/// A minute or windows that are refused, windows by 8, 19 and 18 in every
/// mixture.
pub fn refused_hours(script: &mut Script) {
    let channel = script.channel();
    for _ in 0..script.random.within(6, 12) {
        let open = script.random.chance(1, 2);
        put_refused(script, channel, open);
    }
}

/// A minute or windows that are refused.
fn put_refused(script: &mut Script, channel: u8, open: bool) {
    if script.random.chance(1, 4) {
        let minute = values::refused_minute(&mut script.random);
        script.minute(minute);
    } else {
        put_refused_windows(script, channel, open);
    }
}

/// Windows that are refused, for the channel or for none. Corner by corner, so
/// that a long script has each of them.
fn put_refused_windows(script: &mut Script, channel: u8, open: bool) {
    let minute = script.minute_now().unwrap_or(600);
    let none = script.random.pick(&[0, 0, 17, 17, 18, 32, 128, 255]);
    let (to, windows) = match script.random.below(8) {
        0 => (none, Vec::new()),
        1 => (none, windows_at(script, minute, open)),
        below => {
            let corner = script.next_corner(values::REFUSALS);
            let refused = values::refused_windows(&mut script.random, corner, minute, open);
            (if below < 5 { none } else { channel }, refused)
        }
    };
    script.windows(to, &windows);
}

/// Refused calls leave windows and minute as they were, which a try shows; so
/// do a written ChConfig and other calls.
pub fn refused_hours_leave(script: &mut Script) {
    let channel = script.channel();
    prepare(script, channel);
    let minute = values::minute(&mut script.random);
    let open = script.random.chance(1, 3);
    let windows = windows_at(script, minute, open);
    script.windows(channel, &windows);
    script.minute(minute);
    if script.random.chance(1, 4) {
        try_on(script, channel);
    }
    for _ in 0..script.random.within(1, 2) {
        for _ in 0..script.random.within(1, 5) {
            put_refused(script, channel, !open);
        }
        if script.random.chance(1, 3) {
            prepare(script, channel);
        }
        try_on(script, channel);
    }
}

/// "given whole by a local call": other windows in place of the first, and none
/// in place of those. A written ChConfig leaves them.
pub fn windows_given_anew(script: &mut Script) {
    let channel = script.channel();
    prepare(script, channel);
    let minute = values::minute(&mut script.random);
    script.minute(minute);
    let open = script.random.chance(3, 4);
    for open in [open, !open] {
        let windows = windows_at(script, minute, open);
        script.windows(channel, &windows);
        if script.random.chance(1, 2) {
            prepare(script, channel);
        }
        try_on(script, channel);
    }
    script.windows(channel, &[]);
    try_on(script, channel);
    if script.random.chance(1, 2) {
        script.minute(values::away(minute, 1));
        try_on(script, channel);
    }
}

/// Opening hours in scripts of other kinds: a channel has them for a while, and
/// mostly loses them again.
pub fn short_hours(script: &mut Script) {
    let channel = script.channel();
    let minute = values::minute(&mut script.random);
    let open = script.random.chance(1, 2);
    let windows = windows_at(script, minute, open);
    script.windows(channel, &windows);
    script.minute(minute);
    for _ in 0..script.random.within(1, 2) {
        switch_on(script, channel);
        few_ticks(script);
        look(script, channel);
        set_minute(script);
        few_ticks(script);
        look(script, channel);
    }
    if script.random.chance(5, 6) {
        script.windows(channel, &[]);
    }
}

#[cfg(test)]
mod tests;
