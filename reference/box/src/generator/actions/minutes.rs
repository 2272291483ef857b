//! Change 6: the minute's own movement, "as each 1920th tick from then begins".

use super::data::lookup;
use super::hours::{look, look_closely, prepare, switch_on, windows_at};
use crate::generator::script::Script;
use crate::generator::values;

/// A try at one tick: the channel is switched on just before it.
fn try_one_tick(script: &mut Script, channel: u8) {
    switch_on(script, channel);
    script.tick(1);
    look(script, channel);
}

/// So many ticks, in a line or in a few with something between them that leaves
/// the minute.
fn pass(script: &mut Script, channel: u8, count: u64) {
    let mut left = count;
    while left > 1 && script.random.chance(1, 2) {
        let part = script.random.within(1, left - 1);
        script.tick(part);
        left -= part;
        between(script, channel);
    }
    if left > 0 {
        script.tick(left);
    }
}

/// What leaves the minute and its ticks, and the channel's OutFlag.
fn between(script: &mut Script, channel: u8) {
    match script.random.below(8) {
        0 | 1 => {
            let late = values::refused_minute(&mut script.random);
            script.minute(late);
        }
        2 | 3 => {
            let windows = script.windows_of(channel).to_vec();
            script.windows(channel, &windows);
        }
        4 => script.windows(0, &[(0, 1)]),
        5 => lookup(script),
        6 => script.sample_level(channel, true),
        _ => look(script, channel),
    }
}

/// Goes up to the tick that moves the minute, and tries the channel one tick
/// before it, at it and, now and then, after it. A channel that is open until
/// then is looked at without a write too.
fn go_over(script: &mut Script, channel: u8) {
    let left = script.ticks_to_minute();
    if script.random.chance(1, 3) {
        switch_on(script, channel);
        pass(script, channel, left - 1);
        look(script, channel);
        script.tick(1);
        return look_closely(script, channel);
    }
    pass(script, channel, left.saturating_sub(2));
    if left > 1 {
        try_one_tick(script, channel);
    }
    try_one_tick(script, channel);
    if script.random.chance(1, 3) {
        try_one_tick(script, channel);
    }
}

/// A channel and the minute, which is set to the one before its windows open or
/// close.
fn before_a_change(script: &mut Script) -> (u8, u16) {
    let channel = script.channel();
    prepare(script, channel);
    let next = match script.random.below(3) {
        0 | 1 => script.random.pick(&[0, 0, 10_079, 10_079, 10_079, 1]),
        _ => values::minute(&mut script.random),
    };
    let minute = values::away(next, -1);
    let after = values::away(next, script.random.pick(&[1, 1, 1, 1, 2, 60]));
    let opens = (next, after);
    let closes = (values::away(next, -60), next);
    let mut windows = vec![script.random.pick(&[opens, opens, opens, closes])];
    if script.random.chance(1, 4) {
        let never = windows_that_stay(script, next);
        windows.splice(0..0, never);
    }
    script.windows(channel, &windows);
    script.minute(minute);
    (channel, minute)
}

/// Seven windows that are closed about a minute.
fn windows_that_stay(script: &mut Script, minute: u16) -> Vec<(u16, u16)> {
    let far = |by: i32| (values::away(minute, by), values::away(minute, by + 10));
    let equal = (minute, minute);
    let starts = script.random.within(100, 4_000) as i32;
    [0, 1, 2, 3, 4, 5]
        .map(|place| far(starts + 100 * place))
        .into_iter()
        .chain([equal])
        .collect()
}

/// The 1919th, the 1920th and the 1921st tick after the setting.
pub fn minute_passes(script: &mut Script) {
    let (channel, _) = before_a_change(script);
    go_over(script, channel);
}

/// In the middle of the 1920 ticks, or at their end, the minute is set again: to
/// the same one, or to another and back. Each accepted setting starts anew.
pub fn minute_set_again(script: &mut Script) {
    let (channel, minute) = before_a_change(script);
    let count = match script.random.below(3) {
        0 => script.random.pick(&[1, 1_918, 1_919]),
        _ => script.random.within(2, 1_917),
    };
    pass(script, channel, count);
    match script.random.below(4) {
        0 => {
            let other = values::minute(&mut script.random);
            script.minute(other);
            script.minute(minute);
        }
        1 => {
            script.minute(minute);
            let late = values::refused_minute(&mut script.random);
            script.minute(late);
        }
        2 => {
            // A refused setting does not start anew.
            let late = values::refused_minute(&mut script.random);
            script.minute(late);
        }
        _ => script.minute(minute),
    }
    go_over(script, channel);
}

/// The 3839th and the 3840th tick, and those about 1920 before them.
pub fn two_minutes(script: &mut Script) {
    let (channel, minute) = before_a_change(script);
    if script.random.chance(3, 4) {
        // Open for the minute between alone, or closed in it alone.
        let (start, end) = (values::away(minute, 1), values::away(minute, 2));
        let window = script.random.pick(&[(start, end), (end, start)]);
        script.windows(channel, &[window]);
    }
    if script.random.chance(1, 2) {
        go_over(script, channel);
        return go_over(script, channel);
    }
    let count = script.random.pick(&[3_838, 3_838, 3_839]);
    pass(script, channel, count);
    try_one_tick(script, channel);
    try_one_tick(script, channel);
}

/// Local calls between ticks are no wire calls: WDTimer goes on, and its run-out
/// stands.
pub fn hours_between_ticks(script: &mut Script) {
    let channel = script.channel();
    let minute = values::minute(&mut script.random);
    if script.random.chance(3, 4) {
        script.write_word(0x0A, 0x3E80_0000);
    }
    for _ in 0..script.random.within(1, 4) {
        let count = script.random.within(1, 5);
        script.tick(count);
        match script.random.below(5) {
            0 | 1 => script.minute(minute),
            2 => {
                let late = values::refused_minute(&mut script.random);
                script.minute(late);
            }
            3 => {
                let open = script.random.chance(1, 2);
                let windows = windows_at(script, minute, open);
                script.windows(channel, &windows);
            }
            _ => script.windows(0, &[]),
        }
    }
    script.read_register(0x08);
    if script.random.chance(1, 3) {
        script.read_register(0x0F);
    }
    if script.random.chance(1, 2) {
        script.windows(channel, &[]);
    }
}
