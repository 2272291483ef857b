//! Change 6: opening hours in the lists, and what shows c's windows and the
//! minute.

use reference_box::generator::actions as act;
use reference_box::generator::script::Script;
use reference_box::generator::values;
use reference_box::player::Call;

/// Calls that make a channel an output which nothing but its windows closes.
const PREPARING: usize = 4;
/// Calls of a try: OutFlag is made TRUE, a tick passes, FlagReg is read.
const TRY: usize = 3;
/// How many calls show the hours at least.
pub const SHOWING: usize = PREPARING + TRY;

fn flag_reg(channel: u8) -> u16 {
    u16::from(channel) * 0x10
}

/// Opening hours of c and of others about one minute: windows of all of them,
/// and ticks at several minutes with c switched on.
pub fn opening_hours(script: &mut Script, channel: u8, others: &[u8]) {
    let minute = values::minute(&mut script.random);
    script.focus = vec![channel];
    give_windows(script, channel, minute);
    for _ in 0..script.random.within(2, 6) {
        if script.random.chance(1, 2) {
            let other = script.random.pick(others);
            give_windows(script, other, minute);
        }
        let by = script.random.pick(&[-1, 0, 0, 1]);
        script.minute(values::away(minute, by));
        if script.random.chance(3, 4) {
            let on = script.random.pick(&[0x80, 0x80, 0x08, 0x88]);
            script.write(flag_reg(channel), &[on]);
        }
        let ticks = script.random.within(1, 3);
        script.tick(ticks);
        script.read_register(flag_reg(channel));
    }
    match script.random.below(8) {
        0 => act::refused_hours(script),
        1..=4 => script.windows(channel, &[]),
        _ => {}
    }
}

/// Windows of c and a minute about them, which stand from then on.
pub fn leave_hours(script: &mut Script, channel: u8) {
    let minute = values::minute(&mut script.random);
    let windows = values::open_windows(&mut script.random, minute);
    script.windows(channel, &windows);
    let edge = values::edge(&mut script.random, &windows);
    script.minute(edge);
}

fn give_windows(script: &mut Script, channel: u8, minute: u16) {
    let windows = match script.random.below(8) {
        0 => Vec::new(),
        below if below < 5 => values::open_windows(&mut script.random, minute),
        _ => values::closed_windows(&mut script.random, minute),
    };
    script.windows(channel, &windows);
}

/// The minute moves by itself while c is open or closed, and others get windows
/// in the middle of it.
pub fn minute_moves(script: &mut Script, channel: u8, others: &[u8]) {
    let minute = values::minute(&mut script.random);
    let (next, after) = (values::away(minute, 1), values::away(minute, 2));
    let before = values::away(minute, -30);
    let window = script.random.pick(&[(next, after), (before, next)]);
    script.windows(channel, &[window]);
    script.minute(minute);
    let middle = script.random.within(1, 1_900);
    script.tick(middle);
    for _ in 0..script.random.within(1, 3) {
        let other = script.random.pick(others);
        give_windows(script, other, minute);
    }
    go_over(script, channel);
}

/// Up to the tick that moves the minute: c is tried with the tick before it and
/// with that tick.
fn go_over(script: &mut Script, channel: u8) {
    let left = script.ticks_to_minute();
    if left > 2 {
        script.tick(left - 2);
    }
    if left > 1 {
        try_on(script, channel);
    }
    try_on(script, channel);
}

fn try_on(script: &mut Script, channel: u8) {
    script.write(flag_reg(channel), &[0x80]);
    script.tick(1);
    script.read_register(flag_reg(channel));
}

/// No register shows a minute or windows, but ticks do: c is made a plain output
/// without references, current and watchdog, and is switched on before a tick.
/// First with the minute and the windows as they stand. Then, in one of three
/// pairs, c gets a window that opens with the next minute, and the tick that
/// begins it shows how many were counted before. In the others, the minute is
/// set about the ends of c's windows.
pub fn show_hours(script: &mut Script, channel: u8) -> Vec<Call> {
    script.write(0x0D, &[1]);
    script.write(0x09, &[0, 0x10, 0, 0]);
    script.write(flag_reg(channel) + 9, &[0, 0x10, 0, 0]);
    script.sample(channel, false, 0);
    try_on(script, channel);
    match script.minute_now() {
        Some(minute) if script.random.chance(1, 3) => {
            let (next, after) = (values::away(minute, 1), values::away(minute, 2));
            script.windows(channel, &[(next, after)]);
            go_over(script, channel);
        }
        _ => {
            let windows = script.windows_of(channel).to_vec();
            for _ in 0..4 {
                let edge = values::edge(&mut script.random, &windows);
                script.minute(edge);
                try_on(script, channel);
            }
        }
    }
    script.take_calls()
}
