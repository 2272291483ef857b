//! Change 6: what a tick does outside all windows.

use super::*;
use crate::bench::with_hours;

/// Channel 1 of a box at minute 600, with a window that is open then or not. It
/// has a ChConfig, an FBPreset of 800 counts, an OutPreset of 1600, and FBTimer
/// is at 80, FBStatus FALSE.
fn standpipe(config: [u8; 4], open: bool) -> Bench {
    let end = if open { 601 } else { 600 };
    let mut bench = with_hours(&[(500, end)], 600);
    bench.configure(1, config);
    let channel = &mut bench.device.channels[0];
    channel.kept.fb_preset = 800;
    channel.kept.out_preset = 1600;
    channel.fb_timer = 80;
    channel.fb_status = false;
    bench
}

/// Gives channel 1 a window that is open at minute 600 or not.
fn set_open(bench: &mut Bench, open: bool) {
    let end = if open { 601 } else { 600 };
    assert_eq!(bench.device.windows(1, &[(500, end)]), 0);
}

#[test]
fn out_flag_and_control_are_cleared_at_each_tick_outside() {
    for functions in [0x20, 0x30, 0x50] {
        let mut bench = standpipe([0, functions, 0, 0], false);
        for _ in 0..3 {
            bench.write(0x10, &[flag::OUT | flag::CONTROL]);
            assert_eq!(bench.read(0x10, 1)[0] & 0x88, 0x88, "until the next tick");
            bench.ticks(1);
            assert_eq!(bench.read(0x10, 1), [0]);
            assert!(!bench.device.channels[0].internal_state);
        }
    }
}

/// A plain output, by FlagReg and by OutFlags, and Output with it.
#[test]
fn a_write_switches_a_closed_channel_on_until_the_next_tick() {
    let mut bench = standpipe([0, 0x10, 0, 0], false);
    for swno in [0x10, 0x110] {
        match swno {
            0x10 => bench.write(0x10, &[flag::OUT]),
            _ => bench.write(0x110, &[0, 1]),
        };
        assert!(bench.device.channels[0].output());
        bench.ticks(1);
        assert!(!bench.device.channels[0].output());
        bench.ticks(1);
        assert!(!bench.device.channels[0].output());
    }
}

/// Nothing comes back by itself: neither OutFlag nor Control.
#[test]
fn opening_turns_nothing_on() {
    for functions in [0x10, 0x20, 0x30, 0x50] {
        let mut bench = standpipe([0, functions, 0, 0], true);
        bench.device.channels[0].out_timer = 80_000;
        bench.write(0x10, &[flag::OUT]);
        bench.write(0x10, &[flag::OUT | flag::CONTROL]);
        bench.ticks(1);
        assert!(bench.device.channels[0].out_flag);
        set_open(&mut bench, false);
        bench.ticks(1);
        set_open(&mut bench, true);
        bench.ticks(5);
        assert_eq!(bench.read(0x10, 1)[0] & 0x88, 0);
    }
}

/// Without a tick while it was closed, nothing happened.
#[test]
fn a_channel_closed_and_opened_between_ticks_stays_on() {
    let mut bench = standpipe([0, 0x10, 0, 0], true);
    bench.write(0x10, &[flag::OUT]);
    set_open(&mut bench, false);
    set_open(&mut bench, true);
    bench.device.minute(7);
    bench.device.minute(600);
    bench.ticks(1);
    assert!(bench.device.channels[0].out_flag);
}

/// "before the special function": it sees Control FALSE, and takes the fall.
/// Control written again once it is open is a new edge, and the one-shot has
/// its whole time again.
#[test]
fn a_one_shot_sees_control_fall_as_it_closes() {
    let mut bench = standpipe([0, 0x20, 0, 0], true);
    bench.write(0x10, &[flag::CONTROL]);
    bench.ticks(10);
    let channel = bench.device.channels[0];
    assert_eq!((channel.out_flag, channel.out_timer), (true, 1600 - 72));
    assert!(channel.internal_state);
    set_open(&mut bench, false);
    bench.ticks(1);
    let channel = bench.device.channels[0];
    assert_eq!((channel.out_flag, channel.control), (false, false));
    assert_eq!((channel.internal_state, channel.out_timer), (false, 1520));
    set_open(&mut bench, true);
    bench.write(0x10, &[flag::CONTROL]);
    bench.ticks(1);
    let channel = bench.device.channels[0];
    assert_eq!((channel.out_flag, channel.out_timer), (true, 1600));
}

/// Control written while it is closed never reaches the special function.
#[test]
fn control_written_outside_is_no_edge() {
    let mut bench = standpipe([0, 0x20, 0, 0], false);
    bench.write(0x10, &[flag::CONTROL]);
    bench.ticks(1);
    let channel = bench.device.channels[0];
    assert_eq!((channel.out_timer, channel.internal_state), (-8, false));
    assert!(!channel.out_flag);
    let mut bench = standpipe([0, 0x30, 0, 0], false);
    bench.write(0x10, &[flag::CONTROL]);
    bench.ticks(1);
    let channel = bench.device.channels[0];
    assert_eq!((channel.out_timer, channel.out_flag), (-8, false));
}

/// "then the change rule once against the tick's start": FBTimer is FBPreset
/// after that tick, and FBStatus TRUE where a reference is set.
#[test]
fn the_change_rule_runs_as_it_closes() {
    for (references, status) in [([0, 0], false), ([2, 0], true), ([0, 3], true)] {
        let [ref_a, ref_b] = references;
        let mut bench = standpipe([0, 0x10, ref_a, ref_b], false);
        bench.device.channels[0].out_flag = true;
        bench.ticks(1);
        let channel = bench.device.channels[0];
        assert_eq!((channel.out_flag, channel.fb_timer), (false, 800));
        assert_eq!(channel.fb_status, status);
        bench.ticks(1);
        assert_eq!(bench.device.channels[0].fb_timer, 792, "no change now");
    }
}

/// An OutFlag that was FALSE at the tick's start does not change.
#[test]
fn no_change_no_rule() {
    let mut bench = standpipe([0, 0x20, 2, 0], false);
    bench.write(0x10, &[flag::CONTROL]);
    bench.ticks(1);
    let channel = bench.device.channels[0];
    assert_eq!((channel.fb_timer, channel.fb_status), (72, false));
}

/// The watchdog clears before, and nothing is done twice.
#[test]
fn the_watchdog_and_the_windows_clear_together() {
    for open in [false, true] {
        let mut bench = standpipe([0, 0x20, 2, 0], open);
        bench.device.module_config = Config::default();
        bench.write(0x10, &[flag::OUT | flag::CONTROL]);
        bench.device.channels[0].fb_timer = 80;
        bench.device.channels[0].fb_status = false;
        bench.ticks(1);
        let channel = bench.device.channels[0];
        assert_eq!((channel.out_flag, channel.control), (false, false));
        assert_eq!((channel.fb_timer, channel.fb_status), (800, true));
        assert_eq!(bench.device.act & RUN_OUT, RUN_OUT);
    }
}

/// Closing is no trip: no overload by MaxCurrent, since OutFlag is FALSE in step
/// 4, and above 2 the trip of every tick.
#[test]
fn a_current_as_it_closes() {
    let mut bench = standpipe([0, 0x10, 0, 0], false);
    let channel = &mut bench.device.channels[0];
    channel.out_flag = true;
    channel.fb_timer = -80;
    channel.out_current = HALF_AMPERE;
    bench.ticks(1);
    let channel = bench.device.channels[0];
    assert_eq!(channel.act, error::INTERNAL_SHORT_CIRCUIT);
    bench.device.channels[0].out_current = reals::TWO + 1;
    bench.device.channels[0].out_flag = true;
    bench.ticks(1);
    let channel = bench.device.channels[0];
    assert_eq!(channel.act & error::OVERLOAD, error::OVERLOAD);
    assert_eq!((channel.out_flag, channel.fb_timer), (false, 800));
}

/// It sets no error bit of its own; what step 6 finds, it finds as ever.
#[test]
fn closing_sets_no_error_bit() {
    let mut bench = standpipe([0, 0x10, 0, 0], false);
    bench.device.channels[0].his = 0;
    bench.ticks(1);
    let channel = bench.device.channels[0];
    assert_eq!((channel.act, channel.his), (0, 0));
    bench.device.sample(1, true, 0);
    bench.write(0x10, &[flag::OUT]);
    bench.ticks(1);
    let channel = bench.device.channels[0];
    assert_eq!(channel.act, error::EXTERNAL_SHORT_CIRCUIT);
}

/// Timers and counts go on while a channel is closed.
#[test]
fn a_closed_channel_counts_on() {
    let mut bench = standpipe([0, 0x50, 0, 0], false);
    bench.device.sample(1, true, 0);
    bench.device.channels[0].out_timer = 800;
    bench.ticks(8);
    let channel = bench.device.channels[0];
    assert_eq!((channel.out_timer, channel.fb_timer), (736, 16));
    assert_eq!((channel.counter, channel.operating), (1, 2));
}
