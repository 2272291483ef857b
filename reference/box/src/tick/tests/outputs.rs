//! Steps 2 to 4: the timers, the special functions, the change rule and trips.

use super::*;

#[test]
fn one_shot_off_at_the_falling_edge_of_control() {
    let mut bench = Bench::watchdog_off();
    bench.configure(1, [0, 0x20, 0, 0]);
    bench.device.channels[0].kept.out_preset = 800;
    bench.write(0x10, &[flag::CONTROL]);
    bench.ticks(1);
    assert!(bench.device.channels[0].out_flag);
    bench.write(0x10, &[flag::OUT]);
    assert!(bench.device.channels[0].out_flag);
    bench.ticks(1);
    assert!(!bench.device.channels[0].out_flag);
    bench.write(0x10, &[flag::OUT]);
    bench.ticks(1);
    assert!(bench.device.channels[0].out_flag);
}

#[test]
fn timer_output_follows_out_timer() {
    let mut bench = Bench::watchdog_off();
    bench.configure(1, [0, 0x50, 0, 0]);
    bench.device.channels[0].kept.out_preset = 800;
    bench.write(0x10, &[flag::CONTROL]);
    bench.ticks(1);
    assert!(!bench.device.channels[0].out_flag);
    bench.device.channels[0].out_timer = 16;
    bench.ticks(1);
    assert!(bench.device.channels[0].out_flag);
    bench.ticks(1);
    assert!(!bench.device.channels[0].out_flag);
    assert_eq!(bench.device.channels[0].out_timer, 0);
}

#[test]
fn without_a_special_function_internal_state_is_left() {
    for functions in [0, 0x10] {
        for internal_state in [false, true] {
            let mut channel = with_channel([0, functions, 0, 0]);
            channel.internal_state = internal_state;
            channel.control = !internal_state;
            channel.out_flag = true;
            channel.tick(false, false, 0);
            assert_eq!(channel.internal_state, internal_state);
            assert!(channel.out_flag);
        }
    }
}

#[test]
fn the_change_rule_runs_once_for_a_double_change() {
    let mut channel = with_channel([0, 0x30, 1, 0]);
    channel.kept.fb_preset = 800;
    channel.control = true;
    channel.tick(false, false, 0);
    assert_eq!((channel.out_flag, channel.fb_timer), (false, -8));
    assert!(!channel.fb_status);
}

#[test]
fn max_current_trips_once_fb_timer_is_negative() {
    let mut channel = with_channel([0, 0x10, 0, 0]);
    channel.kept.max_current = HALF_AMPERE;
    channel.kept.fb_preset = 5;
    channel.out_flag = true;
    channel.in_flag = true;
    channel.out_current = HALF_AMPERE + 1;
    channel.fb_timer = 8;
    channel.tick(false, false, 0);
    assert!(channel.out_flag && channel.act == 0);
    channel.tick(false, false, 0);
    assert!(!channel.out_flag);
    assert_eq!(channel.fb_timer, 5);
    assert_eq!(channel.act & error::OVERLOAD, error::OVERLOAD);
}

#[test]
fn a_current_of_max_current_does_not_trip() {
    let mut channel = with_channel([0, 0x10, 0, 0]);
    channel.kept.max_current = HALF_AMPERE;
    channel.out_flag = true;
    channel.out_current = HALF_AMPERE;
    channel.tick(false, false, 0);
    assert!(channel.out_flag);
}

#[test]
fn a_current_above_two_trips_at_every_tick() {
    let mut channel = with_channel([0, 0x10, 0, 0]);
    channel.kept.max_current = reals::ONE;
    channel.kept.fb_preset = 800;
    channel.out_current = reals::TWO + 1;
    for _ in 0..2 {
        channel.out_flag = true;
        channel.fb_timer = 80;
        channel.tick(false, false, 0);
        assert!(!channel.out_flag);
        assert_eq!(channel.fb_timer, 800);
        channel.write_flag_reg(0);
        assert_eq!(channel.act & error::OVERLOAD, 0);
    }
}

/// Not above 2, and FBTimer is not below 0.
#[test]
fn a_current_of_two_does_not_trip_in_a_tick() {
    for amperes in [0x3FFF_FFFF, 0x4000_0000] {
        let mut channel = with_channel([0, 0x10, 0, 0]);
        channel.out_flag = true;
        channel.fb_timer = 80;
        channel.out_current = amperes;
        channel.tick(false, false, 0);
        assert!(channel.out_flag, "{amperes:08x}");
        assert_eq!(channel.act & error::OVERLOAD, 0);
    }
}

#[test]
fn step_4_looks_at_fb_timer_after_the_change_rule() {
    let mut channel = with_channel([0, 0x50, 0, 0]);
    channel.kept.fb_preset = 8;
    channel.out_current = reals::ONE;
    channel.out_timer = 800;
    channel.control = true;
    channel.tick(false, false, 0);
    assert_eq!((channel.out_flag, channel.fb_timer), (true, 8));
    channel.tick(false, false, 0);
    assert_eq!((channel.out_flag, channel.fb_timer), (true, 0));
    channel.tick(false, false, 0);
    assert_eq!((channel.out_flag, channel.fb_timer), (false, 8));
}
