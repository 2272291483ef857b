//! Steps 1 and 7: FreeRunTimer, the watchdog and the ten-hour save.

use super::*;

#[test]
fn free_run_timer_gains_8_and_wraps() {
    let mut bench = Bench::watchdog_off();
    bench.device.free_run_timer = i32::MAX - 7;
    bench.ticks(1);
    assert_eq!(bench.device.free_run_timer, i32::MIN);
}

#[test]
fn the_watchdog_runs_out_by_level() {
    let mut bench = with_watchdog(16);
    bench.configure(1, [0, 0x20, 2, 0]);
    bench.write(0x10, &[flag::OUT | flag::CONTROL]);
    bench.ticks(1);
    assert!(bench.device.channels[0].control);
    assert_eq!(bench.device.act & RUN_OUT, 0);
    assert_eq!(bench.device.act, 0);
    bench.ticks(1);
    assert!(!bench.device.channels[0].control && !bench.device.channels[0].out_flag);
    assert_eq!(bench.device.act & RUN_OUT, RUN_OUT);
    assert_eq!(bench.device.his & RUN_OUT, RUN_OUT);
    assert_eq!(bench.device.act, 1 << 3);
    assert_eq!(bench.device.his, 1 << 7 | 1 << 3);
    bench.device.his = 0;
    bench.ticks(1);
    assert_eq!(bench.device.his & RUN_OUT, RUN_OUT);
    assert_eq!(bench.device.his, 1 << 3);
}

#[test]
fn outputs_the_watchdog_cleared_get_the_change_rule_in_step_3() {
    let mut bench = with_watchdog(8);
    bench.configure(1, [0, 0x10, 2, 0]);
    bench.device.channels[0].kept.fb_preset = 100;
    bench.write(0x10, &[flag::OUT]);
    bench.device.channels[0].fb_status = false;
    bench.ticks(1);
    let channel = &bench.device.channels[0];
    assert_eq!((channel.out_flag, channel.fb_timer), (false, 100));
    assert!(channel.fb_status);
}

#[test]
fn switched_off_the_watchdog_does_nothing() {
    let mut bench = Bench::watchdog_off();
    bench.configure(1, [0, 0x10, 0, 0]);
    bench.write(0x10, &[flag::OUT]);
    bench.ticks(5);
    assert!(bench.device.channels[0].out_flag);
    assert_eq!(bench.device.act, 0);
    assert_eq!(bench.device.wd_timer, 0);
}

#[test]
fn counts_are_kept_every_1152000th_tick() {
    let mut bench = Bench::watchdog_off();
    bench.device.sample(16, true, 0);
    bench.write(0x15, &[1, 2, 3, 4]);
    bench.ticks(LAST_OF_SAVE);
    assert_eq!(bench.device.channels[15].kept, Kept::default());
    bench.ticks(1);
    let kept = bench.device.channels[15].kept;
    assert_eq!((kept.counter, kept.operating), (1, 288_000));
    assert_eq!(bench.device.channels[0].kept.user_bytes, [0; 4]);
    assert_eq!(bench.device.save_count, 0);
}

#[test]
fn a_higher_save_count_acts_as_the_last() {
    for count in [LAST_OF_SAVE, LAST_OF_SAVE + 1, u32::MAX] {
        let mut bench = Bench::watchdog_off();
        bench.device.sample(1, true, 0);
        bench.device.save_count = count;
        bench.ticks(1);
        assert_eq!(bench.device.channels[0].kept.counter, 1);
        assert_eq!(bench.device.save_count, 0);
    }
}
