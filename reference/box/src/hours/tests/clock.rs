//! The minute: "advanced, 10079 to 0, as each 1920th tick from then begins".

use super::*;

/// A box of which all channels are open at one minute of the week, set to the
/// minute before.
fn before(minute: u16) -> Bench {
    let (start, end) = (minute, (minute + 1) % 10_080);
    with_hours(&[(start, end)], (minute + 10_079) % 10_080)
}

/// OutFlag of all channels, made TRUE before a tick and read after it.
fn on_after_a_tick(bench: &mut Bench) -> bool {
    bench.write(0x110, &[0xFF, 0xFF]);
    bench.ticks(1);
    let flags = bench.read(0x110, 2);
    assert!(flags == [0, 0] || flags == [0xFF, 0xFF]);
    flags != [0, 0]
}

/// The 1920th tick after the setting is judged by the new minute, and so is the
/// 3840th by the one after.
#[test]
fn the_1920th_tick_has_the_new_minute() {
    for minute in [0, 1, 600, 10_079] {
        let mut bench = before(minute);
        bench.ticks(1_918);
        assert!(!on_after_a_tick(&mut bench), "tick 1919");
        assert!(on_after_a_tick(&mut bench), "tick 1920");
        assert!(on_after_a_tick(&mut bench), "tick 1921");
        bench.ticks(1_917);
        assert!(on_after_a_tick(&mut bench), "tick 3839");
        assert!(!on_after_a_tick(&mut bench), "tick 3840");
    }
}

/// Closing needs no write to show: OutFlag stands up to the 1919th tick.
#[test]
fn an_output_closes_with_the_1920th_tick() {
    let mut bench = with_hours(&[(10 * HOUR, 12 * HOUR)], 12 * HOUR - 1);
    bench.ticks(1_919);
    assert_eq!(bench.read(0x110, 2), [0xFF, 0xFF]);
    bench.ticks(1);
    assert_eq!(bench.read(0x110, 2), [0, 0]);
}

#[test]
fn the_week_ends_with_10079() {
    let mut bench = with_hours(&[], 10_079);
    bench.ticks(1_919);
    assert_eq!(bench.device.clock.now(), Some(10_079));
    bench.ticks(1);
    assert_eq!(bench.device.clock.now(), Some(0));
    bench.ticks(1_920);
    assert_eq!(bench.device.clock.now(), Some(1));
}

/// "from then": an accepted setting, of the same minute too, starts anew.
#[test]
fn a_setting_starts_the_1920_anew() {
    let minute = 600;
    for ticks in [1, 1_000, 1_918, 1_919] {
        let mut bench = before(minute);
        bench.ticks(ticks);
        assert_eq!(bench.device.minute(599), 0);
        bench.ticks(1_918);
        assert!(!on_after_a_tick(&mut bench), "{ticks}");
        assert!(on_after_a_tick(&mut bench), "{ticks}");
    }
    let mut bench = before(minute);
    bench.ticks(1_919);
    assert_eq!(bench.device.minute(600), 0);
    assert!(on_after_a_tick(&mut bench));
    bench.ticks(1_917);
    assert!(on_after_a_tick(&mut bench));
    assert!(
        !on_after_a_tick(&mut bench),
        "1920 ticks after the last setting"
    );
}

/// The setting is no tick: the first tick after it is the first of the 1920.
#[test]
fn the_first_tick_after_a_setting_is_the_first_of_1920() {
    let mut bench = with_hours(&[], 5);
    for count in 1..=1_919 {
        bench.ticks(1);
        assert_eq!(bench.device.clock.now(), Some(5), "{count}");
    }
    bench.ticks(1);
    assert_eq!(bench.device.clock.now(), Some(6));
}

#[test]
fn a_refused_setting_and_other_calls_leave_the_count() {
    let mut bench = before(600);
    bench.ticks(1_000);
    assert_eq!(bench.device.minute(10_080), 18);
    assert_eq!(bench.device.windows(0, &[]), 8);
    assert_eq!(bench.device.windows(3, &[(0, 10_080)]), 18);
    assert_eq!(bench.device.windows(3, &[(600, 601)]), 0);
    assert_eq!(bench.device.sample(3, true, 0), 0);
    assert_eq!(bench.write(0x10, &[0x80]), 0);
    bench.ticks(918);
    assert!(!on_after_a_tick(&mut bench), "tick 1919");
    assert!(on_after_a_tick(&mut bench), "tick 1920");
}

/// Ticks before the setting count for nothing.
#[test]
fn an_unset_minute_counts_nothing() {
    let mut bench = Bench::watchdog_off();
    bench.ticks(1_900);
    assert_eq!(bench.device.clock, Clock::default());
    assert_eq!(bench.device.minute(0), 0);
    bench.ticks(1_919);
    assert_eq!(bench.device.clock.now(), Some(0));
    bench.ticks(1);
    assert_eq!(bench.device.clock.now(), Some(1));
}
