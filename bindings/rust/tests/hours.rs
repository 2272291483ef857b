//! Opening hours, through the whole wrapper.

mod common;

use common::{shown, ticks_open, used};
use pd3120::hours::{self, MOST_WINDOWS, WEEK};
use pd3120::{Pd3120, Window};

/// The ticks of a minute.
const MINUTE: usize = 1920;
/// As many ticks as `ticks_open` waits for.
const ALWAYS: usize = 120 * MINUTE;

fn window(start: u16, end: u16) -> Window {
    Window { start, end }
}

/// The box with channel 4 on, at a minute, with windows.
fn at(minute: u16, windows: &[Window]) -> Pd3120 {
    let mut module = used();
    module.set_windows(4, windows).expect("channel 4");
    module.set_minute(minute).expect("a minute");
    module
}

#[test]
fn the_start_is_in_a_window_and_the_end_is_not() {
    let day = [window(360, 420)];
    assert_eq!(ticks_open(at(359, &day), 4), 0);
    assert_eq!(ticks_open(at(360, &day), 4), 60 * MINUTE - 1);
    assert_eq!(ticks_open(at(419, &day), 4), MINUTE - 1);
    assert_eq!(ticks_open(at(420, &day), 4), 0);
}

#[test]
fn a_window_with_its_end_before_its_start_runs_over_the_weeks_end() {
    let night = [window(10_060, 20)];
    assert_eq!(ticks_open(at(10_059, &night), 4), 0);
    assert_eq!(ticks_open(at(10_060, &night), 4), 40 * MINUTE - 1);
    assert_eq!(ticks_open(at(0, &night), 4), 20 * MINUTE - 1);
    assert_eq!(ticks_open(at(20, &night), 4), 0);
    let last = [window(10_079, 0)];
    assert_eq!(ticks_open(at(10_079, &last), 4), MINUTE - 1);
    assert_eq!(ticks_open(at(0, &last), 4), 0);
}

#[test]
fn a_channel_is_open_in_any_of_its_windows() {
    let eight: Vec<Window> = (0..8).map(|k| window(10 * k, 10 * k + 10)).collect();
    assert_eq!(ticks_open(at(0, &eight), 4), 80 * MINUTE - 1);
    let mut turned = eight;
    turned.reverse();
    assert_eq!(ticks_open(at(0, &turned), 4), 80 * MINUTE - 1);
}

#[test]
fn windows_are_given_whole_and_an_empty_list_takes_them_away() {
    let mut module = at(5, &[window(5, 5); MOST_WINDOWS]);
    assert_eq!(ticks_open(module.clone(), 4), 0);
    module.set_windows(4, &[window(5, 6)]).expect("channel 4");
    assert_eq!(ticks_open(module.clone(), 4), MINUTE - 1);
    module.set_windows(4, &[]).expect("channel 4");
    assert_eq!(ticks_open(module, 4), ALWAYS);
}

#[test]
fn nothing_is_closed_while_the_minute_is_unset() {
    let mut module = used();
    module.set_windows(4, &[window(5, 5)]).expect("channel 4");
    assert_eq!(ticks_open(module.clone(), 4), ALWAYS);
    module.set_minute(5).expect("a minute");
    assert_eq!(ticks_open(module.clone(), 4), 0);
    // Power-up leaves the minute unset and no windows, and a reset too.
    let again = Pd3120::power_up(&module.image()).expect("an image");
    module.write(0x03, &[0xFF]).expect("Reset");
    for mut module in [again, module] {
        module.write(0x40, &[0x80]).expect("FlagReg");
        assert_eq!(ticks_open(module.clone(), 4), ALWAYS);
        module.set_minute(5).expect("a minute");
        assert_eq!(ticks_open(module, 4), ALWAYS);
    }
}

#[test]
fn each_setting_starts_the_minute_anew() {
    let mut module = at(7, &[window(7, 8)]);
    for _ in 0..MINUTE - 1 {
        module.tick();
    }
    let mut refused = module.clone();
    refused.set_minute(WEEK).expect_err("beyond the week");
    assert_eq!(ticks_open(refused, 4), 0);
    module.set_minute(7).expect("a minute");
    assert_eq!(ticks_open(module, 4), MINUTE - 1);
}

#[test]
fn a_closed_channel_can_be_written_on_until_the_next_tick() {
    let mut module = at(hours::minute(5, 12, 0), &[window(360, 1200)]);
    module.tick();
    for _ in 0..2 {
        assert!(!module.output(4));
        module.write(0x40, &[0x80]).expect("FlagReg");
        assert!(module.output(4));
        module.tick();
    }
    assert!(!module.output(4));
}

/// Of a one-shot, which does not start then. Its input is simulated.
#[test]
fn control_is_cleared_as_out_flag_is() {
    let mut module = at(60, &[window(30, 60)]);
    module.write(0x0D, &[1]).expect("WriteEnable");
    module.write(0x49, &[0x01, 0x20, 0, 0]).expect("ChConfig");
    let mut flags = [0];
    for (minute, left) in [(60, 0x00), (59, 0x88)] {
        module.set_minute(minute).expect("a minute");
        module
            .write(0x48, &1.0_f32.to_be_bytes())
            .expect("OutPreset");
        module.write(0x40, &[0x88]).expect("FlagReg");
        module.tick();
        module.read(0x40, &mut flags).expect("FlagReg");
        assert_eq!(flags[0], left, "{minute}");
    }
}

#[test]
fn the_minute_and_windows_show_in_no_register_and_no_image() {
    let module = used();
    let mut set = module.clone();
    set.set_minute(5).expect("a minute");
    set.set_windows(4, &[window(5, 5)]).expect("channel 4");
    assert_eq!(shown(&set), shown(&module));
}
