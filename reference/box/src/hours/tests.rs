mod calls;
mod clock;

use super::*;
use crate::bench::{with_hours, Bench};
use crate::channel::flag;

const HOUR: u16 = 60;

fn window(start: u16, end: u16) -> Window {
    Window { start, end }
}

/// The minutes of the week at which a window is open.
fn open_minutes(start: u16, end: u16) -> Vec<u16> {
    let open = |minute: &u16| window(start, end).is_open(*minute);
    (0..=LAST_MINUTE).filter(open).collect()
}

/// "start included and end not".
#[test]
fn a_window_has_its_start_and_not_its_end() {
    let minutes = |from: u16, to: u16| (from..to).collect::<Vec<u16>>();
    assert_eq!(open_minutes(600, 720), minutes(600, 720));
    assert_eq!(open_minutes(0, 1), [0]);
    assert_eq!(open_minutes(600, 601), [600]);
    assert_eq!(open_minutes(10_078, 10_079), [10_078]);
    assert_eq!(open_minutes(0, 10_079), minutes(0, 10_079));
}

/// "a window whose end is before its start runs over the week's end". So a
/// window up to the week's end has end 0.
#[test]
fn a_window_runs_over_the_weeks_end() {
    assert_eq!(open_minutes(10_078, 2), [0, 1, 10_078, 10_079]);
    assert_eq!(open_minutes(10_079, 0), [10_079]);
    assert_eq!(
        open_minutes(10_070, 0),
        (10_070..=10_079).collect::<Vec<u16>>()
    );
    assert_eq!(open_minutes(1, 0), (1..=10_079).collect::<Vec<u16>>());
    let all_but_600 = (0..=10_079).filter(|&minute| minute != 600);
    assert_eq!(open_minutes(601, 600), all_but_600.collect::<Vec<u16>>());
}

/// "equal ends mean it never opens".
#[test]
fn equal_ends_never_open() {
    for end in [0, 1, 600, 10_078, 10_079] {
        assert_eq!(open_minutes(end, end), []);
    }
}

/// A channel with these windows, out of a box at this minute.
fn closed(windows: &[(u16, u16)], minute: u16) -> bool {
    let bench = with_hours(windows, minute);
    let channel = &bench.device.channels[4];
    channel.is_closed(bench.device.clock.now())
}

/// "outside all of them": one open window is enough, whichever it is.
#[test]
fn a_channel_is_closed_outside_all_of_its_windows() {
    let overlapping = [(600, 720), (660, 780)];
    let adjacent = [(720, 780), (600, 720)];
    for windows in [overlapping, adjacent] {
        for minute in [600, 659, 660, 719, 720, 779] {
            assert!(!closed(&windows, minute), "{minute}");
        }
        for minute in [0, 599, 780, 10_079] {
            assert!(closed(&windows, minute), "{minute}");
        }
    }
    let only_the_last = [
        (0, 0),
        (1, 1),
        (2, 3),
        (3, 4),
        (5, 6),
        (700, 700),
        (10_079, 1),
        (700, 701),
    ];
    assert!(!closed(&only_the_last, 700));
    assert!(closed(&only_the_last, 699) && closed(&only_the_last, 701));
}

/// Windows that never open are windows; no windows are none.
#[test]
fn a_channel_without_windows_is_never_closed() {
    for minute in [0, 5, 10_079] {
        assert!(!closed(&[], minute));
        assert!(closed(&[(5, 5)], minute));
    }
}

#[test]
fn while_the_minute_is_unset_no_channel_is_closed() {
    let mut bench = with_hours(&[(5, 5)], 0);
    bench.device.clock = Clock::default();
    bench.ticks(3);
    assert_eq!(bench.read(0x110, 2), [0xFF, 0xFF]);
}

/// Change 1: "a number that a change adds to the box acts, where it is out of
/// its range [...], as it stands after a refused power-up". No call brings one
/// about.
#[test]
fn numbers_out_of_range_act_as_after_a_refused_power_up() {
    for minute in [10_080, u16::MAX] {
        let mut bench = with_hours(&[(5, 5)], 0);
        bench.device.clock = Clock {
            minute: Some(minute),
            ticks: 1_919,
        };
        bench.ticks(2);
        assert_eq!(bench.read(0x110, 2), [0xFF, 0xFF]);
    }
    let mut clock = Clock {
        minute: Some(7),
        ticks: 1_920,
    };
    clock.begin_tick();
    assert_eq!((clock.minute, clock.ticks), (Some(7), 1));
    assert!(window(10_080, 5).is_open(0) && !window(10_080, 5).is_open(5));
    assert!(window(600, 10_080).is_open(10_079) && !window(600, u16::MAX).is_open(0));
}
