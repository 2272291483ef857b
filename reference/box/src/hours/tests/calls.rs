//! The two local calls, their questions, and what empties what they gave.

use super::*;
use crate::calls::ChannelBox;
use crate::image;

const NINE: [(u16, u16); 9] = [(1, 2); 9];
const NINE_LATE: [(u16, u16); 9] = [(10_080, 2); 9];

#[test]
fn question_18_of_a_minute() {
    let mut bench = with_hours(&[(5, 6)], 5);
    bench.ticks(7);
    let before = bench.device.clone();
    for minute in [10_080, 10_081, 20_160, 32_768, 65_535] {
        assert_eq!(bench.device.minute(minute), 18);
    }
    assert_eq!(bench.device, before);
    for minute in [0, 1, 10_078, 10_079] {
        assert_eq!(bench.device.minute(minute), 0);
        assert_eq!(bench.device.clock.now(), Some(minute));
    }
}

/// "for windows the order is 8, 19, 18."
#[test]
fn the_questions_of_windows_in_their_order() {
    let mut bench = with_hours(&[(5, 6)], 5);
    let before = bench.device.clone();
    for channel in [0, 17, 18, 128, 255] {
        for windows in [&[][..], &[(1, 2)], &[(1, 10_080)], &NINE, &NINE_LATE] {
            assert_eq!(bench.device.windows(channel, windows), 8);
        }
    }
    for channel in 1..=16 {
        for windows in [&NINE[..], &NINE_LATE, &[(1, 2); 10], &[(1, 65_535); 16]] {
            assert_eq!(bench.device.windows(channel, windows), 19);
        }
        for windows in [
            &[(10_080, 0)][..],
            &[(0, 10_080)],
            &[(0, 65_535)],
            &[(65_535, 0)],
            &[(1, 2), (3, 4), (5, 10_080)],
            &[
                (1, 2),
                (3, 4),
                (10_080, 5),
                (1, 2),
                (1, 2),
                (1, 2),
                (1, 2),
                (1, 2),
            ],
        ] {
            assert_eq!(bench.device.windows(channel, windows), 18);
        }
    }
    assert_eq!(bench.device, before, "a refused call changes nothing");
}

#[test]
fn eight_windows_and_every_minute_are_allowed() {
    let mut bench = Bench::watchdog_off();
    let eight = [
        (0, 0),
        (0, 10_079),
        (10_079, 0),
        (10_079, 10_079),
        (1, 2),
        (2, 1),
        (0, 1),
        (7, 8),
    ];
    assert_eq!(bench.device.windows(16, &eight), 0);
    let held: Vec<(u16, u16)> = bench.device.channels[15]
        .windows
        .iter()
        .flatten()
        .map(|window| (window.start, window.end))
        .collect();
    assert_eq!(held, eight);
}

/// "given whole": the windows of before are gone, and an empty list takes them
/// away. Each channel has its own.
#[test]
fn windows_are_given_whole_to_one_channel() {
    let mut bench = with_hours(&[(600, 700)], 650);
    assert_eq!(bench.device.windows(3, &[(0, 1), (800, 900)]), 0);
    bench.ticks(1);
    assert_eq!(bench.read(0x110, 2), [0xFF, 0xFB]);
    assert_eq!(bench.device.windows(3, &[]), 0);
    assert_eq!(bench.device.windows(16, &[(5, 5)]), 0);
    bench.write(0x110, &[0xFF, 0xFF]);
    bench.ticks(1);
    assert_eq!(bench.read(0x110, 2), [0x7F, 0xFF]);
    assert_eq!(bench.device.windows(16, &[(650, 651)]), 0);
    bench.write(0x110, &[0xFF, 0xFF]);
    bench.ticks(1);
    assert_eq!(bench.read(0x110, 2), [0xFF, 0xFF]);
}

/// The calls alone switch nothing: "cleared at each tick".
#[test]
fn a_call_clears_nothing_before_the_tick() {
    let mut bench = with_hours(&[], 0);
    bench.device.windows(1, &[(5, 6)]);
    bench.device.minute(7);
    assert_eq!(bench.read(0x10, 1), [flag::OUT]);
    bench.ticks(1);
    assert_eq!(bench.read(0x10, 1)[0] & flag::OUT, 0);
}

/// "unset after power-up or reset", "emptied by reset", and power-up too.
#[test]
fn reset_and_power_up_leave_no_minute_and_no_windows() {
    let closed = || {
        let mut bench = with_hours(&[(5, 6)], 600);
        bench.ticks(100);
        bench
    };
    let mut bench = closed();
    let mut image = [0; image::LENGTH];
    assert_eq!(bench.device.store(&mut image).0, 0);
    let mut same = ChannelBox::default();
    assert_eq!(same.power_up(&image), 0);
    let lost = |device: &ChannelBox| {
        let empty = |channel: &Channel| channel.windows == Windows::default();
        device.clock == Clock::default() && device.channels.iter().all(empty)
    };
    assert!(!lost(&bench.device) && lost(&same));
    assert_eq!(bench.write(0x03, &[0xFE]), 7);
    assert!(!lost(&bench.device));
    assert_eq!(bench.write(0x03, &[0xFF]), 0);
    assert!(lost(&bench.device));
    let mut bench = closed();
    assert_eq!(bench.device.power_up(&image), 0);
    assert!(lost(&bench.device));
    let mut bench = closed();
    assert_eq!(bench.device.power_up(&[]), 10);
    assert!(lost(&bench.device));
}

/// After a reset the minute alone closes nothing, nor do windows alone.
#[test]
fn after_a_reset_both_must_be_given_again() {
    let mut bench = with_hours(&[(5, 6)], 600);
    assert_eq!(bench.write(0x03, &[0xFF]), 0);
    assert_eq!(bench.device.minute(600), 0);
    bench.write(0x110, &[0xFF, 0xFF]);
    bench.ticks(2);
    assert_eq!(bench.read(0x110, 2), [0xFF, 0xFF]);
    assert_eq!(bench.write(0x03, &[0xFF]), 0);
    assert_eq!(bench.device.windows(1, &[(5, 6)]), 0);
    bench.write(0x110, &[0xFF, 0xFF]);
    bench.ticks(2);
    assert_eq!(bench.read(0x110, 2), [0xFF, 0xFF]);
    assert_eq!(bench.device.minute(600), 0);
    bench.ticks(1);
    assert_eq!(bench.read(0x110, 2), [0xFF, 0xFE]);
}

/// No wire call touches windows or minute, ChConfig neither.
#[test]
fn a_written_config_leaves_the_windows() {
    let mut bench = with_hours(&[(5, 6)], 600);
    bench.configure(1, [0, 0x10, 0, 0]);
    bench.write(0x10, &[0x80]);
    bench.ticks(1);
    assert_eq!(bench.read(0x10, 1), [0]);
}

/// A store has no word of them.
#[test]
fn no_image_has_a_minute_or_windows() {
    let stored = |bench: &Bench| {
        let mut image = [0; image::LENGTH];
        assert_eq!(bench.device.store(&mut image), (0, image::LENGTH));
        image
    };
    let mut bench = with_hours(&[], 600);
    let before = stored(&bench);
    bench.device.windows(1, &[(5, 6)]);
    bench.device.minute(601);
    assert_eq!(stored(&bench), before);
}
