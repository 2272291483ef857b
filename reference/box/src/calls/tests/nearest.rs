//! Change 5: "Presets as installers type them", through every register of a
//! time.

use super::*;

/// A register of a time in 1/256 s, and the count that the box then has.
type TimeRegister = (u16, fn(&ChannelBox) -> i32);

/// Those that allow both signs.
const TIMERS: [TimeRegister; 4] = [
    (0x11, |device| device.channels[0].out_timer),
    (0x106, |device| device.channels[15].fb_timer),
    (0x13A, |device| device.data.timer_a),
    (0x13B, |device| device.data.timer_b),
];

/// Those from 0.
const PRESETS: [TimeRegister; 3] = [
    (0x17, |device| device.channels[0].kept.fb_preset),
    (0x108, |device| device.channels[15].kept.out_preset),
    (0x0A, |device| device.wd_preset),
];

/// Times with their counts of 1/256 s: 0.1 and 0.3 s as typed, then 0.5, 1.5,
/// 2.5 and 3.5 counts with the Reals beside them.
const TIMES: [(u32, i32); 14] = [
    (0x3DCC_CCCD, 26),
    (0x3E99_999A, 77),
    (0x3AFF_FFFF, 0),
    (0x3B00_0000, 0),
    (0x3B00_0001, 1),
    (0x3BBF_FFFF, 1),
    (0x3BC0_0000, 2),
    (0x3BC0_0001, 2),
    (0x3C1F_FFFF, 2),
    (0x3C20_0000, 2),
    (0x3C20_0001, 3),
    (0x3C5F_FFFF, 3),
    (0x3C60_0000, 4),
    (0x3C60_0001, 4),
];

/// A box with WriteEnable TRUE.
fn enabled() -> Bench {
    let mut bench = Bench::watchdog_off();
    assert_eq!(bench.write(0x0D, &[1]), 0);
    bench
}

/// Writes a time, and tells the count and what is read.
fn check(bench: &mut Bench, (swno, count): TimeRegister, time: u32, expected: i32) {
    assert_eq!(bench.write_word(swno, time), 0, "{swno:x} {time:08x}");
    assert_eq!(count(&bench.device), expected, "{swno:x} {time:08x}");
    let read = reals::from_timer_count(expected);
    assert_eq!(bench.read_word(swno), read, "{swno:x} {time:08x}");
}

#[test]
fn timers_and_presets_take_the_nearest_count() {
    let mut bench = enabled();
    for register in TIMERS.into_iter().chain(PRESETS) {
        for (time, count) in TIMES {
            check(&mut bench, register, time, count);
        }
    }
}

#[test]
fn timers_take_the_nearest_count_below_zero() {
    let mut bench = enabled();
    for register in TIMERS {
        for (time, count) in TIMES {
            check(&mut bench, register, 0x8000_0000 | time, -count);
        }
    }
}

/// "An installer types 0.3 s, reads back less": now $3E9A0000, 77/256 s.
#[test]
fn a_preset_of_three_tenths_reads_back_no_less() {
    let mut bench = enabled();
    bench.write_word(0x18, 0x3E99_999A);
    assert_eq!(bench.read_word(0x18), 0x3E9A_0000);
}

/// "the operating time likewise": 0.1, 0.3 and 0.7 s, then 0.5, 1.5, 2.5 and
/// 3.5 eighths with the Reals beside them. The quarters are lost, not rounded.
#[test]
fn operating_time_takes_the_nearest_eighth() {
    let mut bench = enabled();
    bench.device.sample(1, true, 0);
    for (time, count) in [
        (0x3DCC_CCCD, 1),
        (0x3E99_999A, 2),
        (0x3F33_3333, 6),
        (0x3D7F_FFFF, 0),
        (0x3D80_0000, 0),
        (0x3D80_0001, 1),
        (0x3E3F_FFFF, 1),
        (0x3E40_0000, 2),
        (0x3E40_0001, 2),
        (0x3E9F_FFFF, 2),
        (0x3EA0_0000, 2),
        (0x3EA0_0001, 3),
        (0x3EDF_FFFF, 3),
        (0x3EE0_0000, 4),
        (0x3EE0_0001, 4),
    ] {
        bench.ticks(3);
        assert_eq!(bench.device.channels[0].quarters, 3);
        assert_eq!(bench.write_word(0x14, time), 0);
        let channel = &bench.device.channels[0];
        assert_eq!((channel.operating, channel.quarters), (count, 0));
        assert_eq!(channel.kept.operating, count, "{time:08x}");
        assert_eq!(bench.read_word(0x14), reals::from_operating_count(count));
    }
}

/// "Ranges are tested before rounding": what would become 0 from below is
/// refused, and the count stays; a timer takes it.
#[test]
fn ranges_from_0_are_tested_before_rounding() {
    let mut bench = enabled();
    // WDPreset comes first, which WDTimer then holds.
    for swno in [0x0A, 0x08, 0x17, 0x108, 0x14] {
        bench.write_word(swno, reals::ONE);
        for time in [0x8000_0001, 0xBAFF_FFFF, 0xBB00_0000, 0xBB00_0001] {
            assert_eq!(bench.write_word(swno, time), 7, "{swno:x} {time:08x}");
            assert_eq!(bench.read_word(swno), reals::ONE, "{swno:x}");
        }
    }
    assert_eq!(bench.write_word(0x14, 0xBD80_0000), 7);
    for register in TIMERS {
        check(&mut bench, register, 0x8000_0001, 0);
    }
}

/// "no Real inside them rounds past the largest count".
#[test]
fn the_greatest_times_stay_below_the_end() {
    let mut bench = enabled();
    for register in TIMERS.into_iter().chain(PRESETS) {
        check(&mut bench, register, 0x4AFF_FFFF, 2_147_483_520);
        assert_eq!(bench.write_word(register.0, 0x4B00_0000), 7);
    }
    assert_eq!(bench.write_word(0x14, 0x4DFF_FFFF), 0);
    assert_eq!(bench.device.channels[0].operating, 4_294_967_040);
}

/// Judged by its Real and lost, whatever count it would be.
#[test]
fn wd_timer_holds_wd_preset_after_a_time_between_counts() {
    let mut bench = with_watchdog(512);
    for (time, _) in TIMES {
        bench.ticks(1);
        assert_eq!(bench.write_word(0x08, time), 0, "{time:08x}");
        assert_eq!(bench.device.wd_timer, 512);
    }
    bench.protect(0x0A, 0x3E99_999A);
    assert_eq!(bench.device.wd_timer, 77);
}

/// Counts in images are no Reals: each is taken and stored as it stands, also
/// those of more than 24 bits, which no read shows exactly.
#[test]
fn counts_in_images_are_not_rounded() {
    let mut settings = Settings {
        wd_preset: 0x0100_0001,
        ..Settings::default()
    };
    settings.channels[0] = Kept {
        fb_preset: i32::MAX,
        out_preset: 0x7FFF_FFBF,
        operating: 0xFFFF_FF01,
        ..Kept::default()
    };
    let bench = Bench::with(settings);
    assert_eq!(bench.device.channels[0].operating, 0xFFFF_FF01);
    assert_eq!(bench.device.kept(), settings);
}
