//! Change 3: "One sample per terminal."

use super::*;

/// Just above 2 A.
const TRIPPING: Real = reals::TWO + 1;
const MINUS_ZERO: Real = 0x8000_0000;
const FINITE: [Real; 9] = [
    0,
    MINUS_ZERO,
    1,
    reals::ONE,
    reals::TWO,
    TRIPPING,
    0x7F7F_FFFF,
    0xC040_0000,
    0xFF7F_FFFF,
];
const NOT_FINITE: [Real; 6] = [
    0x7F80_0000,
    0xFF80_0000,
    0x7F80_0001,
    0xFF80_0001,
    reals::NAN,
    0xFFFF_FFFF,
];

/// Channel 1 has a ChConfig, an FBPreset of 512 counts, OutFlag and InFlag;
/// FBTimer is at −8, and no error is there.
fn with_flags(config: [u8; 4], out_flag: bool, in_flag: bool) -> Bench {
    let mut bench = Bench::watchdog_off();
    bench.configure(1, config);
    let channel = &mut bench.device.channels[0];
    channel.kept.fb_preset = 512;
    channel.fb_timer = -8;
    channel.counter = 40;
    channel.out_flag = out_flag;
    channel.control = out_flag;
    channel.in_flag = in_flag;
    bench
}

/// What a sample makes of a channel, sentence by sentence.
fn expected(before: &Channel, level: bool, amperes: Real, trips: bool) -> Channel {
    let [enable, _, ref_a, ref_b] = before.kept.config.to_bytes();
    let mut after = *before;
    // "A level sets InFlag unless simulated. Each InFlag 0 to 1 adds 1".
    if enable & 1 == 0 {
        after.counter += i32::from(level && !before.in_flag);
        after.in_flag = level;
    }
    // "A current is stored; above 2 it trips: OutFlag and Control FALSE, and
    // unless Enablebit 6, overload (bit 6 of ChError) is set."
    after.out_current = amperes;
    if trips {
        after.out_flag = false;
        after.control = false;
        if enable & 0x40 == 0 {
            after.act |= 0x40;
            after.his |= 0x40;
        }
    }
    // "when OutFlag changes, FBTimer := FBPreset, and FBStatus := TRUE if a
    // reference is set."
    if before.out_flag && trips {
        after.fb_timer = 512;
        after.fb_status |= ref_a != 0 || ref_b != 0;
    }
    after
}

#[test]
fn a_sample_sets_the_level_and_then_the_current() {
    for enable in [0, 0x01, 0x40, 0x41, 0x04] {
        for functions in [0, 0x10, 0x20] {
            for references in [[0, 0], [1, 0], [0, 1], [2, 3]] {
                let [ref_a, ref_b] = references;
                all_samples([enable, functions, ref_a, ref_b]);
            }
        }
    }
}

/// Every sample on every state of the flags; the rest of the box stays.
fn all_samples(config: [u8; 4]) {
    for flags in 0..8 {
        let [out_flag, in_flag, level] = [1, 2, 4].map(|bit| flags & bit != 0);
        for amperes in FINITE {
            let mut bench = with_flags(config, out_flag, in_flag);
            let mut after = bench.device.clone();
            let trips = [TRIPPING, 0x7F7F_FFFF].contains(&amperes);
            after.channels[0] = expected(&after.channels[0], level, amperes, trips);
            assert_eq!(bench.device.sample(1, level, amperes), 0);
            assert_eq!(bench.device, after, "{config:?} {flags} {amperes:08x}");
        }
    }
}

/// "a refused sample does neither", be its level a rise or a fall.
#[test]
fn a_refused_sample_leaves_the_whole_box() {
    for in_flag in [false, true] {
        let mut bench = with_flags([0, 0x10, 2, 0], true, in_flag);
        let before = bench.device.clone();
        for level in [false, true] {
            for amperes in NOT_FINITE {
                assert_eq!(bench.device.sample(1, level, amperes), 9);
            }
            for amperes in FINITE {
                for channel in [0, 17, 18, 128, 255] {
                    assert_eq!(bench.device.sample(channel, level, amperes), 8);
                }
            }
        }
        assert_eq!(bench.device, before);
    }
    let mut bench = busy();
    let before = bench.device.clone();
    for channel in 0..=255 {
        let number = if (1..=16).contains(&channel) { 9 } else { 8 };
        assert_eq!(bench.device.sample(channel, true, reals::NAN), number);
    }
    assert_eq!(bench.device, before);
}

/// "Its questions are 8, then 9".
#[test]
fn question_8_comes_before_9() {
    let mut bench = Bench::watchdog_off();
    for channel in [0, 17, 255] {
        for amperes in NOT_FINITE {
            for level in [false, true] {
                assert_eq!(bench.device.sample(channel, level, amperes), 8);
            }
        }
    }
}

/// A refused level isn't remembered: the next sample brings the rise.
#[test]
fn a_refused_rise_is_still_to_come() {
    let mut bench = Bench::watchdog_off();
    assert_eq!(bench.device.sample(1, true, reals::NAN), 9);
    assert_eq!(bench.read(0x10, 1), [0]);
    assert_eq!(bench.read_word(0x12), 0);
    assert_eq!(bench.read_word(0x13), 0);
    assert_eq!(bench.device.sample(1, true, reals::ONE), 0);
    assert_eq!(bench.read(0x10, 1), [flag::IN]);
    assert_eq!(bench.read_word(0x12), 1);
    assert_eq!(bench.read_word(0x13), reals::ONE);
}

#[test]
fn every_channel_takes_its_own_sample() {
    for channel in 1..=16 {
        let mut bench = Bench::watchdog_off();
        assert_eq!(bench.device.sample(channel, true, TRIPPING), 0);
        for (other, state) in (1..).zip(bench.device.channels) {
            let reached = i32::from(other == channel);
            assert_eq!(state.counter, reached);
            assert_eq!(state.out_current, TRIPPING * reached as u32);
            assert_eq!(state.act, error::OVERLOAD * reached as u8);
        }
    }
}

/// The trip comes with the same sample as the rise, which still counts.
#[test]
fn a_tripping_sample_counts_its_rise() {
    let mut bench = with_flags([0, 0x10, 2, 0], true, false);
    assert_eq!(bench.device.sample(1, true, TRIPPING), 0);
    assert_eq!(bench.read_word(0x12), 41);
    assert_eq!(
        bench.read(0x10, 1),
        [flag::IN | flag::FB_STATUS | flag::ERROR]
    );
    assert_eq!(bench.read_word(0x16), reals::TWO);
    assert_eq!(bench.read(0x1F, 4), [0x40, 0, 0x40, 0]);
}

#[test]
fn a_simulated_input_drops_the_level_and_takes_the_current() {
    for in_flag in [false, true] {
        let mut bench = with_flags([1, 0x10, 0, 0], true, in_flag);
        assert_eq!(bench.device.sample(1, !in_flag, reals::ONE), 0);
        let channel = bench.device.channels[0];
        assert_eq!((channel.in_flag, channel.counter), (in_flag, 40));
        assert_eq!((channel.out_current, channel.out_flag), (reals::ONE, true));
        assert_eq!(bench.device.sample(1, !in_flag, TRIPPING), 0);
        let channel = bench.device.channels[0];
        assert_eq!((channel.in_flag, channel.counter), (in_flag, 40));
        assert_eq!((channel.out_flag, channel.act), (false, error::OVERLOAD));
    }
}

/// A level that a simulated input dropped is not taken up later.
#[test]
fn a_dropped_level_is_not_remembered() {
    let mut bench = with_flags([1, 0x10, 0, 0], false, false);
    assert_eq!(bench.device.sample(1, true, 0), 0);
    bench.configure(1, [0, 0x10, 0, 0]);
    assert_eq!(bench.read(0x10, 1), [0]);
    assert_eq!(bench.device.sample(1, true, 0), 0);
    assert_eq!(bench.read_word(0x12), 41);
}

/// The same level again is no rise, but the same current trips again.
#[test]
fn the_same_sample_again_counts_nothing_and_trips_again() {
    let mut bench = with_flags([0, 0x10, 0, 0], true, false);
    for _ in 0..3 {
        assert_eq!(bench.device.sample(1, true, TRIPPING), 0);
        let channel = &bench.device.channels[0];
        assert_eq!((channel.counter, channel.out_flag), (41, false));
        assert_eq!((channel.act, channel.fb_timer), (error::OVERLOAD, 512));
        bench.write(0x10, &[flag::OUT]);
        assert_eq!(bench.read(0x10, 1), [flag::OUT | flag::IN]);
        bench.device.channels[0].fb_timer = 7;
    }
    let before = with_flags([0, 0x10, 0, 0], true, true);
    let mut bench = with_flags([0, 0x10, 0, 0], true, true);
    assert_eq!(bench.device.sample(1, true, 0), 0);
    assert_eq!(bench.device, before.device);
}

/// "Writing OutCurrent acts as a current": InFlag and Counter stay, and its
/// question is 7.
#[test]
fn writing_out_current_is_a_current_alone() {
    for in_flag in [false, true] {
        for amperes in FINITE {
            let mut written = with_flags([0, 0x10, 2, 0], true, in_flag);
            let mut sampled = with_flags([0, 0x10, 2, 0], true, in_flag);
            assert_eq!(written.write_word(0x13, amperes), 0);
            assert_eq!(sampled.device.sample(1, in_flag, amperes), 0);
            assert_eq!(written.device, sampled.device, "{amperes:08x}");
            assert_eq!(written.device.channels[0].counter, 40);
        }
        let mut bench = with_flags([0, 0x10, 2, 0], true, in_flag);
        let before = bench.device.clone();
        for amperes in NOT_FINITE {
            assert_eq!(bench.write_word(0x13, amperes), 7);
        }
        assert_eq!(bench.device, before);
    }
}

/// "a current −0 is kept as −0".
#[test]
fn minus_zero_is_kept() {
    let mut bench = Bench::watchdog_off();
    assert_eq!(bench.device.sample(1, false, MINUS_ZERO), 0);
    assert_eq!(bench.read_word(0x13), MINUS_ZERO);
}
