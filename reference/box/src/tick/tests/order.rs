//! Change 7: "Do the channel work from 16 to 1. Registers, flags and errors
//! after the tick must come out equal to before."

mod corners;
mod scripts;

use super::*;
use crate::tick::wrong::orders::Order;

/// Channels 1 and 16, both outputs that name each other as Ref_A, in a box with
/// the watchdog off.
fn pair() -> Bench {
    let mut bench = Bench::watchdog_off();
    bench.configure(1, [0, 0x10, 16, 0]);
    bench.configure(16, [0, 0x10, 1, 0]);
    bench
}

/// FBStatus of channels 1 and 16, as FlagReg shows it.
fn statuses(bench: &mut Bench) -> [bool; 2] {
    [0x10, 0x100].map(|swno| bench.read(swno, 1)[0] & flag::FB_STATUS != 0)
}

/// The box after the tick that looks, the fourth since power-up: the model's,
/// and the one whose ticks go from 1 to 16.
fn look_both_ways(bench: &Bench) -> [Bench; 2] {
    let model: fn(&mut ChannelBox) = ChannelBox::tick;
    [model, |device| device.tick_in_order(Order::NearEndFirst)].map(|tick| {
        let mut device = bench.device.clone();
        while device.free_run_timer < LOOK {
            tick(&mut device);
        }
        Bench { device }
    })
}

/// Each is judged by the InFlag of the other, and never by its OutFlag.
#[test]
fn a_pair_at_both_ends_is_judged_by_the_in_flags_of_the_ticks_start() {
    const NO: bool = false;
    const YES: bool = true;
    // InFlag and OutFlag of channel 1, then of 16; then FBStatus of both.
    for (first, last, expected) in [
        ([NO, NO], [NO, NO], [NO, NO]),
        ([NO, NO], [NO, YES], [NO, YES]),
        ([NO, NO], [YES, NO], [YES, NO]),
        ([NO, NO], [YES, YES], [YES, YES]),
        ([NO, YES], [NO, NO], [YES, NO]),
        ([NO, YES], [NO, YES], [YES, YES]),
        ([NO, YES], [YES, NO], [NO, NO]),
        ([NO, YES], [YES, YES], [NO, YES]),
        ([YES, NO], [NO, NO], [NO, YES]),
        ([YES, NO], [NO, YES], [NO, NO]),
        ([YES, NO], [YES, NO], [YES, YES]),
        ([YES, NO], [YES, YES], [YES, NO]),
        ([YES, YES], [NO, NO], [YES, YES]),
        ([YES, YES], [NO, YES], [YES, NO]),
        ([YES, YES], [YES, NO], [NO, YES]),
        ([YES, YES], [YES, YES], [NO, NO]),
    ] {
        let mut bench = pair();
        for (channel, [in_flag, out_flag]) in [(1, first), (16, last)] {
            bench.device.sample(channel, in_flag, 0);
            bench.write(u16::from(channel) * 0x10, &[u8::from(out_flag) << 7]);
        }
        for mut bench in look_both_ways(&bench) {
            assert_eq!(statuses(&mut bench), expected, "{first:?} {last:?}");
        }
    }
}

/// Channel 16 trips in the tick that looks. Channel 1 sees nothing of it: InFlag
/// of channel 16 is still TRUE.
#[test]
fn an_output_that_trips_at_the_look_is_not_seen_by_its_pair() {
    let mut bench = pair();
    bench.device.sample(1, true, 0);
    bench.device.sample(16, true, 0);
    bench.write(0x110, &[0x80, 0x01]);
    bench.ticks(3);
    bench.device.sample(16, true, HALF_AMPERE);
    let errors = error::OVERLOAD | error::EXTERNAL_SHORT_CIRCUIT | error::INTERNAL_SHORT_CIRCUIT;
    for mut bench in look_both_ways(&bench) {
        assert_eq!(bench.read(0x110, 2), [0x00, 0x01]);
        assert_eq!(statuses(&mut bench), [false, true]);
        assert_eq!(bench.read(0x1F, 4), [0, 0, 0, 0]);
        assert_eq!(bench.read(0x10F, 4), [errors, 0, errors, 0]);
    }
}

/// The save takes both ends, and all channels between them.
#[test]
fn the_save_keeps_the_counts_of_all_sixteen() {
    let mut bench = Bench::watchdog_off();
    for (channel, count) in bench.device.channels.iter_mut().zip(1..) {
        channel.counter = -count;
        channel.operating = count.unsigned_abs();
    }
    bench.device.save_count = LAST_OF_SAVE;
    bench.ticks(1);
    let kept = bench.device.channels.map(|channel| channel.kept);
    for (kept, count) in kept.iter().zip(1_i32..) {
        assert_eq!((kept.counter, kept.operating), (-count, count.unsigned_abs()));
    }
}
