//! "Slips at the well head": each is avoided.

use crate::bench::Bench;
use crate::channel::{error, flag};
use crate::reals;

/// "Letting the feedback rule clear His: the manual's fragment does, its
/// general rule doesn't, and the latter holds."
#[test]
fn the_feedback_rule_leaves_his() {
    let mut bench = Bench::watchdog_off();
    bench.configure(1, [1, 0x10, 2, 0]);
    bench.device.sample(2, true, 0);
    bench.ticks(4);
    assert_eq!(bench.device.channels[0].act, error::FEEDBACK);
    bench.device.sample(2, false, 0);
    bench.ticks(4);
    assert_eq!(bench.device.channels[0].act, 0);
    assert_eq!(bench.device.channels[0].his, error::FEEDBACK);
}

/// "Adding 0.125 to a 32-bit Real, which sticks at 2097152 s."
#[test]
fn operating_time_goes_on_past_2097152_seconds() {
    let mut bench = Bench::watchdog_off();
    assert_eq!(bench.write_word(0x14, 0x4A00_0000), 0);
    bench.device.sample(1, true, 0);
    bench.ticks(4);
    assert_eq!(bench.device.channels[0].operating, 16_777_217);
    assert_eq!(bench.read_word(0x14), 0x4A00_0000);
    bench.ticks(4);
    assert_eq!(bench.read_word(0x14), 0x4A00_0001);
}

/// "Reloading a one-shot whose Control fell by overload and rose again before
/// a tick: InternalState saw no edge."
#[test]
fn a_one_shot_is_not_reloaded_without_an_edge_seen() {
    let mut bench = Bench::watchdog_off();
    bench.configure(1, [0, 0x20, 0, 0]);
    bench.protect(0x18, reals::ONE);
    bench.write(0x10, &[flag::CONTROL]);
    bench.ticks(3);
    assert_eq!(bench.device.channels[0].out_timer, 240);
    bench.device.sample(1, false, 0x4040_0000);
    assert!(!bench.device.channels[0].control);
    bench.device.sample(1, false, 0);
    bench.write(0x10, &[flag::CONTROL]);
    bench.ticks(1);
    assert_eq!(bench.device.channels[0].out_timer, 232);
    assert!(bench.device.channels[0].out_flag);
}
