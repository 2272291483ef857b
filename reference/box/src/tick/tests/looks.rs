//! Step 5: looks at the feedback, at every fourth tick.

use super::*;

#[test]
fn step_5_looks_at_out_flag_after_the_trip() {
    let mut channel = with_channel([0, 0x10, 1, 0]);
    channel.out_flag = true;
    channel.out_current = reals::ONE;
    channel.tick(false, true, 0b0);
    assert!(!channel.out_flag && !channel.fb_status);
}

#[test]
fn step_5_looks_at_out_flag_not_output() {
    let mut channel = with_channel([0, 0, 1, 0]);
    channel.out_flag = true;
    channel.tick(false, true, 0b1);
    assert!(!channel.fb_status);
}

#[test]
fn looks_come_every_fourth_tick() {
    let mut bench = Bench::watchdog_off();
    bench.configure(1, [0, 0x10, 2, 0]);
    bench.device.sample(2, true, 0);
    let mut seen = Vec::new();
    for tick in 1..=13 {
        bench.device.channels[0].fb_status = false;
        bench.ticks(1);
        if bench.device.channels[0].fb_status {
            seen.push(tick);
        }
    }
    assert_eq!(seen, [4, 8, 12]);
}

#[test]
fn a_look_judges_both_references() {
    // Ref_A is channel 1, Ref_B channel 2.
    for (out_flag, in_flags, wrong) in [
        (false, 0b00, true),
        (false, 0b01, true),
        (false, 0b10, false),
        (false, 0b11, true),
        (true, 0b00, true),
        (true, 0b01, false),
        (true, 0b10, true),
        (true, 0b11, true),
    ] {
        let mut channel = with_channel([0, 0x10, 1, 2]);
        channel.out_flag = out_flag;
        channel.tick(false, true, in_flags);
        assert_eq!(channel.fb_status, wrong, "{out_flag} {in_flags:02b}");
    }
}

#[test]
fn without_a_reference_a_look_finds_nothing_wrong() {
    let mut channel = with_channel([0, 0x10, 0, 0]);
    channel.out_flag = true;
    channel.fb_status = true;
    channel.tick(false, true, 0xFFFF);
    assert!(!channel.fb_status);
}

#[test]
fn simulated_feedback_is_never_wrong_at_a_look() {
    let mut channel = with_channel([4, 0x10, 1, 2]);
    for out_flag in [true, false] {
        channel.out_flag = out_flag;
        channel.fb_status = true;
        channel.tick(false, true, 0b11);
        assert!(!channel.fb_status);
    }
}
