//! "The proved table", row by row.

use crate::bench::Bench;
use crate::channel::flag;
use crate::reals;

const OUT_TIMER: u16 = 0x11;
const FB_TIMER: u16 = 0x16;

/// The channel after each of `ticks` ticks with Control written: its OutFlag.
fn run(functions: u8, out_preset: u32, ticks: usize) -> Vec<bool> {
    let mut bench = Bench::watchdog_off();
    bench.configure(1, [0, functions, 0, 0]);
    bench.protect(0x18, out_preset);
    bench.write(0x10, &[flag::CONTROL]);
    let after_each = std::iter::repeat_with(|| {
        bench.ticks(1);
        bench.device.channels[0].output()
    });
    after_each.take(ticks).collect()
}

/// $3D800000 is 1/16 s, a count of 16.
const COUNT_16: u32 = 0x3D80_0000;

#[test]
fn row_1_one_second_writes_256() {
    assert_eq!(reals::to_timer_count(0x3F80_0000), 256);
}

#[test]
fn row_2_one_256th_writes_1() {
    assert_eq!(reals::to_timer_count(0x3B80_0000), 1);
}

#[test]
fn row_3_count_minus_1_reads_bb800000() {
    assert_eq!(reals::from_timer_count(-1), 0xBB80_0000);
}

#[test]
fn row_4_2147483520_reads_4affffff() {
    assert_eq!(reals::from_timer_count(2_147_483_520), 0x4AFF_FFFF);
}

#[test]
fn row_5_2147483584_reads_4b000000() {
    assert_eq!(reals::from_timer_count(2_147_483_584), 0x4B00_0000);
}

#[test]
fn row_6_4b000000_to_out_timer_is_refused() {
    let mut bench = Bench::watchdog_off();
    assert_eq!(bench.write_word(OUT_TIMER, 0x4B00_0000), 7);
}

#[test]
fn row_7_cb000000_gives_the_lowest_count() {
    let mut bench = Bench::watchdog_off();
    assert_eq!(bench.write_word(OUT_TIMER, 0xCB00_0000), 0);
    assert_eq!(bench.device.channels[0].out_timer, -2_147_483_648);
}

#[test]
fn row_8_a_tick_wraps_out_timer_and_leaves_fb_timer() {
    let mut bench = Bench::watchdog_off();
    bench.write_word(OUT_TIMER, 0xCB00_0000);
    bench.write_word(FB_TIMER, 0xCB00_0000);
    bench.ticks(1);
    assert_eq!(bench.device.channels[0].out_timer, 2_147_483_640);
    assert_eq!(bench.device.channels[0].fb_timer, -2_147_483_648);
}

#[test]
fn row_9_one_shot() {
    assert_eq!(run(0x20, COUNT_16, 4), [true, true, false, false]);
}

#[test]
fn row_10_duty_cycle() {
    let expected = [true, true, false, false, true, true, false];
    assert_eq!(run(0x30, COUNT_16, 7), expected);
}

#[test]
fn row_11_duty_cycle_of_out_preset_0() {
    assert_eq!(run(0x30, 0, 4), [false, true, false, true]);
}
