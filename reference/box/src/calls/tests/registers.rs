//! The registers as they read and as they are written.

use super::*;

#[test]
fn service_registers_read_as_listed() {
    let mut bench = with_watchdog(256);
    assert_eq!(bench.read(0x00, 2), [0x01, 0x3F]);
    assert_eq!(bench.read(0x03, 1), [0]);
    bench.ticks(3);
    assert_eq!(bench.read(0x07, 4), [0, 0, 0, 24]);
    assert_eq!(bench.read_word(0x0A), reals::ONE);
    bench.write(0x0D, &[1]);
    assert_eq!(bench.read(0x0D, 1), [1]);
    assert_eq!(bench.write(0x09, &[1, 0x10, 0xFF, 7]), 0);
    assert_eq!(bench.read(0x09, 4), [1, 0x10, 0xFF, 7]);
}

#[test]
fn digital_registers_read_back_what_was_written() {
    let mut bench = Bench::watchdog_off();
    bench.write(0x0D, &[1]);
    let values: [(u16, &[u8]); 12] = [
        (0xF1, &[0xC0, 0, 0, 0]),
        (0xF2, &[0x80, 0, 0, 1]),
        (0xF3, &[0x80, 0, 0, 0]),
        (0xF4, &[0x3E, 0, 0, 0]),
        (0xF5, &[9, 8, 7, 6]),
        (0xF6, &[0xCB, 0, 0, 0]),
        (0xF7, &[0x3F, 0x80, 0, 0]),
        (0xF8, &[0x40, 0x40, 0, 0]),
        (0xF9, &[0xFF, 0x50, 16, 15]),
        (0xFA, &[0x80, 0, 0, 0]),
        (0xFC, &[0xFF; 8]),
        (0xFD, &[31, 12, 93, 1]),
    ];
    for (swno, bytes) in values {
        assert_eq!(bench.write(swno, bytes), 0, "{swno:x}");
        assert_eq!(bench.read(swno, bytes.len()), bytes, "{swno:x}");
    }
}

#[test]
fn minus_zero_times_become_zero() {
    let mut bench = Bench::watchdog_off();
    bench.write(0x0D, &[1]);
    for swno in [0x11, 0x14, 0x16, 0x17, 0x18, 0x0A] {
        assert_eq!(bench.write_word(swno, 0x8000_0000), 0);
        assert_eq!(bench.read_word(swno), 0, "{swno:x}");
    }
}

#[test]
fn a_nan_current_reads_as_one_pattern() {
    let mut bench = Bench::watchdog_off();
    bench.device.channels[0].out_current = 0xFF80_0001;
    assert_eq!(bench.read_word(0x13), reals::NAN);
}

#[test]
fn writing_out_current_acts_as_a_current() {
    let mut bench = Bench::watchdog_off();
    bench.configure(1, [0, 0x10, 0, 0]);
    bench.write(0x10, &[flag::OUT]);
    bench.write_word(0x13, 0x4000_0001);
    assert_eq!(bench.read(0x10, 1), [flag::ERROR]);
    assert_eq!(bench.device.channels[0].act, error::OVERLOAD);
}

#[test]
fn out_flags_and_in_flags_reach_every_channel() {
    let mut bench = Bench::watchdog_off();
    bench.configure(16, [1, 0x10, 0, 0]);
    bench.write(0x110, &[0x80, 0x01]);
    assert_eq!(bench.read(0x110, 2), [0x80, 0x00]);
    assert_eq!(bench.device.channels[0].act, error::PRG_ERROR);
    bench.write(0x111, &[0xFF, 0xFF]);
    assert_eq!(bench.read(0x111, 2), [0x80, 0x00]);
    assert_eq!(bench.device.channels[15].counter, 1);
}
