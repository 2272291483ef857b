//! What a wire call does beside its own work: the watchdog and the two bits.

use super::*;

#[test]
fn a_wire_call_presets_the_watchdog_and_clears_act_bit_3() {
    let mut bench = with_watchdog(8);
    for refused in [false, true] {
        bench.ticks(1);
        assert_eq!((bench.device.act, bench.device.wd_timer), (RUN_OUT, 0));
        let swno = if refused { 0xFFFF } else { 0x00 };
        let (answer, _) = read_into(&mut bench, swno, 2);
        assert_eq!(answer.number, u8::from(refused));
        assert!(!answer.data_error && answer.general_error);
        assert_eq!((bench.device.act, bench.device.wd_timer), (0, 8));
    }
}

#[test]
fn a_write_clears_act_bit_3_too() {
    let mut bench = with_watchdog(8);
    for (swno, number) in [(0x110, 0), (0x00, 3)] {
        bench.ticks(1);
        let answer = bench.device.write(swno, &[0; 2]);
        assert_eq!((answer.number, answer.data_error), (number, false));
        assert_eq!((bench.device.act, bench.device.wd_timer), (0, 8));
    }
}

#[test]
fn samples_and_ticks_neither_clear_nor_preset() {
    let mut bench = with_watchdog(8);
    bench.ticks(1);
    for amperes in [0, reals::TWO + 1] {
        assert_eq!(bench.device.sample(1, true, amperes), 0);
        assert_eq!(bench.device.sample(17, true, amperes), 8);
    }
    assert_eq!(bench.device.sample(1, false, reals::NAN), 9);
    bench.device.store(&mut [0; image::LENGTH]);
    bench.device.lookup(1, 0);
    assert_eq!((bench.device.act, bench.device.wd_timer), (RUN_OUT, 0));
}

#[test]
fn the_bits_of_a_read_are_taken_before_its_acknowledgement() {
    let mut bench = Bench::watchdog_off();
    let (answer, _) = read_into(&mut bench, 0x0F, 12);
    assert!(answer.general_error && !answer.data_error);
    let (answer, _) = read_into(&mut bench, 0x0F, 12);
    assert!(!answer.general_error);
    bench.device.channels[3].his = 1;
    let (answer, _) = read_into(&mut bench, 0x4F, 4);
    assert!(answer.general_error);
    let (answer, _) = read_into(&mut bench, 0x4F, 4);
    assert!(!answer.general_error);
}

#[test]
fn the_bits_of_a_write_are_taken_after_it() {
    let mut bench = Bench::watchdog_off();
    let answer = bench.device.write(0x0F, &[0; 12]);
    assert!(!answer.general_error && !answer.data_error);
    let answer = bench.device.write(0x10, &[flag::OUT]);
    assert!(answer.general_error && answer.data_error);
    let answer = bench.device.write(0x10, &[0]);
    assert!(answer.general_error && !answer.data_error);
    assert_eq!((answer.number, answer.length), (0, 0));
}

#[test]
fn a_read_of_wd_timer_gives_the_count_left() {
    let mut bench = with_watchdog(512);
    bench.ticks(2);
    assert_eq!(bench.read_word(0x08), reals::from_timer_count(496));
    assert_eq!(bench.read_word(0x08), reals::from_timer_count(512));
}

#[test]
fn a_written_wd_timer_is_judged_and_lost() {
    let mut bench = with_watchdog(512);
    bench.ticks(1);
    assert_eq!(bench.write_word(0x08, reals::ONE), 0);
    assert_eq!(bench.device.wd_timer, 512);
    assert_eq!(bench.write_word(0x08, reals::TIMER_END), 7);
    assert_eq!(bench.write_word(0x08, 0xBF80_0000), 7);
}

#[test]
fn a_written_wd_preset_presets_in_the_same_call() {
    let mut bench = with_watchdog(512);
    bench.protect(0x0A, reals::ONE);
    assert_eq!(bench.device.wd_timer, 256);
}
