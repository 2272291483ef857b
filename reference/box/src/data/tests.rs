//! Change 1: the data channel's registers, as calls and ticks see them.

use super::*;
use crate::bench::Bench;
use crate::tick::LAST_OF_SAVE;
use crate::ChannelBox;

const REAL_A: u16 = 0x130;
const REAL_B: u16 = 0x131;
const TIMERS: [u16; 2] = [0x13A, 0x13B];
const TABLES: [u16; 2] = [0x13C, 0x13D];
const WRITE_ENABLE: u16 = 0x0D;

/// 80 bytes that are all different Reals.
fn some_table() -> [u8; TABLE_LENGTH] {
    let mut bytes = [0; TABLE_LENGTH];
    for (index, byte) in bytes.iter_mut().enumerate() {
        *byte = index as u8 + 1;
    }
    bytes
}

fn reset(bench: &mut Bench) {
    assert_eq!(bench.write(0x03, &[0xFF]), 0);
}

/// Brings the box to a tick before the save, then ticks.
fn go_through_save(bench: &mut Bench) {
    bench.device.save_count = LAST_OF_SAVE;
    bench.ticks(1);
    assert_eq!(bench.device.save_count, 0);
}

/// "written Reals are finite"; their bits are kept as they are, −0 too.
#[test]
fn reals_read_back_what_was_written() {
    let mut bench = Bench::watchdog_off();
    for swno in [REAL_A, REAL_B] {
        for real in [0x3F80_0000, 0x8000_0000, 1, 0x807F_FFFF, 0x7F7F_FFFF, 0] {
            assert_eq!(bench.write_word(swno, real), 0);
            assert_eq!(bench.read_word(swno), real);
        }
        bench.write_word(swno, 5);
        for real in [0x7F80_0000, 0xFF80_0000, 0x7FC0_0000, 0xFF80_0001] {
            assert_eq!(bench.write_word(swno, real), 7);
            assert_eq!(bench.read_word(swno), 5);
        }
    }
}

/// RealA "kept every ten hours and as RealB", RealB "kept when written with
/// WriteEnable".
#[test]
fn reals_are_kept_when_written_with_write_enable() {
    let mut bench = Bench::watchdog_off();
    bench.write_word(REAL_A, 1);
    bench.write_word(REAL_B, 2);
    assert_eq!(bench.device.kept().data, KeptData::default());
    bench.write(WRITE_ENABLE, &[1]);
    assert_eq!(bench.device.kept().data, KeptData::default());
    bench.write_word(REAL_A, 3);
    bench.write_word(REAL_B, 4);
    bench.write_word(REAL_B, 0x7F80_0000);
    bench.write(WRITE_ENABLE, &[0]);
    bench.write_word(REAL_A, 5);
    bench.write_word(REAL_B, 6);
    let kept = bench.device.data.kept;
    assert_eq!((kept.real_a, kept.real_b), (3, 4));
    reset(&mut bench);
    assert_eq!((bench.read_word(REAL_A), bench.read_word(REAL_B)), (3, 4));
}

/// The save keeps RealA, whatever WriteEnable is, and RealB not.
#[test]
fn the_ten_hour_save_keeps_real_a_alone() {
    for enable in [0, 1] {
        let mut bench = Bench::watchdog_off();
        bench.write_word(REAL_A, 1);
        bench.write_word(REAL_B, 2);
        bench.write(WRITE_ENABLE, &[enable]);
        bench.device.save_count = LAST_OF_SAVE - 1;
        bench.ticks(1);
        assert_eq!(bench.device.data.kept, KeptData::default());
        bench.ticks(1);
        let kept = bench.device.data.kept;
        assert_eq!((kept.real_a, kept.real_b), (1, 0));
        reset(&mut bench);
        assert_eq!((bench.read_word(REAL_A), bench.read_word(REAL_B)), (1, 0));
    }
}

#[test]
fn a_save_changes_no_working_value() {
    let mut bench = Bench::watchdog_off();
    bench.write_word(REAL_A, 1);
    bench.write_word(REAL_B, 2);
    go_through_save(&mut bench);
    assert_eq!((bench.read_word(REAL_A), bench.read_word(REAL_B)), (1, 2));
}

/// "TimerA and TimerB as OutTimer".
#[test]
fn timers_are_written_and_read_as_out_timer() {
    let mut bench = Bench::watchdog_off();
    for swno in TIMERS {
        let reals = [0x3F80_0000, 0xBB80_0000, 0x3BFF_FFFF, 0x8000_0001];
        let ends = [0xCB00_0000, 0x4AFF_FFFF, 0x8000_0000];
        for real in reals.into_iter().chain(ends) {
            assert_eq!(bench.write_word(swno, real), 0);
            assert_eq!(bench.write_word(0x11, real), 0);
            assert_eq!(bench.read_word(swno), bench.read_word(0x11));
        }
        for real in [0x4B00_0000, 0xCB00_0001, 0x7F80_0000, 0x7FC0_0000] {
            assert_eq!(bench.write_word(swno, real), 7);
        }
    }
}

#[test]
fn timers_count_and_wrap_as_out_timer() {
    let mut bench = Bench::watchdog_off();
    bench.write_word(TIMERS[0], 0xCB00_0000);
    bench.write_word(TIMERS[1], 0x3D80_0000);
    bench.ticks(1);
    let data = bench.device.data;
    assert_eq!((data.timer_a, data.timer_b), (2_147_483_640, 8));
    bench.ticks(3);
    assert_eq!(bench.device.data.timer_b, -16);
    assert_eq!(bench.read_word(TIMERS[1]), reals::from_timer_count(-16));
}

/// They count whatever the digital channels and the watchdog do.
#[test]
fn timers_count_while_the_watchdog_has_run_out() {
    let mut device = ChannelBox::default();
    for _ in 0..5 {
        device.tick();
    }
    assert_eq!((device.data.timer_a, device.data.timer_b), (-40, -40));
}

/// Manual: "The timer registers are cleared after a power failure or reset."
#[test]
fn timers_stand_in_no_image() {
    let mut bench = Bench::watchdog_off();
    bench.write(WRITE_ENABLE, &[1]);
    for swno in TIMERS {
        bench.write_word(swno, reals::ONE);
    }
    assert_eq!(bench.device.kept().data, KeptData::default());
    go_through_save(&mut bench);
    reset(&mut bench);
    let data = bench.device.data;
    assert_eq!((data.timer_a, data.timer_b), (0, 0));
}

/// "LookUp1 and LookUp2, protected": kept at once, byte for byte.
#[test]
fn tables_are_kept_at_once() {
    let mut bench = Bench::watchdog_off();
    bench.write(WRITE_ENABLE, &[1]);
    let (one, two) = (some_table(), some_table().map(|byte| byte ^ 0x80));
    assert_eq!(bench.write(TABLES[0], &one), 0);
    assert_eq!(bench.write(TABLES[1], &two), 0);
    let kept = bench.device.kept().data;
    let [x, y] = [0x0102_0304, 0x0506_0708];
    assert_eq!(kept.tables[0].0[0], Pair { x, y });
    assert_eq!(kept.tables[0].0[9].y, 0x4D4E_4F50);
    reset(&mut bench);
    assert_eq!(bench.read(TABLES[0], 80), one);
    assert_eq!(bench.read(TABLES[1], 80), two);
}

#[test]
fn a_refused_table_changes_nothing() {
    let mut bench = Bench::watchdog_off();
    bench.write(WRITE_ENABLE, &[1]);
    bench.write(TABLES[0], &some_table());
    let before = bench.device.clone();
    for length in [0, 4, 79, 81, 160] {
        assert_eq!(bench.write(TABLES[0], &vec![0; length]), 4);
    }
    for place in 0..20 {
        for real in [0x7F80_0000_u32, 0xFF80_0000, 0x7FC0_0000, 0xFFFF_FFFF] {
            let mut bytes = some_table();
            bytes[4 * place..4 * place + 4].copy_from_slice(&real.to_be_bytes());
            assert_eq!(bench.write(TABLES[0], &bytes), 7, "{place}");
        }
    }
    assert_eq!(bench.device, before);
}

#[test]
fn a_table_is_asked_4_then_6_then_7() {
    let mut bench = Bench::watchdog_off();
    for swno in TABLES {
        assert_eq!(bench.write(swno, &[0xFF; 79]), 4);
        assert_eq!(bench.write(swno, &[0xFF; 80]), 6);
        assert_eq!(bench.write(swno, &[0; 80]), 6);
    }
    bench.write(WRITE_ENABLE, &[1]);
    assert_eq!(bench.write(TABLES[1], &[0xFF; 80]), 7);
}

/// "Installers keep X rising": nothing asks it.
#[test]
fn a_table_that_does_not_rise_is_accepted() {
    let mut bench = Bench::watchdog_off();
    bench.write(WRITE_ENABLE, &[1]);
    let mut bytes = some_table();
    bytes.reverse();
    assert_eq!(bench.write(TABLES[0], &bytes), 0);
    assert_eq!(bench.write(TABLES[1], &[0; 80]), 0);
}

#[test]
fn reads_want_the_whole_length() {
    let mut bench = Bench::watchdog_off();
    for (swno, length) in [(REAL_A, 4), (REAL_B, 4), (0x13A, 4), (0x13B, 4)]
        .into_iter()
        .chain([(0x13C, 80), (0x13D, 80)])
    {
        let mut short = vec![0xA5; length - 1];
        let answer = bench.device.read(swno, &mut short);
        assert_eq!((answer.number, answer.length), (5, 0));
        assert!(short.iter().all(|&byte| byte == 0xA5));
        let mut long = vec![0xA5; length + 1];
        let answer = bench.device.read(swno, &mut long);
        assert_eq!((answer.number, answer.length), (0, length));
        assert_eq!(long[length], 0xA5);
    }
}

/// There is no ChError: a data call sets nothing in any error register.
#[test]
fn data_calls_set_no_error() {
    let mut bench = Bench::watchdog_off();
    bench.write(0x0F, &[0; 12]);
    for (swno, bytes) in [(REAL_A, vec![0xFF; 4]), (0x13C, vec![0; 80])] {
        let answer = bench.device.write(swno, &bytes);
        assert_ne!(answer.number, 0);
        assert!(!answer.data_error && !answer.general_error);
    }
    bench.device.lookup(0, 0);
    bench.device.lookup(1, reals::NAN);
    bench.ticks(4);
    assert_eq!(bench.read(0x0F, 12), [0; 12]);
}

/// "a number that a change adds to the box acts, where it is [...] not finite,
/// as it stands after a refused power-up"; read and stored it stands as it is,
/// a NaN as $7FC00000.
#[test]
fn box_values_that_are_not_finite_stand() {
    let mut bench = Bench::watchdog_off();
    bench.device.data.real_a = 0xFF80_0000;
    bench.device.data.kept.real_b = 0x7F80_0000;
    bench.device.data.kept.tables[1].0[9].y = 0xFFFF_FFFF;
    assert_eq!(bench.read_word(REAL_A), 0xFF80_0000);
    assert_eq!(bench.read(TABLES[1], 80)[76..], [0x7F, 0xC0, 0, 0]);
    go_through_save(&mut bench);
    reset(&mut bench);
    assert_eq!(bench.read_word(REAL_A), 0xFF80_0000);
    assert_eq!(bench.read_word(REAL_B), 0x7F80_0000);
}
