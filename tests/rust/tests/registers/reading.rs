//! What a read changes: the errors that it acknowledges, and WDTimer.

use crate::boxes::{enabled, number, read, ticks, write};
use crate::data::{register, registers, Row};
use pd3120::registers::*;
use pd3120::Pd3120;

const CHANNEL: &str = "acknowledges the channel: its His := its Act";
const SERVICE: &str = "acknowledges the service channel: its His := its Act";

/// Every channel has a PrgError that is over and an overload that is not; the
/// service channel has a power-up, and channel errors; the watchdog has 8 s of its
/// 10 left.
fn with_errors() -> Pd3120 {
    let mut module = enabled();
    write(&mut module, SWNO_WD_PRESET, &10_f32.to_be_bytes());
    for channel in 1..=CHANNELS {
        write(&mut module, swno(channel, REG_FLAG_REG), &[0x80]);
        write(&mut module, swno(channel, REG_FLAG_REG), &[0]);
        module.sample(channel, false, 2.5).expect("a channel");
    }
    ticks(&mut module, 64);
    module
}

/// The registers that read otherwise after a call, each read alone. WDTimer is
/// looked at by itself.
fn changed(before: &Pd3120, after: &Pd3120) -> Vec<u16> {
    let mut swnos: Vec<u16> = registers().iter().flat_map(Row::swnos).collect();
    swnos.retain(|&swno| swno != SWNO_WD_TIMER);
    swnos.retain(|&swno| read(before, swno) != read(after, swno));
    swnos
}

fn after_read(before: &Pd3120, swno: u16) -> Pd3120 {
    let mut after = before.clone();
    assert_eq!(number(after.read(swno, &mut [0; 80])), 0, "${swno:X}");
    after
}

#[test]
fn a_read_changes_what_the_row_says() {
    let before = with_errors();
    for row in registers() {
        for swno in row.swnos() {
            let after = after_read(&before, swno);
            let expected = if row.reading == "-" {
                vec![]
            } else {
                vec![swno]
            };
            assert_eq!(changed(&before, &after), expected, "{row:?}");
            assert_eq!(before.image(), after.image(), "{row:?}");
        }
    }
}

/// His becomes Act, and Act stays.
#[test]
fn an_acknowledged_his_is_act() {
    let before = with_errors();
    for row in registers().iter().filter(|row| row.reading != "-") {
        assert_eq!(
            row.reading,
            if row.of == "service" {
                SERVICE
            } else {
                CHANNEL
            }
        );
        for swno in row.swnos() {
            let (old, new) = (read(&before, swno), read(&after_read(&before, swno), swno));
            assert_ne!(old[0], old[2], "there is something to acknowledge: {row:?}");
            assert_eq!((new[0], new[2]), (old[2], old[2]), "{row:?}");
            assert_eq!(new[3..], old[3..], "{row:?}");
        }
    }
}

/// A write of CommonError acknowledges the service channel and all digital ones.
#[test]
fn a_write_of_common_error_acknowledges_all() {
    let mut module = with_errors();
    write(&mut module, SWNO_COMMON_ERROR, &[0; SIZE_COMMON_ERROR]);
    let errors = [register("COMMON_ERROR"), register("CH_ERROR")];
    for swno in errors.iter().flat_map(Row::swnos) {
        let bytes = read(&module, swno);
        assert_eq!(bytes[0], bytes[2], "${swno:X}");
        assert_ne!(bytes[2], 0, "${swno:X}");
    }
}

fn wd_timer(module: &Pd3120) -> Vec<u8> {
    read(module, SWNO_WD_TIMER)
}

/// Of every SWNo, done or refused.
#[test]
fn every_wire_call_starts_the_watchdog_anew() {
    let before = with_errors();
    assert_eq!(wd_timer(&before), 8_f32.to_be_bytes());
    for swno in 0..=0x150 {
        for room in [0, 1, 4, 80] {
            let mut module = before.clone();
            let _ = module.read(swno, &mut vec![0; room]);
            assert_eq!(wd_timer(&module), 10_f32.to_be_bytes(), "read of ${swno:X}");
        }
        for bytes in [&[][..], &[1], &[0; 4]] {
            let mut module = before.clone();
            let _ = module.write(swno, bytes);
            let expected = read(&module, SWNO_WD_PRESET);
            assert_eq!(wd_timer(&module), expected, "write of ${swno:X}");
        }
    }
}

/// And no other call does.
#[test]
fn no_sample_starts_the_watchdog_anew() {
    let mut module = with_errors();
    module.sample(4, true, 0.0).expect("a channel");
    module.set_minute(0).expect("a minute");
    module.set_windows(4, &[]).expect("a channel");
    module.look_up(1, 0.0).expect("a table");
    assert_eq!(wd_timer(&module), 8_f32.to_be_bytes());
}
