//! The unit of each row: what a second, an ampere and a pulse are.

use crate::boxes::{configured, read, ticks, unwatched, write};
use crate::data::{registers, Row};
use pd3120::registers::*;
use pd3120::Pd3120;

const SECOND: usize = 32; // ticks

fn real(module: &Pd3120, swno: u16) -> f32 {
    let bytes = read(module, swno).try_into().expect("four bytes");
    f32::from_be_bytes(bytes)
}

fn channel_of(swno: u16) -> u8 {
    (swno >> 4) as u8
}

/// A register that was 10 s is this after a second.
fn after_a_second(mut module: Pd3120, swno: u16) -> f32 {
    write(&mut module, swno, &10_f32.to_be_bytes());
    ticks(&mut module, SECOND);
    real(&module, swno)
}

/// A channel that is an output with simulated input, and a register of it that is
/// written.
fn output_with(channel: u8, register: u8, value: f32) -> Pd3120 {
    let config = [
        ENABLE_SIMULATED_INPUT | ENABLE_UNDERLOAD,
        FUNCTIONS_OUTPUT,
        0,
        0,
    ];
    let mut module = configured(channel, config);
    write(&mut module, swno(channel, register), &value.to_be_bytes());
    write(&mut module, swno(channel, REG_FLAG_REG), &[FLAG_OUT_FLAG]);
    module
}

/// Act of a channel whose output is on, a tick after a current was measured.
fn act_at(mut module: Pd3120, channel: u8, amperes: f32) -> u8 {
    module.sample(channel, false, amperes).expect("a channel");
    ticks(&mut module, 1);
    read(&module, swno(channel, REG_CH_ERROR))[OFFSET_CH_ERROR_ACT]
}

/// The ticks for which a one-shot is on.
fn one_shot(channel: u8, preset: f32) -> usize {
    let mut module = configured(channel, [0, FUNCTIONS_ONE_SHOT, 0, 0]);
    write(
        &mut module,
        swno(channel, REG_OUT_PRESET),
        &preset.to_be_bytes(),
    );
    write(&mut module, swno(channel, REG_FLAG_REG), &[FLAG_CONTROL]);
    let on = |_: &usize| {
        module.tick();
        module.output(channel)
    };
    (0..1000).take_while(on).count()
}

fn seconds(row: &Row, at: u16) {
    let channel = channel_of(at);
    match row.constant {
        "OUT_TIMER" | "FB_TIMER" | "TIMER_A" | "TIMER_B" => {
            assert_eq!(after_a_second(unwatched(), at), 9.0, "{row:?}");
        }
        "OPERATING_TIME" => {
            let mut module = unwatched();
            module.sample(channel, true, 0.0).expect("a channel");
            assert_eq!(after_a_second(module, at), 11.0, "{row:?}");
        }
        "WD_TIMER" | "WD_PRESET" => {
            let mut module = unwatched();
            write(&mut module, SWNO_WD_PRESET, &10_f32.to_be_bytes());
            ticks(&mut module, SECOND);
            let left = if row.constant == "WD_TIMER" {
                9.0
            } else {
                10.0
            };
            assert_eq!(real(&module, at), left, "{row:?}");
        }
        "FB_PRESET" => {
            let module = output_with(channel, REG_FB_PRESET, 10.0);
            assert_eq!(real(&module, swno(channel, REG_FB_TIMER)), 10.0, "{row:?}");
        }
        "OUT_PRESET" => assert_eq!(one_shot(channel, 2.0), 2 * SECOND, "{row:?}"),
        other => panic!("no test of the seconds of {other}"),
    }
}

fn amperes(row: &Row, at: u16) {
    let channel = channel_of(at);
    match row.constant {
        "OUT_CURRENT" => {
            let mut module = unwatched();
            module.sample(channel, false, 0.75).expect("a channel");
            assert_eq!(real(&module, at), 0.75, "{row:?}");
        }
        "MAX_CURRENT" => {
            let module = output_with(channel, REG_MAX_CURRENT, 0.5);
            assert_eq!(act_at(module.clone(), channel, 0.5), 0, "{row:?}");
            assert_eq!(act_at(module, channel, 0.51), CH_ERROR_OVERLOAD, "{row:?}");
        }
        "MIN_CURRENT" => {
            let mut module = output_with(channel, REG_MIN_CURRENT, 0.5);
            let most = 1_f32.to_be_bytes();
            write(&mut module, swno(channel, REG_MAX_CURRENT), &most);
            assert_eq!(act_at(module.clone(), channel, 0.5), 0, "{row:?}");
            assert_eq!(act_at(module, channel, 0.49), CH_ERROR_UNDERLOAD, "{row:?}");
        }
        other => panic!("no test of the amperes of {other}"),
    }
}

fn integer(module: &Pd3120, swno: u16) -> i32 {
    let bytes = read(module, swno).try_into().expect("four bytes");
    i32::from_be_bytes(bytes)
}

/// A number that means something to the box. RealA and RealB mean nothing to it.
fn needs_unit(row: &Row) -> bool {
    let free = matches!(row.constant, "REAL_A" | "REAL_B");
    matches!(row.type_, "Real" | "signed 32 bits") && !free
}

#[test]
fn units_are_those_of_the_row() {
    for row in registers() {
        for swno in row.swnos() {
            let mut module = unwatched();
            match row.unit {
                "-" => assert!(!needs_unit(&row), "{row:?}"),
                "s" => seconds(&row, swno),
                "A" => amperes(&row, swno),
                "1/256 s" => {
                    ticks(&mut module, SECOND);
                    assert_eq!(integer(&module, swno), 256, "{row:?}");
                }
                "pulses" => {
                    for on in [true, true, false, true] {
                        module.sample(channel_of(swno), on, 0.0).expect("a channel");
                    }
                    assert_eq!(integer(&module, swno), 2, "{row:?}");
                }
                other => panic!("no unit is called {other}"),
            }
        }
    }
}

/// After 2147483647 comes -2147483648.
#[test]
fn counter_goes_on_into_negative_numbers() {
    let mut module = unwatched();
    let counter = swno(4, REG_COUNTER);
    write(&mut module, counter, &i32::MAX.to_be_bytes());
    module.sample(4, true, 0.0).expect("a channel");
    assert_eq!(integer(&module, counter), i32::MIN);
}
