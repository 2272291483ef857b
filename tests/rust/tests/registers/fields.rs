//! The fields that no range tells apart, and what the named values of Functions do.

use crate::boxes::{configured, enabled, read, ticks, unwatched, write};
use crate::data::{part, parts, register, registers, Row};
use pd3120::registers::*;
use pd3120::Pd3120;

/// The bytes of a field.
fn bytes(module: &Pd3120, swno: u16, field: &Row) -> Vec<u8> {
    let at = usize::from(field.number);
    read(module, swno)[at..at + field.size].to_vec()
}

/// An overload of a channel that is over, so that it is in His alone, and one of
/// the channel after it that is not.
fn over_and_not(channel: u8) -> (Pd3120, u8) {
    let (mut module, other) = (unwatched(), channel % CHANNELS + 1);
    for tripped in [channel, other] {
        module.sample(tripped, false, 2.5).expect("a channel");
    }
    write(&mut module, swno(channel, REG_FLAG_REG), &[0]);
    (module, other)
}

#[test]
fn fields_are_inside_their_register_and_apart() {
    for row in registers() {
        let mut taken = vec![false; row.size];
        for field in parts("field", row.constant) {
            let at = usize::from(field.number);
            for place in &mut taken[at..at + field.size] {
                assert!(!std::mem::replace(place, true), "{field:?}");
            }
        }
    }
}

/// ComHis and ComAct: bit n for channel n, the low byte first, and bit 17.
#[test]
fn common_error_tells_the_channels() {
    let at = register("COMMON_ERROR").on(0);
    for channel in 1..=CHANNELS {
        let (module, other) = over_and_not(channel);
        let word = |constant| {
            let field: [u8; 3] = bytes(&module, at, &part(constant))
                .try_into()
                .expect("three");
            com(field)
        };
        let (one, both) = (1 << other | 1 << 17, 1 << channel | 1 << other | 1 << 17);
        assert_eq!(word("COMMON_ERROR_COM_ACT"), one);
        assert_eq!(word("COMMON_ERROR_COM_HIS"), both);
        assert_eq!(com_bit(channel) | com_bit(other) | com_bit(17), both);
    }
    let used = parts("field", "COMMON_ERROR");
    assert_eq!(used.iter().map(|field| field.size).sum::<usize>(), 8);
}

/// Both words: bit k-1 for channel k, the high byte first.
#[test]
fn io_ch_error_tells_the_channels() {
    let at = register("IO_CH_ERROR").on(0x11);
    for channel in 1..=CHANNELS {
        let (module, other) = over_and_not(channel);
        let word = |constant| {
            let field = bytes(&module, at, &part(constant)).try_into().expect("two");
            u16::from_be_bytes(field)
        };
        let (own, others) = (1_u16 << (channel - 1), 1_u16 << (other - 1));
        assert_eq!(word("IO_CH_ERROR_ACT"), others);
        assert_eq!(word("IO_CH_ERROR_HIS"), own | others);
        assert_eq!(channel_bit(channel), own);
    }
}

/// Both words of flags: bit k-1 for channel k, the high byte first.
#[test]
fn flags_of_all_channels_have_a_bit_each() {
    for channel in 1..=CHANNELS {
        let mut module = configured(channel, [0, FUNCTIONS_OUTPUT, 0, 0]);
        let bit = (1_u16 << (channel - 1)).to_be_bytes();
        write(&mut module, register("OUT_FLAGS").on(0x11), &bit);
        module.sample(channel, true, 0.0).expect("a channel");
        assert!(module.output(channel));
        assert_eq!(read(&module, register("OUT_FLAGS").on(0x11)), bit);
        assert_eq!(read(&module, register("IN_FLAGS").on(0x11)), bit);
    }
}

/// The output of a channel after each of six ticks, with OutPreset and OutTimer
/// of two ticks, after a write of OutFlag or of Control.
fn driven(functions: u8, flags: u8) -> [bool; 6] {
    let mut module = configured(5, [0, functions, 0, 0]);
    let two = (2.0_f32 / 32.0).to_be_bytes();
    write(&mut module, swno(5, REG_OUT_PRESET), &two);
    write(&mut module, swno(5, REG_OUT_TIMER), &two);
    write(&mut module, swno(5, REG_FLAG_REG), &[flags]);
    [(); 6].map(|()| {
        module.tick();
        module.output(5)
    })
}

#[test]
fn functions_do_what_their_names_say() {
    let [out, control] = [FLAG_OUT_FLAG, FLAG_CONTROL];
    for value in parts("value", "CH_CONFIG_FUNCTIONS") {
        let functions = value.number as u8;
        let pattern = driven(functions, control).map(u8::from);
        let expected = match value.name {
            "Input only" | "Output" => [0; 6],
            "One-shot" => [1, 1, 0, 0, 0, 0],
            "Duty cycle" => [1, 1, 0, 0, 1, 1],
            "Timer" => [1, 0, 0, 0, 0, 0],
            other => panic!("no test of {other}"),
        };
        assert_eq!(pattern, expected, "{value:?}");
        let follows_out_flag = value.name != "Input only";
        assert_eq!(driven(functions, out), [follows_out_flag; 6], "{value:?}");
    }
}

#[test]
fn the_watchdog_is_on_and_off_as_named() {
    for value in parts("value", "MODULE_CONFIG_FUNCTIONS") {
        let mut module = enabled();
        let config = [0, value.number as u8, 0, 0];
        write(&mut module, SWNO_MODULE_CONFIG, &config);
        write(
            &mut module,
            swno(1, REG_CH_CONFIG),
            &[0, FUNCTIONS_OUTPUT, 0, 0],
        );
        write(&mut module, swno(1, REG_FLAG_REG), &[FLAG_OUT_FLAG]);
        ticks(&mut module, 1);
        assert_eq!(module.output(1), value.name == "Watchdog off", "{value:?}");
    }
}
