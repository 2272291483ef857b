//! Each bit by its name: a box is brought to where the bit is set, and only it.

use crate::boxes::{configured, read, ticks, unwatched, write};
use crate::data::{part, parts, register, Row};
use pd3120::registers::*;
use pd3120::Pd3120;

/// A channel that another can name as its reference.
fn next(channel: u8) -> u8 {
    channel % CHANNELS + 1
}

fn flag_reg(channel: u8) -> u16 {
    register("FLAG_REG").on(channel.into())
}

/// The byte of a register that is a field.
fn field(module: &Pd3120, swno: u16, constant: &str) -> u8 {
    let field = part(constant);
    assert_eq!(field.size, 1, "{field:?}");
    read(module, swno)[usize::from(field.number)]
}

/// `configured`, and then a write of FlagReg.
fn flagged(channel: u8, config: [u8; 4], flags: u8) -> Pd3120 {
    let mut module = configured(channel, config);
    write(&mut module, flag_reg(channel), &[flags]);
    module
}

fn sampled(mut module: Pd3120, channel: u8, level: bool, amperes: f32) -> Pd3120 {
    module.sample(channel, level, amperes).expect("a channel");
    module
}

fn ticked(mut module: Pd3120) -> Pd3120 {
    ticks(&mut module, 1);
    module
}

/// A box whose FlagReg has just this bit.
fn with_flag(bit: &Row, channel: u8) -> Pd3120 {
    let (mask, other) = (bit.mask(), next(channel));
    match bit.name {
        "OutFlag" => {
            let module = flagged(channel, [0, 0x10, 0, 0], mask);
            assert!(module.output(channel), "OutFlag drives the output");
            module
        }
        "InFlag" => sampled(unwatched(), channel, true, 0.0),
        "InAFlag" => sampled(configured(channel, [0, 0, other, 0]), other, true, 0.0),
        "InBFlag" => sampled(configured(channel, [0, 0, 0, other]), other, true, 0.0),
        "Control" => {
            // The timer function is on while Control and OutTimer are.
            let mut module = flagged(channel, [0, 0x50, 0, 0], mask);
            let second = 1_f32.to_be_bytes();
            write(&mut module, swno(channel, REG_OUT_TIMER), &second);
            assert!(ticked(module.clone()).output(channel), "Control drives");
            module
        }
        "FBStatus" => {
            // On and off again, and the reference has not been looked at.
            let mut module = flagged(channel, [0, 0x10, other, 0], 0x80);
            write(&mut module, flag_reg(channel), &[0]);
            module
        }
        "Error" => flagged(channel, [0; 4], 0x80),
        other => panic!("no test of the flag {other}"),
    }
}

/// A box whose ChError has just this bit, in His and in Act.
fn with_error(bit: &Row, channel: u8) -> Pd3120 {
    let (plain, simulated) = ([0, 0x10, 0, 0], 0x01);
    match bit.name {
        "OverLoad" => sampled(unwatched(), channel, false, 2.5),
        "UnderLoad" => {
            let mut module = configured(channel, [simulated | 0x20, 0x10, 0, 0]);
            let least = 0.5_f32.to_be_bytes();
            write(&mut module, swno(channel, REG_MIN_CURRENT), &least);
            write(&mut module, flag_reg(channel), &[0x80]);
            ticked(module)
        }
        "ExternalShortCirError" => ticked(sampled(configured(channel, plain), channel, true, 0.0)),
        "InternalShortCirError" => ticked(sampled(unwatched(), channel, false, 0.2)),
        "InternalDisconnection" => ticked(flagged(channel, plain, 0x80)),
        "FeedBackError" => ticked(flagged(channel, [simulated, 0x10, next(channel), 0], 0x80)),
        "PrgError" => flagged(channel, [0; 4], 0x80),
        other => panic!("no test of the error {other}"),
    }
}

/// A box whose own error is just this: His, and whether it is in Act too.
fn with_common_error(bit: &Row) -> (Pd3120, bool) {
    let mut module = Pd3120::default();
    match bit.name {
        "InternalReset" => return (module, false),
        "ExternalReset" => write(&mut module, SWNO_RESET, &[0xFF]),
        "PnetWDRunOut" => {
            write(&mut module, SWNO_COMMON_ERROR, &[0; 12]);
            ticks(&mut module, 1);
        }
        "AnyChannelError" => {
            write(&mut module, SWNO_COMMON_ERROR, &[0; 12]);
            return (sampled(module, 3, false, 2.5), true);
        }
        other => panic!("no test of the error {other}"),
    }
    (module, false)
}

/// All eight bits are told, from the highest on; those without a name are never
/// set.
fn whole_byte(of: &str) -> (Vec<Row>, u8) {
    let bits = parts("bit", of);
    let numbers: Vec<u16> = bits.iter().map(|bit| bit.number).collect();
    assert_eq!(numbers, [7, 6, 5, 4, 3, 2, 1, 0], "{of}");
    let (named, unnamed): (Vec<Row>, Vec<Row>) = bits.into_iter().partition(|bit| bit.name != "-");
    let zero = unnamed
        .iter()
        .map(Row::mask)
        .fold(0, |all, mask| all | mask);
    (named, zero)
}

#[test]
fn flags_are_where_their_rows_say() {
    let (named, zero) = whole_byte("FLAG_REG");
    for channel in 1..=CHANNELS {
        for bit in &named {
            let module = with_flag(bit, channel);
            assert_eq!(read(&module, flag_reg(channel)), [bit.mask()], "{bit:?}");
            assert_eq!(bit.mask() & zero, 0);
        }
    }
}

#[test]
fn errors_of_a_channel_are_where_their_rows_say() {
    let (named, zero) = whole_byte("CH_ERROR");
    for channel in 1..=CHANNELS {
        for bit in &named {
            let module = with_error(bit, channel);
            let at = register("CH_ERROR").on(channel.into());
            assert_eq!(field(&module, at, "CH_ERROR_HIS"), bit.mask(), "{bit:?}");
            assert_eq!(field(&module, at, "CH_ERROR_ACT"), bit.mask(), "{bit:?}");
            assert_eq!(bit.mask() & zero, 0);
        }
    }
}

#[test]
fn errors_of_the_box_are_where_their_rows_say() {
    let (named, zero) = whole_byte("COMMON_ERROR");
    let at = register("COMMON_ERROR").on(0);
    for bit in &named {
        let (module, in_act) = with_common_error(bit);
        let act = if in_act { bit.mask() } else { 0 };
        assert_eq!(
            field(&module, at, "COMMON_ERROR_HIS"),
            bit.mask(),
            "{bit:?}"
        );
        assert_eq!(field(&module, at, "COMMON_ERROR_ACT"), act, "{bit:?}");
        assert_eq!(bit.mask() & zero, 0);
    }
}

#[test]
fn an_error_of_any_channel_is_in_the_common_one() {
    let at = register("COMMON_CH_ERROR").on(0x11);
    let bits = parts("bit", "COMMON_CH_ERROR");
    assert_eq!(bits.len(), 1);
    for channel in 1..=CHANNELS {
        let mut module = sampled(unwatched(), channel, false, 2.5);
        assert_eq!(field(&module, at, "COMMON_CH_ERROR_ACT"), bits[0].mask());
        write(&mut module, flag_reg(channel), &[0]);
        assert_eq!(field(&module, at, "COMMON_CH_ERROR_ACT"), 0);
        assert_eq!(field(&module, at, "COMMON_CH_ERROR_HIS"), bits[0].mask());
    }
}

/// What each bit of Enablebit does, against the same calls without it: FlagReg and
/// His of ChError.
fn with_option(bit: &Row, channel: u8, enablebit: u8) -> (u8, u8) {
    let mut module = configured(channel, [enablebit, 0x10, 0, 0]);
    match bit.name {
        "No overload alarm" => module = sampled(module, channel, false, 2.5),
        "Underload alarm" => {
            let least = 0.5_f32.to_be_bytes();
            write(&mut module, swno(channel, REG_MIN_CURRENT), &least);
            module = sampled(module, channel, true, 0.0);
            write(&mut module, flag_reg(channel), &[0x80]);
            ticks(&mut module, 1);
        }
        "Feedback simulation" => write(&mut module, flag_reg(channel), &[0x80]),
        "Input simulation" => write(&mut module, SWNO_IN_FLAGS, &[0xFF; 2]),
        other => panic!("no test of the option {other}"),
    }
    let errors = swno(channel, REG_CH_ERROR);
    (
        read(&module, flag_reg(channel))[0],
        field(&module, errors, "CH_ERROR_HIS"),
    )
}

#[test]
fn options_do_what_their_rows_say() {
    for bit in parts("bit", "CH_CONFIG_ENABLEBIT") {
        let (without, with) = match bit.name {
            "No overload alarm" => ((FLAG_ERROR, CH_ERROR_OVERLOAD), (0, 0)),
            "Underload alarm" => ((0xC0, 0), (0xC2, CH_ERROR_UNDERLOAD)),
            "Feedback simulation" => ((0x80, 0), (0xA0, 0)),
            _ => ((0, 0), (FLAG_IN_FLAG, 0)),
        };
        for channel in 1..=CHANNELS {
            assert_eq!(with_option(&bit, channel, 0), without, "{bit:?}");
            assert_eq!(with_option(&bit, channel, bit.mask()), with, "{bit:?}");
        }
    }
}
