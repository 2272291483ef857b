//! Step 6: Act bits.

use super::*;

#[test]
fn a_feedback_error_waits_for_a_negative_fb_timer() {
    let mut channel = with_channel([1, 0x10, 1, 0]);
    channel.fb_timer = 8;
    channel.fb_status = true;
    channel.tick(false, false, 0);
    assert_eq!((channel.fb_timer, channel.act), (0, 0));
    channel.tick(false, false, 0);
    assert_eq!((channel.fb_timer, channel.act), (-8, error::FEEDBACK));
}

#[test]
fn underload_needs_all_four() {
    let mut channel = with_channel([1 << 5 | 1, 0x10, 0, 0]);
    channel.kept.min_current = HALF_AMPERE;
    channel.kept.max_current = reals::ONE;
    channel.out_flag = true;
    channel.out_current = HALF_AMPERE - 1;
    channel.fb_timer = 8;
    channel.tick(false, false, 0);
    assert_eq!(channel.act, 0);
    channel.tick(false, false, 0);
    assert_eq!(channel.act, error::UNDERLOAD);
    channel.out_current = HALF_AMPERE;
    channel.tick(false, false, 0);
    assert_eq!((channel.act, channel.his), (0, error::UNDERLOAD));
    channel.out_current = 0;
    channel.kept.config.enable = 1;
    channel.tick(false, false, 0);
    assert_eq!(channel.act, 0);
}

#[test]
fn short_circuits_and_disconnection() {
    let mut outside = with_channel([0, 0x10, 0, 0]);
    outside.in_flag = true;
    outside.tick(false, false, 0);
    assert_eq!(outside.act, error::EXTERNAL_SHORT_CIRCUIT);
    outside.kept.config.functions = 0;
    outside.tick(false, false, 0);
    assert_eq!(outside.act, 0);

    let mut inside = with_channel([0; 4]);
    inside.out_current = reals::ONE_TENTH;
    inside.tick(false, false, 0);
    assert_eq!(inside.act, 0);
    inside.out_current = reals::ONE_TENTH + 1;
    inside.tick(false, false, 0);
    assert_eq!(inside.act, error::INTERNAL_SHORT_CIRCUIT);

    let mut broken = with_channel([0, 0x10, 0, 0]);
    broken.out_flag = true;
    broken.tick(false, false, 0);
    assert_eq!(broken.act, error::DISCONNECTION);
    broken.set_error(error::OVERLOAD);
    broken.tick(false, false, 0);
    assert_eq!(broken.act, error::OVERLOAD);
}

/// "3 not OutFlag, OutCurrent > $3DCCCCCD as a Real", whatever Functions are.
#[test]
fn a_current_above_one_tenth_leaks_where_out_flag_is_false() {
    for functions in [0, 0x10, 0x20, 0x30, 0x50] {
        let mut channel = with_channel([0, functions, 0, 0]);
        for amperes in [
            0,
            0x8000_0000,
            0xBF80_0000,
            0x3D4C_CCCD,
            0x3DCC_CCCC,
            0x3DCC_CCCD,
        ] {
            channel.out_current = amperes;
            channel.tick(false, false, 0);
            assert_eq!(channel.act, 0, "{amperes:08x}");
        }
        for amperes in [
            0x3DCC_CCCE,
            0x3E00_0000,
            0x3E4C_CCCD,
            0x3F80_0000,
            0x4000_0000,
        ] {
            channel.out_current = amperes;
            channel.tick(false, false, 0);
            assert_eq!(channel.act, error::INTERNAL_SHORT_CIRCUIT, "{amperes:08x}");
        }
    }
    let mut on = with_channel([0, 0x10, 0, 0]);
    on.kept.max_current = 0x3F80_0000;
    on.out_flag = true;
    on.in_flag = true;
    on.out_current = 0x3F00_0000;
    on.tick(false, false, 0);
    assert_eq!(on.act, 0);
}

#[test]
fn simulated_input_silences_bits_4_to_2_alone() {
    let mut channel = with_channel([1, 0x10, 1, 0]);
    channel.in_flag = true;
    channel.out_current = reals::ONE;
    channel.fb_status = true;
    channel.tick(false, false, 0);
    assert_eq!(channel.act, error::FEEDBACK);
    channel.out_flag = true;
    channel.in_flag = false;
    channel.out_current = 0;
    channel.fb_status = false;
    channel.tick(false, false, 0);
    assert_eq!(channel.act, 0);
}

#[test]
fn overload_and_prg_error_stay() {
    let mut channel = with_channel([0; 4]);
    channel.act = error::OVERLOAD | error::PRG_ERROR;
    channel.tick(false, false, 0);
    assert_eq!(channel.act, error::OVERLOAD | error::PRG_ERROR);
    assert_eq!(channel.his, 0);
}
