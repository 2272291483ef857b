use super::*;

fn channel(enable: u8, functions: u8, ref_a: u8, ref_b: u8) -> Channel {
    let config = Config::from_bytes([enable, functions, ref_a, ref_b]);
    Channel::restored(Kept {
        config,
        fb_preset: 512,
        ..Kept::default()
    })
}

/// The bits as document 01 and the manual number them.
#[test]
fn the_bits_of_flag_reg_and_ch_error_are_the_papers() {
    let flags = [flag::OUT, flag::IN, flag::IN_A, flag::IN_B, flag::CONTROL];
    assert_eq!(flags, [0x80, 0x40, 0x20, 0x10, 0x08]);
    assert_eq!((flag::FB_STATUS, flag::ERROR), (0x04, 0x02));
    assert_eq!((error::OVERLOAD, error::UNDERLOAD), (0x40, 0x20));
    assert_eq!(error::EXTERNAL_SHORT_CIRCUIT, 0x10);
    assert_eq!(error::INTERNAL_SHORT_CIRCUIT, 0x08);
    assert_eq!((error::DISCONNECTION, error::FEEDBACK), (0x04, 0x02));
    assert_eq!(error::PRG_ERROR, 0x01);
}

#[test]
fn output_needs_a_function() {
    let mut output = channel(0, 0x10, 0, 0);
    assert!(!output.output());
    output.out_flag = true;
    assert!(output.output());
    output.kept.config.functions = 0;
    assert!(!output.output());
}

#[test]
fn other_settings_act_as_zero() {
    for functions in [0x40, 0x11, 0x60, 0xFF, 1] {
        assert!(channel(0, functions, 0, 0).is_input());
    }
    let strange = channel(0, 0x10, 17, 255).kept.config;
    assert_eq!((strange.index_a(), strange.index_b()), (None, None));
    assert!(!strange.names_a_reference());
}

#[test]
fn in_a_and_in_b_follow_the_references() {
    let named = channel(0, 0x10, 1, 16);
    assert!(named.in_a(0x0001) && !named.in_b(0x0001));
    assert!(!named.in_a(0x8000) && named.in_b(0x8000));
    let alone = channel(0, 0x10, 0, 0);
    assert!(!alone.in_a(0xFFFF) && !alone.in_b(0xFFFF));
}

#[test]
fn simulated_feedback_comes_before_references() {
    for references in [0, 5] {
        let mut simulated = channel(0b100, 0x10, references, references);
        assert!(!simulated.in_a(0xFFFF) && simulated.in_b(0));
        simulated.out_flag = true;
        assert!(simulated.in_a(0) && !simulated.in_b(0xFFFF));
    }
}

#[test]
fn the_other_enablebits_have_no_effect() {
    let config = channel(0b1001_1010, 0x10, 0, 0).kept.config;
    assert!(!config.simulates_input() && !config.simulates_feedback());
    assert!(!config.enables_underload() && !config.silences_overload());
}

#[test]
fn the_change_rule_marks_under_simulated_feedback_too() {
    let mut simulated = channel(0b100, 0x10, 0, 2);
    simulated.write_flag_reg(flag::OUT);
    assert!(simulated.fb_status);
}

#[test]
fn without_a_reference_the_change_rule_leaves_fb_status() {
    let mut alone = channel(0, 0x10, 0, 0);
    alone.fb_status = true;
    alone.write_flag_reg(flag::OUT);
    assert!(alone.fb_status);
}

#[test]
fn a_bit_that_is_not_taken_leaves_the_flag() {
    let mut input = channel(0, 0, 0, 0);
    input.out_flag = true;
    input.control = true;
    input.write_flag_reg(flag::OUT | flag::CONTROL);
    assert!(input.out_flag && input.control);
    input.write_out_flags_bit(true);
    assert!(input.out_flag);
    input.write_flag_reg(0);
    assert!(!input.out_flag && !input.control);
}

#[test]
fn a_current_above_two_trips_an_input_too() {
    let mut input = channel(0, 0, 0, 0);
    input.set_current(reals::TWO + 1);
    assert_eq!((input.act, input.fb_timer), (error::OVERLOAD, 0));
}

#[test]
fn the_change_rule_presets_and_marks() {
    let mut named = channel(0, 0x10, 2, 0);
    named.write_flag_reg(flag::OUT);
    assert_eq!((named.fb_timer, named.fb_status), (512, true));
    let mut alone = channel(0, 0x10, 0, 0);
    alone.write_flag_reg(flag::OUT);
    assert_eq!((alone.fb_timer, alone.fb_status), (512, false));
    alone.fb_timer = 1;
    alone.write_flag_reg(flag::OUT);
    assert_eq!(alone.fb_timer, 1);
}

#[test]
fn levels_count_rises_and_wrap() {
    let mut input = channel(0, 0, 0, 0);
    input.counter = i32::MAX;
    for on in [true, true, false, false, true] {
        input.set_level(on);
    }
    assert_eq!(input.counter, i32::MIN + 1);
}

#[test]
fn a_level_passes_a_simulated_channel_by() {
    let mut simulated = channel(1, 0, 0, 0);
    simulated.set_level(true);
    assert_eq!((simulated.in_flag, simulated.counter), (false, 0));
    simulated.write_flag_reg(flag::IN);
    assert_eq!((simulated.in_flag, simulated.counter), (true, 1));
    simulated.simulate_in_flag(false);
    assert!(!simulated.in_flag);
    let mut wired = channel(0, 0, 0, 0);
    wired.write_flag_reg(flag::IN);
    wired.simulate_in_flag(true);
    assert!(!wired.in_flag);
}

#[test]
fn a_current_above_two_trips() {
    let mut shot = channel(0, 0x20, 3, 0);
    shot.write_flag_reg(flag::OUT | flag::CONTROL);
    shot.fb_timer = -1;
    shot.fb_status = false;
    shot.set_current(reals::TWO);
    assert!(shot.out_flag && shot.control && shot.act == 0);
    shot.set_current(reals::TWO + 1);
    assert!(!shot.out_flag && !shot.control);
    assert_eq!((shot.act, shot.his), (error::OVERLOAD, error::OVERLOAD));
    assert_eq!((shot.fb_timer, shot.fb_status), (512, true));
    assert_eq!(shot.out_current, reals::TWO + 1);
}

#[test]
fn enablebit_6_silences_the_bit_but_not_the_trip() {
    let mut silent = channel(1 << 6, 0x10, 0, 0);
    silent.write_flag_reg(flag::OUT);
    silent.set_current(0x4040_0000);
    assert!(!silent.out_flag && silent.act == 0 && silent.his == 0);
}

#[test]
fn flag_reg_clears_overload_and_prg_error_first() {
    let mut input = channel(0, 0, 0, 0);
    input.set_error(error::OVERLOAD | error::UNDERLOAD);
    input.write_flag_reg(flag::OUT);
    assert_eq!(input.act, error::UNDERLOAD | error::PRG_ERROR);
    assert!(!input.out_flag);
    input.write_flag_reg(0);
    assert_eq!(input.act, error::UNDERLOAD);
    let all = error::OVERLOAD | error::UNDERLOAD | error::PRG_ERROR;
    assert_eq!(input.his, all);
}

#[test]
fn bits_7_and_3_are_judged_apart() {
    let mut output = channel(0, 0x10, 0, 0);
    output.write_flag_reg(flag::OUT | flag::CONTROL);
    assert!(output.out_flag && !output.control);
    assert_eq!(output.act, error::PRG_ERROR);
    for functions in [0x20, 0x30, 0x50] {
        let mut special = channel(0, functions, 0, 0);
        special.write_flag_reg(flag::OUT | flag::CONTROL);
        assert!(special.out_flag && special.control && special.act == 0);
    }
}

#[test]
fn flag_reg_ignores_the_other_bits() {
    let mut output = channel(0, 0x10, 2, 0);
    output.write_flag_reg(0b0111_0111);
    assert_eq!(output, channel(0, 0x10, 2, 0));
}

#[test]
fn out_flags_skips_the_change_rule_when_rising_only() {
    let mut named = channel(0, 0x10, 2, 0);
    named.write_out_flags_bit(true);
    assert!(named.out_flag && named.fb_timer == 0 && !named.fb_status);
    named.write_out_flags_bit(false);
    assert!(!named.out_flag && named.fb_timer == 512 && named.fb_status);
}

#[test]
fn out_flags_clears_no_act_bit() {
    let mut input = channel(0, 0, 0, 0);
    input.set_error(error::OVERLOAD);
    input.write_out_flags_bit(true);
    assert!(!input.out_flag);
    assert_eq!(input.act, error::OVERLOAD | error::PRG_ERROR);
}

#[test]
fn writing_ch_config_switches_off_under_the_new_settings() {
    let mut shot = channel(0, 0x20, 0, 0);
    shot.write_flag_reg(flag::OUT | flag::CONTROL);
    shot.internal_state = true;
    shot.fb_timer = 7;
    shot.write_config(Config::from_bytes([0, 0, 0, 9]));
    assert!(!shot.out_flag && !shot.control && !shot.internal_state);
    assert_eq!((shot.fb_timer, shot.fb_status), (512, true));
    shot.fb_timer = 7;
    shot.write_config(shot.kept.config);
    assert_eq!((shot.fb_timer, shot.fb_status), (7, false));
}

#[test]
fn flag_reg_reads_bit_by_bit() {
    let mut all = channel(0, 0x20, 1, 2);
    assert_eq!(all.flag_reg(0), 0);
    assert_eq!(all.flag_reg(0b11), flag::IN_A | flag::IN_B);
    all.out_flag = true;
    assert_eq!(all.flag_reg(0), 0x80);
    all.in_flag = true;
    assert_eq!(all.flag_reg(0), 0xC0);
    all.control = true;
    assert_eq!(all.flag_reg(0), 0xC8);
    all.fb_status = true;
    assert_eq!(all.flag_reg(0), 0xCC);
    all.his = 0x7F;
    assert_eq!(all.flag_reg(0), 0xCC);
    all.act = error::UNDERLOAD;
    assert_eq!(all.flag_reg(0), 0xCE);
}
