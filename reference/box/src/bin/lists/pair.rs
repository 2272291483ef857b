//! A pair of lists, drawn at random so that "Two lists" speaks of it.

use crate::{hours, runs, second, source};
use reference_box::generator::actions::{self as act, Action};
use reference_box::generator::random::Random;
use reference_box::generator::script::Script;
use reference_box::generator::values::{self, Flavour};
use reference_box::player::Call;
use reference_box::{ChannelBox, CHANNELS};

/// The registers of a digital channel.
const REGISTERS: [u16; 15] = [0, 1, 2, 3, 4, 5, 6, 7, 8, 9, 0xA, 0xB, 0xC, 0xD, 0xF];

const FLAVOURS: &[Flavour] = &[
    Flavour::Plain,
    Flavour::Watchdog,
    Flavour::Feedback,
    Flavour::Currents,
    Flavour::Errors,
    Flavour::Ends,
];

/// What the first list does, with weights: no power-up and no storing, which
/// "stand outside lists". Change 1: "Data calls are never strangers' calls", so
/// those of the data channel, and lookups, stand in both lists. Change 6:
/// "setting the minute is a call of everyone", and stands in both, too.
const ACTIONS: &[(u64, Action)] = &[
    (9, act::tick),
    (8, act::few_ticks),
    (2, act::some_ticks),
    (7, act::sample_level),
    (2, act::pulses),
    (4, act::sample_current),
    (1, act::sample_any),
    (1, act::trip_at_once),
    (1, act::refused_change),
    (1, act::sample_no_channel),
    (2, act::overload),
    (1, act::trip_in_tick),
    (1, act::out_flags_after_overload),
    (8, act::read_state),
    (5, act::read_any),
    (3, act::read_errors),
    (1, act::read_watchdog),
    (6, act::write_any),
    (6, act::write_flag_reg),
    (6, act::start),
    (3, act::write_config),
    (1, act::repeat_config),
    (2, act::write_fb_preset),
    (2, act::write_out_preset),
    (2, act::write_timer),
    (2, act::write_limit),
    (1, act::write_out_current),
    (2, act::write_working),
    (1, act::write_notes),
    (3, act::write_out_flags),
    (3, act::write_in_flags),
    (2, act::toggle_write_enable),
    (1, act::write_module_config),
    (1, act::write_wd_preset),
    (1, act::write_wd_timer),
    (1, act::acknowledge_all),
    (1, act::reset),
    (1, act::write_end_time),
    (1, act::write_end_current),
    (1, act::write_end_counter),
    (1, act::write_end_watchdog),
    (1, act::sample_end_current),
    (1, act::count_over),
    (1, act::time_over),
    (3, act::refused_read),
    (4, act::refused_write),
    (1, source::refused_here),
    (3, act::refused_sample),
    (1, act::refused_between_ticks),
    (2, act::lookup),
    (1, act::refused_lookup),
    (2, act::read_data),
    (2, act::write_data),
    (1, act::write_table),
    (1, act::keep_data),
    (1, act::count_data_timer),
    (1, act::beside_data),
    (3, act::run),
    (2, act::set_any_in_flag),
    (1, act::write_operating_time),
    (1, act::refused_operating_time),
    (1, act::give_windows),
    (1, act::set_minute),
    (1, act::refused_hours),
    (1, act::short_hours),
];

/// Two lists for one image and one digital channel c.
pub struct Pair {
    pub channel: u8,
    pub image: Vec<u8>,
    /// The strangers of c, in order.
    pub strangers: Vec<u8>,
    pub first: Vec<Call>,
    pub second: Vec<Call>,
    /// Reads of each register of c, which end both lists.
    pub ending: Vec<Call>,
    /// Reads of each register of the strangers, to see whether they differ.
    pub survey: Vec<Call>,
    /// Change 2: further ticks that show c's left-over quarters.
    pub quarters: Vec<Call>,
    /// Change 6: further ticks that show c's windows and the minute.
    pub hours: Vec<Call>,
}

impl Pair {
    /// The pair of a seed. A long one goes through the ten-hour save.
    pub fn draw(seed: u64, long: bool) -> Pair {
        let mut script = Script::new(seed);
        let channel = script.random.within(1, CHANNELS as u64) as u8;
        let others = some_others(&mut script.random, channel);
        let image = image(&mut script, channel, &others);
        let mut first = first_list(&mut script, channel, &others, long);
        let strangers = strangers(channel, &image, &first);
        let mut second = second::list(script.random.bits(), &first, &strangers);
        if script.random.chance(1, 2) {
            std::mem::swap(&mut first, &mut second);
        }
        Pair {
            channel,
            image,
            first,
            second,
            ending: reads(&mut script, &[channel]),
            survey: reads(&mut script, &strangers),
            quarters: runs::show_quarters(&mut script, channel),
            hours: hours::show_hours(&mut script, channel),
            strangers,
        }
    }
}

/// Two to five channels other than c, which calls are for.
fn some_others(random: &mut Random, channel: u8) -> Vec<u8> {
    let highest = CHANNELS as u64;
    let count = random.within(2, 5);
    let other = |_| (u64::from(channel) + random.below(highest - 1)) % highest + 1;
    (0..count).map(other).map(|other| other as u8).collect()
}

/// An image that power-up accepts, of either length, half of the time with a
/// watchdog that runs out after a few ticks. Mostly a read shows each step of
/// c's operating count.
fn image(script: &mut Script, channel: u8, others: &[u8]) -> Vec<u8> {
    let focus = [&[channel], others].concat();
    let flavour = script.random.pick(FLAVOURS);
    let random = &mut script.random;
    let mut settings = values::settings(random, &focus, flavour);
    if random.chance(1, 2) {
        settings.module_config.functions = 0;
        settings.wd_preset = random.within(8, 80) as i32;
    }
    if random.chance(3, 4) {
        settings.channels[usize::from(channel) - 1].operating = random.below(1000) as u32;
    }
    let image = match random.below(4) {
        0 => settings.encode_old().to_vec(),
        _ => settings.encode().to_vec(),
    };
    // The script knows the tables from then on.
    script.power(&image);
    script.take_calls();
    image
}

/// The first list: stretches of calls for c, for others, or for all of them,
/// pump runs and opening hours.
fn first_list(script: &mut Script, channel: u8, others: &[u8], long: bool) -> Vec<Call> {
    let all = [&[channel, channel], others].concat();
    let length = script.random.within(10, 190) as usize;
    while script.length() < length {
        script.flavour = script.random.pick(FLAVOURS);
        match script.random.below(16) {
            0..=1 => watch(script, channel, others),
            2..=3 => stretch(script, &[channel]),
            4..=5 => stretch(script, others),
            6 => name_others(script, channel, others),
            7..=8 => runs::pump_runs(script, channel, others),
            9..=10 => hours::opening_hours(script, channel, others),
            11 if script.random.chance(1, 3) => hours::minute_moves(script, channel, others),
            _ => stretch(script, &all),
        }
    }
    if script.random.chance(1, 2) {
        hours::leave_hours(script, channel);
        stretch(script, others);
    }
    if long {
        go_through_save(script, channel, others);
    }
    let mut list = script.take_calls();
    list.retain(|call| !matches!(call, Call::Store(_)));
    list
}

fn stretch(script: &mut Script, channels: &[u8]) {
    script.focus = channels.to_vec();
    let stop = script.length() + script.random.within(2, 15) as usize;
    while script.length() < stop {
        let action = script.random.weighted(ACTIONS);
        action(script);
    }
}

/// A ChConfig for c that names others, mostly accepted, and what they do then.
fn name_others(script: &mut Script, channel: u8, others: &[u8]) {
    let random = &mut script.random;
    let config = values::config(random, channel, others, Flavour::Feedback);
    script.write_with_enable(u16::from(channel) * 0x10 + 9, &config);
    stretch(script, &[&[channel], others].concat());
}

/// Switches c on. Then only other channels' wire calls, here and there, keep
/// the watchdog from running out; half of the time there are none, and nothing
/// keeps it.
fn watch(script: &mut Script, channel: u8, others: &[u8]) {
    let flag_reg = u16::from(channel) * 0x10;
    if script.random.chance(1, 2) {
        // The watchdog on, and a WDPreset of eight ticks.
        script.write_with_enable(0x09, &[0; 4]);
        script.write_word(0x0A, 0x3E80_0000);
    }
    let on = script.random.pick(&[0x80, 0x08, 0x88]);
    script.write(flag_reg, &[on]);
    script.focus = others.to_vec();
    let calls = match script.random.below(2) {
        0 => source::LONE_CALLS,
        _ => source::QUIET_CALLS,
    };
    for _ in 0..script.random.within(2, 8) {
        let call = script.random.weighted(calls);
        call(script);
        let ticks = script.random.within(1, 5);
        script.tick(ticks);
    }
    script.read_register(flag_reg);
}

/// Ticks up to the ten-hour save and over it. c's InFlag is TRUE on the way,
/// so that its operating count, which gains 1 with every fourth tick, tells the
/// tick of the save; then come pulses.
fn go_through_save(script: &mut Script, channel: u8, others: &[u8]) {
    for _ in 0..5 {
        stretch(script, others);
    }
    script.write(0x0D, &[1]);
    script.write(u16::from(channel) * 0x10 + 9, &[0, 0x10, 0, 0]);
    script.sample(channel, true, 0);
    script.focus = vec![channel];
    script.long_runs = 1;
    act::save(script);
}

/// "Strangers of c: digital channels other than c that neither the image nor
/// an accepted ChConfig write to c [...] names as c's Ref_A or Ref_B." The
/// model's ChConfig of c is looked at after each call: it holds what the
/// image named, then what each accepted write names.
fn strangers(channel: u8, image: &[u8], list: &[Call]) -> Vec<u8> {
    let mut device = ChannelBox::default();
    assert_eq!(device.power_up(image), 0, "the image is accepted");
    let mut known = vec![channel];
    let mut look = |device: &ChannelBox| {
        let config = device.channels[usize::from(channel) - 1].kept.config;
        known.extend([config.ref_a, config.ref_b]);
    };
    look(&device);
    for call in list {
        call.make(&mut device);
        look(&device);
    }
    let digital = 1..=CHANNELS as u8;
    digital.filter(|other| !known.contains(other)).collect()
}

/// Reads of each register of some channels.
fn reads(script: &mut Script, channels: &[u8]) -> Vec<Call> {
    for &channel in channels {
        for register in REGISTERS {
            script.read_register(u16::from(channel) * 0x10 + register);
        }
    }
    script.take_calls()
}

#[cfg(test)]
mod tests;
