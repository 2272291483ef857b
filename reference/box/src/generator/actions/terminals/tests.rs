//! The corners that scripts of samples reach, and what is read after them.

use crate::channel::Channel;
use crate::generator::kinds::{self, Kind};
use crate::player::Call;
use crate::reals;
use crate::registers::{Digital, Register};
use crate::ChannelBox;
use std::collections::BTreeMap;

/// How often something came about.
type Seen = BTreeMap<String, u32>;

fn see(seen: &mut Seen, what: String) {
    *seen.entry(what).or_default() += 1;
}

fn channel_of(device: &ChannelBox, channel: u8) -> Option<&Channel> {
    device.channels.get(usize::from(channel).wrapping_sub(1))
}

/// What a level is to a channel.
fn level_in_words(channel: &Channel, level: bool) -> &'static str {
    match (channel.in_flag, level) {
        (false, true) => "rise",
        (true, false) => "fall",
        _ => "same",
    }
}

fn current_in_words(amperes: u32) -> &'static str {
    match amperes {
        0x8000_0000 => "-0",
        0x4000_0000 => "2",
        0x4000_0001 => "just above 2",
        0x7F80_0000 => "infinity",
        0xFF80_0000 => "-infinity",
        _ if !reals::is_finite(amperes) && amperes >> 31 == 1 => "-NaN",
        _ if !reals::is_finite(amperes) => "NaN",
        _ if reals::greater(amperes, reals::TWO) => "above 2",
        _ => "quiet",
    }
}

fn input(channel: &Channel) -> &'static str {
    match channel.kept.config.simulates_input() {
        true => "simulated",
        false => "wired",
    }
}

fn out_flag(channel: &Channel) -> &'static str {
    match channel.out_flag {
        true => "on",
        false => "off",
    }
}

/// A sample in words, by what it meets.
fn in_words(device: &ChannelBox, number: u8, channel: u8, level: bool, amperes: u32) -> String {
    let current = current_in_words(amperes);
    match (number, channel_of(device, channel)) {
        (9, Some(state)) => format!("9 {} {current}", level_in_words(state, level)),
        (_, Some(state)) => {
            let (input, level) = (input(state), level_in_words(state, level));
            format!("{input} {level} {current} {}", out_flag(state))
        }
        _ => {
            let finite = reals::is_finite(amperes);
            format!("8 {channel} finite {finite}")
        }
    }
}

/// What a sample does beside: the change rule, the counter's end, the same
/// sample as the last one for its channel.
fn watch_beside(before: &Channel, after: &Channel, seen: &mut Seen) {
    let tripped = before.out_flag && !after.out_flag;
    let rise = after.in_flag && !before.in_flag;
    if tripped && rise {
        let reference = before.kept.config.names_a_reference();
        let status = (before.fb_status, after.fb_status);
        see(seen, format!("reference {reference} status {status:?}"));
        let timer = before.fb_timer != after.fb_timer;
        see(seen, format!("timer moved {timer}"));
        let silent = before.kept.config.silences_overload();
        see(seen, format!("silent {silent}"));
        see(seen, format!("control {}", before.control));
    }
    if rise && before.counter == i32::MAX {
        see(seen, format!("end tripping {}", after.is_above_two()));
    }
    if before.in_flag == after.in_flag && before.out_current == after.out_current {
        see(seen, format!("again tripping {tripped}"));
    }
}

/// The last sample or write of OutCurrent, with its channel, if nothing but
/// reads came after.
type Last = Option<(usize, String)>;

/// A write of OutCurrent in words, with its channel; none for other registers.
fn written_in_words(before: &ChannelBox, number: u8, swno: u16, value: &[u8]) -> Last {
    match Register::find(swno) {
        Ok(Register::Digital(index, Digital::OutCurrent)) => {
            let value = value.try_into().map(u32::from_be_bytes);
            let current = value.map_or("short", current_in_words);
            let in_flag = before.channels[index].in_flag;
            Some((index, format!("written {number} {current} in {in_flag}")))
        }
        _ => None,
    }
}

/// Makes a call on the box, and says what it met and what was read after it.
fn watch_call(device: &mut ChannelBox, call: &Call, last: &mut Last, seen: &mut Seen) {
    let before = device.clone();
    let reply = call.make(device).to_string();
    let number = reply.split(' ').nth(1).and_then(|word| word.parse().ok());
    let number: u8 = number.expect("a number");
    match call {
        Call::Sample(channel, level, amperes) => {
            let what = in_words(&before, number, *channel, *level, *amperes);
            if let Some(state) = channel_of(&before, *channel) {
                let index = usize::from(*channel) - 1;
                if number == 0 {
                    watch_beside(state, &device.channels[index], seen);
                }
                *last = Some((index, what.clone()));
            }
            see(seen, what);
        }
        Call::Read(swno, _) => {
            let register = Register::find(*swno);
            match (register, last) {
                (Ok(Register::Digital(index, register)), Some((sampled, what)))
                    if index == *sampled =>
                {
                    see(seen, format!("{what}, {register:?}"));
                }
                _ => {}
            }
        }
        Call::Write(swno, value) => {
            *last = written_in_words(&before, number, *swno, value);
            if let Some((_, what)) = last {
                see(seen, what.clone());
            }
        }
        _ => *last = None,
    }
}

fn watch(seed: u64, calls: usize) -> Seen {
    let mut seen = Seen::new();
    let mut device = ChannelBox::default();
    let mut last = None;
    let calls = kinds::calls(seed, calls, Kind::Samples).into_iter();
    // A question beside the calls has no number.
    for call in calls.filter(|call| *call != Call::Outputs) {
        watch_call(&mut device, &call, &mut last, &mut seen);
    }
    seen
}

/// What samples and written currents must be, each with reads after it of what
/// they reach.
fn corners_with_reads() -> Vec<String> {
    let mut corners = Vec::new();
    for input in ["wired", "simulated"] {
        for level in ["rise", "fall", "same"] {
            for current in ["2", "just above 2", "above 2"] {
                corners.push(format!("{input} {level} {current} on"));
                corners.push(format!("{input} {level} {current} off"));
            }
            corners.push(format!("{input} {level} quiet on"));
        }
    }
    for level in ["rise", "fall", "same"] {
        for current in ["infinity", "-infinity", "NaN", "-NaN"] {
            corners.push(format!("9 {level} {current}"));
        }
    }
    for in_flag in [false, true] {
        for current in ["2", "just above 2", "above 2", "-0"] {
            corners.push(format!("written 0 {current} in {in_flag}"));
        }
        for current in ["infinity", "-infinity", "NaN", "-NaN"] {
            corners.push(format!("written 7 {current} in {in_flag}"));
        }
    }
    corners
}

/// What must come about beside.
fn corners() -> Vec<String> {
    let mut corners = Vec::new();
    for channel in [0, 17, 255] {
        for finite in [false, true] {
            corners.push(format!("8 {channel} finite {finite}"));
        }
    }
    for level in ["rise", "fall", "same"] {
        for out_flag in ["on", "off"] {
            corners.push(format!("wired {level} -0 {out_flag}"));
            corners.push(format!("wired {level} -0 {out_flag}, OutCurrent"));
        }
        corners.push(format!("simulated {level} -0 off"));
    }
    let others = [
        "reference true status (false, true)",
        "reference true status (true, true)",
        "reference false status (false, false)",
        "timer moved false",
        "timer moved true",
        "silent false",
        "silent true",
        "control false",
        "control true",
        "end tripping false",
        "end tripping true",
        "again tripping false",
        "again tripping true",
    ];
    corners.extend(others.map(str::to_string));
    corners
}

#[test]
fn a_few_scripts_reach_every_corner_and_read_what_it_shows() {
    let mut seen = Seen::new();
    for seed in 1..=8 {
        for (what, count) in watch(seed, 2000) {
            *seen.entry(what).or_default() += count;
        }
    }
    let registers = ["FlagReg", "Counter", "OutCurrent", "FbTimer", "ChError"];
    let with_reads = corners_with_reads();
    let reads = with_reads
        .iter()
        .flat_map(|what| registers.map(|register| format!("{what}, {register}")));
    let missing = |what: &String| !seen.contains_key(what);
    let missing: Vec<String> = corners().into_iter().chain(reads).filter(missing).collect();
    assert_eq!(missing, Vec::<String>::new());
}
