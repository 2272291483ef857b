//! The corners that scripts of hours reach.

mod wrong;

use crate::channel::Channel;
use crate::generator::kinds::{self, Kind};
use crate::hours::Windows;
use crate::player::Call;
use crate::ChannelBox;
use std::collections::BTreeMap;

/// How often something came about.
type Seen = BTreeMap<String, u32>;

fn see(seen: &mut Seen, what: String) {
    *seen.entry(what).or_default() += 1;
}

/// What a tick meets: which minute begins, and which channels close.
fn watch_tick(device: &mut ChannelBox, seen: &mut Seen) {
    let before = device.clone();
    device.tick();
    let minute = device.clock.now();
    if let (Some(old), Some(new)) = (before.clock.now(), minute) {
        if old != new && (old >= 10_078 || old == 0) {
            see(seen, format!("moved {old} to {new}"));
        }
    }
    for (channel, before) in device.channels.iter().zip(&before.channels) {
        if channel.is_closed(minute) && (before.out_flag || before.control) {
            watch_closing(before, channel, seen);
        }
    }
}

/// What a channel was as a tick closed it.
fn watch_closing(before: &Channel, after: &Channel, seen: &mut Seen) {
    let config = before.kept.config;
    let (out_flag, control) = (before.out_flag, before.control);
    let what = format!("{:02x} {out_flag} {control}", config.functions);
    see(seen, format!("{what} seen {}", before.internal_state));
    if out_flag {
        let reference = config.names_a_reference();
        let status = (before.fb_status, after.fb_status);
        see(seen, format!("reference {reference} status {status:?}"));
        see(seen, format!("overload {}", after.is_above_two()));
    }
}

/// What a call brings: settings in the middle of a minute, windows of so many,
/// and what a reset or a power-up takes away.
fn watch_call(device: &mut ChannelBox, call: &Call, seen: &mut Seen) {
    let before = device.clone();
    let reply = call.make(device).to_string();
    let number = reply.split(' ').nth(1).expect("a number");
    let any = |device: &ChannelBox| {
        let empty = |channel: &Channel| channel.windows == Windows::default();
        device.clock.minute.is_some() && !device.channels.iter().all(empty)
    };
    match call {
        Call::Minute(minute) => {
            let same = before.clock.now() == Some(*minute);
            let middle = before.clock.ticks > 0;
            see(seen, format!("minute {number} same {same} middle {middle}"));
        }
        Call::Windows(_, windows) => {
            let late = windows.iter().any(|&(start, end)| start.max(end) > 10_079);
            let count = windows.len().min(9);
            see(seen, format!("windows {number} {count} late {late}"));
        }
        Call::Power(_) if any(&before) => see(seen, "power".to_string()),
        Call::Write(0x03, _) if any(&before) => see(seen, format!("reset {number}")),
        _ => {}
    }
}

/// Which tick after the last setting each read of a FlagReg follows.
fn watch_reads(device: &ChannelBox, passed: u64, call: &Call, seen: &mut Seen) {
    match call {
        Call::Read(swno, _) if swno & 0xF == 0 && device.clock.minute.is_some() => {
            see(seen, format!("read after {passed}"));
        }
        _ => {}
    }
}

fn watch(seed: u64, calls: usize) -> Seen {
    let mut seen = Seen::new();
    let mut device = ChannelBox::default();
    let mut passed = 0;
    for call in kinds::calls(seed, calls, Kind::Hours) {
        watch_reads(&device, passed, &call, &mut seen);
        match call {
            Call::Tick(count) => {
                passed += u64::from(count);
                (0..count).for_each(|_| watch_tick(&mut device, &mut seen));
            }
            Call::Minute(0..=10_079) => passed = 0,
            _ => {}
        }
        if !matches!(call, Call::Tick(_)) {
            watch_call(&mut device, &call, &mut seen);
        }
    }
    seen
}

fn corners() -> Vec<String> {
    let mut corners = Vec::new();
    for ticks in [1_919, 1_920, 1_921, 3_839, 3_840] {
        corners.push(format!("read after {ticks}"));
    }
    corners.push("10 true false seen false".to_string());
    for functions in ["20", "30", "50"] {
        corners.push(format!("{functions} true true seen true"));
        corners.push(format!("{functions} true true seen false"));
        corners.push(format!("{functions} true false seen false"));
        corners.push(format!("{functions} false true seen false"));
    }
    for middle in [false, true] {
        for same in [false, true] {
            corners.push(format!("minute 0 same {same} middle {middle}"));
        }
        corners.push(format!("minute 18 same false middle {middle}"));
    }
    for count in [0, 1, 2, 8] {
        corners.push(format!("windows 0 {count} late false"));
        corners.push(format!("windows 8 {count} late false"));
    }
    for count in [1, 2, 3, 8, 9] {
        let number = if count == 9 { 19 } else { 18 };
        corners.push(format!("windows {number} {count} late true"));
        corners.push(format!("windows 8 {count} late true"));
    }
    let others = [
        "windows 19 9 late false",
        "moved 10078 to 10079",
        "moved 10079 to 0",
        "moved 0 to 1",
        "reference true status (false, true)",
        "reference true status (true, true)",
        "reference true status (true, false)",
        "reference false status (false, false)",
        "overload false",
        "overload true",
        "power",
        "reset 0",
    ];
    corners.extend(others.map(str::to_string));
    corners
}

#[test]
fn a_few_scripts_reach_every_corner() {
    let mut seen = Seen::new();
    for seed in 1..=8 {
        for (what, count) in watch(seed, 2000) {
            *seen.entry(what).or_default() += count;
        }
    }
    let missing = |what: &String| !seen.contains_key(what);
    let missing: Vec<String> = corners().into_iter().filter(missing).collect();
    assert_eq!(missing, Vec::<String>::new(), "{seen:#?}");
}

/// Ticks cost time: a script has far fewer than a million.
#[test]
fn scripts_have_few_ticks() {
    for seed in 0..20 {
        let calls = kinds::calls(seed, 1700, Kind::Hours);
        let ticks = calls.iter().map(|call| match call {
            Call::Tick(count) => u64::from(*count),
            _ => 0,
        });
        let ticks: u64 = ticks.sum();
        assert!((20_000..300_000).contains(&ticks), "{seed}: {ticks}");
    }
}

#[test]
fn mixed_scripts_have_hours() {
    for seed in [1, 2, 3, 3120] {
        let calls = kinds::calls(seed, 1700, Kind::Mixed);
        let windows = |call: &&Call| matches!(call, Call::Windows(..));
        assert!(calls.iter().filter(windows).count() > 5);
    }
}
