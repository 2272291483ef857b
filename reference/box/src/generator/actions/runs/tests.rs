//! The corners that scripts of runs reach.

use crate::generator::kinds::{self, Kind};
use crate::player::Call;
use crate::registers::{Digital, Register};
use crate::tick::LAST_OF_SAVE;
use crate::ChannelBox;
use std::collections::BTreeMap;

/// How often something came about.
type Seen = BTreeMap<String, u32>;

fn see(seen: &mut Seen, what: String) {
    *seen.entry(what).or_default() += 1;
}

/// What a tick does to quarters and counts.
fn watch_tick(device: &mut ChannelBox, seen: &mut Seen) {
    let before = device.channels;
    let save = device.save_count >= LAST_OF_SAVE;
    device.tick();
    let look = device.free_run_timer % 32 == 0;
    for (channel, before) in device.channels.iter().zip(before) {
        if channel.in_flag {
            let moved = channel.operating != before.operating;
            see(seen, format!("look {look} moved {moved}"));
            if channel.operating == u32::MAX {
                see(seen, format!("end {}", channel.quarters));
            }
            if save {
                let moved = u8::from(moved);
                see(seen, format!("save {} {moved}", channel.quarters));
            }
        }
    }
}

/// Which channels have a quarter left over, and which call finds them so.
fn watch_call(device: &mut ChannelBox, call: &Call, seen: &mut Seen) {
    let any = device.channels.iter().any(|channel| channel.quarters != 0);
    let before = device.clone();
    let reply = call.make(device).to_string();
    let number = reply.split(' ').nth(1).expect("a number");
    match call {
        Call::Power(_) if any => see(seen, "power".to_string()),
        Call::Write(0x03, _) if any => see(seen, format!("reset {number}")),
        Call::Read(swno, _) | Call::Write(swno, _) => {
            if let Ok(Register::Digital(index, register)) = Register::find(*swno) {
                let quarters = before.channels[index].quarters;
                let enable = u8::from(before.write_enable);
                let name = reply.split(' ').next().expect("a name");
                let what = format!("{name} {register:?} {number}");
                if register == Digital::OperatingTime {
                    see(seen, format!("{what} at {quarters} enabled {enable}"));
                } else if quarters != 0 {
                    see(seen, what);
                }
            }
        }
        _ => {}
    }
}

fn watch(seed: u64, calls: usize) -> Seen {
    let mut seen = Seen::new();
    let mut device = ChannelBox::default();
    for call in kinds::calls(seed, calls, Kind::Runs) {
        match call {
            Call::Tick(count) => (0..count).for_each(|_| watch_tick(&mut device, &mut seen)),
            _ => watch_call(&mut device, &call, &mut seen),
        }
    }
    seen
}

/// What scripts of runs must come to: runs on looks and off them, the end of
/// the count, every write of OperatingTime in the middle of quarters, what else
/// loses them or must not, and saves about which they stand as they can.
fn corners() -> Vec<String> {
    let mut corners = Vec::new();
    for look in [false, true] {
        for moved in [false, true] {
            corners.push(format!("look {look} moved {moved}"));
        }
    }
    for quarters in 0..4 {
        corners.push(format!("end {quarters}"));
    }
    for quarters in 1..4 {
        for enable in [0, 1] {
            for what in ["read {} 0", "write {} 0", "write {} 4", "write {} 7"] {
                let what = what.replace("{}", "OperatingTime");
                corners.push(format!("{what} at {quarters} enabled {enable}"));
            }
        }
    }
    let others = [
        "power",
        "reset 0",
        "save 0 1",
        "save 1 0",
        "save 2 0",
        "save 3 0",
        "write ChConfig 0",
        "write ChConfig 6",
        "write ChConfig 7",
        "write FlagReg 0",
        "write Counter 0",
        "write OutCurrent 0",
    ];
    corners.extend(others.map(str::to_string));
    corners
}

#[test]
fn a_few_scripts_reach_every_corner() {
    let mut seen = Seen::new();
    for seed in 1..=4 {
        for (what, count) in watch(seed, 2000) {
            *seen.entry(what).or_default() += count;
        }
    }
    for what in corners() {
        assert!(seen.contains_key(&what), "{what}: {seen:#?}");
    }
}
