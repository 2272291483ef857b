//! The times that scripts write and read back, by register.

use crate::generator::kinds::{self, Kind, KINDS};
use crate::player::Call;
use crate::registers::{Data, Digital, Register, Service};
use crate::ChannelBox;
use std::collections::BTreeMap;

/// How often something came about.
type Seen = BTreeMap<String, u32>;

/// Each register of a time: its name, the counts in a second, and whether it
/// allows both signs.
const TIMES: [(&str, f32, bool); 9] = [
    ("OutTimer", 256.0, true),
    ("FBTimer", 256.0, true),
    ("TimerA", 256.0, true),
    ("TimerB", 256.0, true),
    ("WDTimer", 256.0, false),
    ("WDPreset", 256.0, false),
    ("FBPreset", 256.0, false),
    ("OutPreset", 256.0, false),
    ("OperatingTime", 8.0, false),
];

const CASES: [&str; 5] = ["even tie", "odd tie", "below a tie", "above a tie", "typed"];

/// What a register from 0 refuses though it would become 0.
const REFUSED: [&str; 2] = ["the last below 0", "minus half"];

fn name(swno: u16) -> Option<&'static str> {
    match Register::find(swno).ok()? {
        Register::Digital(_, Digital::OutTimer) => Some("OutTimer"),
        Register::Digital(_, Digital::FbTimer) => Some("FBTimer"),
        Register::Digital(_, Digital::FbPreset) => Some("FBPreset"),
        Register::Digital(_, Digital::OutPreset) => Some("OutPreset"),
        Register::Digital(_, Digital::OperatingTime) => Some("OperatingTime"),
        Register::Service(Service::WdTimer) => Some("WDTimer"),
        Register::Service(Service::WdPreset) => Some("WDPreset"),
        Register::Data(Data::TimerA) => Some("TimerA"),
        Register::Data(Data::TimerB) => Some("TimerB"),
        _ => None,
    }
}

/// The count below a tie, where the pattern is one.
fn below_tie(magnitude: u32, per_second: f32) -> Option<u32> {
    let counts = f32::from_bits(magnitude) * per_second;
    (counts.fract() == 0.5).then_some(counts as u32)
}

fn is_typed(magnitude: u32) -> bool {
    (1..=10).any(|tenths| magnitude == (tenths as f32 / 10.0).to_bits())
}

/// What a time is to the counts of a register.
fn case(magnitude: u32, per_second: f32) -> Option<&'static str> {
    let tie = |pattern| below_tie(pattern, per_second).is_some();
    match below_tie(magnitude, per_second) {
        Some(below) if below % 2 == 0 => Some("even tie"),
        Some(_) => Some("odd tie"),
        None if is_typed(magnitude) => Some("typed"),
        None if tie(magnitude + 1) => Some("below a tie"),
        None if tie(magnitude.saturating_sub(1)) => Some("above a tie"),
        None => None,
    }
}

/// A write of a time in words; `number` is its answer.
fn in_words(swno: u16, bytes: &[u8], number: u8) -> Option<String> {
    let name = name(swno)?;
    let (_, per_second, _) = TIMES.into_iter().find(|row| row.0 == name)?;
    let time = u32::from_be_bytes(bytes.try_into().ok()?);
    let (sign, magnitude) = (time >> 31, time & 0x7FFF_FFFF);
    match number {
        0 => Some(format!("{name} {sign} {}", case(magnitude, per_second)?)),
        7 if time == 0x8000_0001 => Some(format!("{name} the last below 0")),
        7 if below_tie(magnitude, per_second) == Some(0) => Some(format!("{name} minus half")),
        _ => None,
    }
}

/// The times written, and those of them that the next call reads. Ticks are not
/// made: they change nothing that a question asks.
fn watch(kind: Kind, seed: u64, seen: &mut Seen) {
    let mut device = ChannelBox::default();
    let mut last = None;
    for call in &kinds::calls(seed, 1700, kind) {
        match call {
            Call::Tick(_) => last = None,
            // A question beside the calls, which has no number.
            Call::Outputs => {}
            _ => watch_call(&mut device, call, &mut last, seen),
        }
    }
}

/// A write and what it became, to be read with the next call.
type Last = Option<(u16, String)>;

fn watch_call(device: &mut ChannelBox, call: &Call, last: &mut Last, seen: &mut Seen) {
    let reply = call.make(device).to_string();
    let number = reply.split(' ').nth(1).and_then(|word| word.parse().ok());
    let number = number.expect("a number");
    let what = match (call, last.take()) {
        (Call::Read(swno, _), Some((written, what))) if *swno == written && number == 0 => {
            Some(format!("{what}, read"))
        }
        (Call::Write(swno, bytes), _) => {
            let what = in_words(*swno, bytes, number);
            *last = what.clone().map(|what| (*swno, what));
            what
        }
        _ => None,
    };
    if let Some(what) = what {
        *seen.entry(what).or_default() += 1;
    }
}

/// What is asked of scripts of every kind together: each case of each register.
fn cases() -> Vec<String> {
    let mut cases = Vec::new();
    for (name, _, both_signs) in TIMES {
        let signs: &[u32] = if both_signs { &[0, 1] } else { &[0] };
        for sign in signs {
            cases.extend(CASES.map(|case| format!("{name} {sign} {case}, read")));
        }
        if !both_signs {
            cases.extend(REFUSED.map(|case| format!("{name} {case}, read")));
        }
    }
    cases
}

#[test]
fn scripts_of_every_kind_write_each_case_to_each_register_and_read_it() {
    for seed in [1, 2, 3120] {
        let mut seen = Seen::new();
        for &(_, kind) in KINDS {
            watch(kind, seed, &mut seen);
        }
        for what in cases() {
            let count = seen.get(&what).copied().unwrap_or(0);
            assert!(count >= 2, "seed {seed}: {what} {count}");
        }
    }
}

#[test]
fn each_kind_that_writes_times_has_each_case() {
    for kind in [
        Kind::Registers,
        Kind::Ticks,
        Kind::Watchdog,
        Kind::Feedback,
        Kind::Images,
        Kind::Reset,
        Kind::Ends,
        Kind::Tables,
        Kind::Runs,
        Kind::Samples,
        Kind::Mixed,
    ] {
        let mut seen = Seen::new();
        watch(kind, 3120, &mut seen);
        for case in CASES {
            let written = seen.keys().any(|what| what.ends_with(case));
            assert!(written, "{kind:?} {case}");
        }
    }
}
