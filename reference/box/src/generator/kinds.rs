//! The kinds of script, and a script of a kind.

use super::actions::{self as act, Action};
use super::script::Script;
use super::tables::PHASES;
use super::values::Flavour;
use crate::player::Call;

#[derive(Clone, Copy, Debug, PartialEq, Eq)]
pub enum Kind {
    Registers,
    Ticks,
    Watchdog,
    Feedback,
    Currents,
    Errors,
    Images,
    Refusals,
    Reset,
    Ends,
    Save,
    Tables,
    Runs,
    Samples,
    Charges,
    Hours,
    Mixed,
}

/// Every kind with its name.
pub const KINDS: &[(&str, Kind)] = &[
    ("registers", Kind::Registers),
    ("ticks", Kind::Ticks),
    ("watchdog", Kind::Watchdog),
    ("feedback", Kind::Feedback),
    ("currents", Kind::Currents),
    ("errors", Kind::Errors),
    ("images", Kind::Images),
    ("refusals", Kind::Refusals),
    ("reset", Kind::Reset),
    ("ends", Kind::Ends),
    ("save", Kind::Save),
    ("tables", Kind::Tables),
    ("runs", Kind::Runs),
    ("samples", Kind::Samples),
    ("charges", Kind::Charges),
    ("hours", Kind::Hours),
    ("mixed", Kind::Mixed),
];

impl Kind {
    pub fn named(name: &str) -> Option<Kind> {
        let found = KINDS.iter().find(|(known, _)| *known == name);
        found.map(|(_, kind)| *kind)
    }

    fn flavour(self) -> Flavour {
        match self {
            Kind::Watchdog => Flavour::Watchdog,
            Kind::Feedback => Flavour::Feedback,
            Kind::Currents => Flavour::Currents,
            Kind::Errors => Flavour::Errors,
            Kind::Ends => Flavour::Ends,
            Kind::Runs => Flavour::Runs,
            Kind::Samples => Flavour::Samples,
            _ => Flavour::Plain,
        }
    }
}

/// How many long runs of ticks a script of a kind may have.
fn long_runs(script: &mut Script, kind: Kind) -> u32 {
    match kind {
        Kind::Save => 3,
        Kind::Tables => 1,
        Kind::Runs => 2,
        Kind::Mixed => u32::from(script.random.chance(1, 8)),
        _ => 0,
    }
}

/// A script of about so many calls, as its text. Lines of `outputs`, which are
/// questions beside the calls, are not counted.
pub fn generate(seed: u64, calls: usize, kind: Kind) -> String {
    script(seed, calls, kind).into_text()
}

/// The calls of the same script.
pub fn calls(seed: u64, calls: usize, kind: Kind) -> Vec<Call> {
    script(seed, calls, kind).take_calls()
}

fn script(seed: u64, calls: usize, kind: Kind) -> Script {
    let mut script = Script::new(seed);
    script.flavour = kind.flavour();
    script.long_runs = long_runs(&mut script, kind);
    open(&mut script, kind);
    let closing = closing(calls);
    let end = calls.saturating_sub(closing.length);
    while script.length() < end {
        phase(&mut script, kind, end);
    }
    (closing.survey)(&mut script);
    if closing.length > 0 {
        // Another limit for each kind, and all of them for all kinds of a seed.
        let turn = seed.wrapping_add(kind as u64) % act::LIMITS.len() as u64;
        (act::LIMITS[turn as usize])(&mut script);
    }
    script.ask_outputs();
    script
}

/// The first call powers the box up; a script of refusals may begin with a
/// damaged image.
fn open(script: &mut Script, kind: Kind) {
    if kind == Kind::Refusals && script.random.chance(1, 3) {
        act::power_damaged(script);
    } else {
        act::power(script);
    }
    if script.random.chance(3, 4) {
        script.write(0x0D, &[1]);
    }
}

/// A stretch of calls by one table. The other channels that a new phase may
/// turn to bring new states in.
fn phase(script: &mut Script, kind: Kind, end: usize) {
    let current = match kind {
        Kind::Mixed => script.random.weighted(PHASES),
        _ => kind,
    };
    script.flavour = current.flavour();
    if script.random.chance(1, 4) {
        script.refocus();
    }
    if script.random.chance(1, 4) && current != Kind::Save {
        act::power(script);
    }
    let length = script.random.within(10, 80) as usize;
    let stop = end.min(script.length() + length);
    while script.length() < stop {
        let action = script.random.weighted(current.table());
        action(script);
    }
}

struct Closing {
    length: usize,
    survey: Action,
}

/// How a script of so many calls ends: with as much of a survey as suits it.
fn closing(calls: usize) -> Closing {
    let (length, survey): (usize, Action) = match calls {
        0..=99 => (0, |_| {}),
        100..=499 => (62, act::survey_focus),
        _ => (269, act::survey_all),
    };
    Closing { length, survey }
}

#[cfg(test)]
mod tests {
    use super::*;
    use crate::player::Reply;
    use crate::ChannelBox;

    #[test]
    fn the_same_seed_gives_the_same_script() {
        for &(_, kind) in KINDS {
            let script = generate(5, 300, kind);
            assert_eq!(script, generate(5, 300, kind));
            assert_ne!(script, generate(6, 300, kind));
        }
    }

    #[test]
    fn a_script_has_about_as_many_calls_as_asked() {
        for &(name, kind) in KINDS {
            for calls in [20, 150, 1000] {
                let script = generate(1, calls, kind);
                let lines = script.lines().filter(|&line| line != "outputs").count();
                assert!(lines.abs_diff(calls) < 50, "{name} {calls} {lines}");
            }
        }
    }

    /// In most kinds some outputs are on where they are asked for.
    #[test]
    fn every_kind_asks_for_the_outputs() {
        let mut kinds_with_outputs = 0;
        for &(name, kind) in KINDS {
            let mut device = ChannelBox::default();
            let mut words = Vec::new();
            for call in calls(1, 1000, kind) {
                if let Reply::Outputs(word) = call.make(&mut device) {
                    words.push(word);
                }
            }
            assert!((20..120).contains(&words.len()), "{name}");
            kinds_with_outputs += usize::from(words.iter().any(|&word| word != 0));
        }
        assert!(kinds_with_outputs >= 12);
    }

    #[test]
    fn the_last_line_asks_for_the_outputs() {
        for &(_, kind) in KINDS {
            for calls in [20, 150, 1000] {
                assert!(generate(1, calls, kind).ends_with("\noutputs\n"));
            }
        }
    }

    #[test]
    fn every_script_starts_with_power() {
        for &(_, kind) in KINDS {
            for seed in 0..20 {
                assert!(generate(seed, 20, kind).starts_with("power "));
            }
        }
    }

    #[test]
    fn kinds_are_known_by_name() {
        assert_eq!(Kind::named("ends"), Some(Kind::Ends));
        assert_eq!(Kind::named("end"), None);
    }
}
