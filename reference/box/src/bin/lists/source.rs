//! Random calls for strangers, new ones or made from those of a list.

use crate::second::is_for;
use reference_box::generator::actions::{self as act, Action};
use reference_box::generator::random::Random;
use reference_box::generator::script::Script;
use reference_box::generator::values::{self, Flavour};
use reference_box::player::Call;

/// What is done to strangers, with weights. Calls for other channels that an
/// action makes beside are left out.
const ACTIONS: &[(u64, Action)] = &[
    (5, act::sample_level),
    (2, act::pulses),
    (3, act::sample_current),
    (2, act::sample_any),
    (2, act::trip_at_once),
    (1, act::sample_again),
    (1, act::refused_change),
    (3, act::overload),
    (1, act::trip_in_tick),
    (1, act::sample_end_current),
    (1, act::refused_sample),
    (4, act::read_state),
    (2, act::read_any),
    (3, act::read_errors),
    (6, act::write_any),
    (4, act::write_flag_reg),
    (4, act::start),
    (4, act::write_config),
    (2, act::write_timer),
    (2, act::write_working),
    (2, act::run),
    (2, act::set_any_in_flag),
    (1, act::write_operating_time),
    (1, act::refused_operating_time),
    (6, act::give_windows),
    (1, act::refused_hours),
    (1, act::write_end_time),
    (1, act::write_end_counter),
    (1, act::write_end_current),
    (2, act::refused_read),
    (3, act::refused_write),
    (5, refused_here),
];

/// Calls of which one may stand alone between ticks: wire calls that need no
/// other, samples, a lookup, windows and a minute (which are no wire calls), and
/// none.
pub const LONE_CALLS: &[(u64, Action)] = &[
    (2, act::read_state),
    (1, act::write_flag_reg),
    (1, act::write_timer),
    (2, refused_here),
    (1, act::sample_level),
    (1, act::sample_current),
    (1, act::refused_sample),
    (1, act::lookup),
    (1, act::give_windows),
    (1, act::set_minute),
    (3, |_| {}),
];

/// Those that are no wire calls, and none: the watchdog goes on over them.
pub const QUIET_CALLS: &[(u64, Action)] = &[
    (2, act::sample_level),
    (1, act::sample_current),
    (2, act::give_windows),
    (2, |_| {}),
];

/// A wire call that is refused, for a channel of the focus.
pub fn refused_here(script: &mut Script) {
    let register = script.random.pick(&[0x0, 0x2, 0x9, 0xE, 0xF]);
    let swno = script.digital(register);
    match script.random.below(3) {
        0 => script.read(swno, 0),
        1 => script.write(swno, &[]),
        _ => script.write(swno, &[0; 5]),
    }
}

/// Random calls for strangers, which there are.
pub struct Source {
    script: Script,
    strangers: Vec<u8>,
    made: Vec<Call>,
}

impl Source {
    pub fn new(seed: u64, strangers: &[u8]) -> Source {
        let mut script = Script::new(seed);
        script.focus = strangers.to_vec();
        Source {
            script,
            strangers: strangers.to_vec(),
            made: Vec::new(),
        }
    }

    pub fn random(&mut self) -> &mut Random {
        &mut self.script.random
    }

    fn next(&mut self) -> Call {
        loop {
            if let Some(call) = self.made.pop() {
                return call;
            }
            let flavours = [Flavour::Plain, Flavour::Feedback, Flavour::Currents];
            self.script.flavour = self.random().pick(&flavours);
            let action = self.random().weighted(ACTIONS);
            action(&mut self.script);
            self.made = self.script.take_calls();
            self.made.retain(|call| is_for(call, &self.strangers));
            self.made.reverse();
        }
    }

    pub fn next_wire(&mut self) -> Call {
        loop {
            let call = self.next();
            if call.is_wire() {
                return call;
            }
        }
    }

    /// Up to `most` new calls.
    fn some(&mut self, most: u64) -> Vec<Call> {
        let count = self.random().within(0, most);
        (0..count).map(|_| self.next()).collect()
    }

    pub fn edited(&mut self, gaps: &[Vec<Call>]) -> Vec<Vec<Call>> {
        gaps.iter().map(|gap| self.edited_gap(gap)).collect()
    }

    fn edited_gap(&mut self, gap: &[Call]) -> Vec<Call> {
        let mut edited = Vec::new();
        for call in gap {
            match self.random().below(8) {
                0 => {}
                1 => edited.push(self.next()),
                2 => edited.push(self.moved(call)),
                3 | 4 => edited.push(self.changed(call)),
                _ => edited.push(call.clone()),
            }
        }
        if self.random().chance(1, 4) {
            edited.extend(self.some(4));
        }
        edited
    }

    /// A call for another stranger, else the same.
    fn moved(&mut self, call: &Call) -> Call {
        let strangers = self.strangers.clone();
        let channel = self.random().pick(&strangers);
        let swno = |old: u16| u16::from(channel) * 0x10 + (old & 0xF);
        match call.clone() {
            Call::Read(old, lent) => Call::Read(swno(old), lent),
            Call::Write(old, value) => Call::Write(swno(old), value),
            Call::Sample(_, level, real) => Call::Sample(channel, level, real),
            Call::Windows(_, windows) => Call::Windows(channel, windows),
            call => call,
        }
    }

    /// A sample or windows with something else in them, now and then refused;
    /// else the same call.
    fn changed(&mut self, call: &Call) -> Call {
        match call {
            Call::Sample(channel, level, amperes) => {
                self.changed_sample(*channel, *level, *amperes)
            }
            Call::Windows(channel, windows) => self.changed_windows(*channel, windows),
            _ => call.clone(),
        }
    }

    /// Change 6: no windows, too many, a late end, or one window more or in
    /// place of another. A line has at most sixteen.
    fn changed_windows(&mut self, channel: u8, windows: &[(u16, u16)]) -> Call {
        let mut windows = windows.to_vec();
        windows.truncate(15);
        let [start, end] = [(); 2].map(|()| values::minute(self.random()));
        match self.random().below(6) {
            0 => windows.clear(),
            1 => windows.resize(9, (start, end)),
            2 => windows.push((start, values::refused_minute(self.random()))),
            3 => windows = vec![(start, end)],
            4 if windows.len() > 1 => drop(windows.pop()),
            _ => windows.push((start, end)),
        }
        Call::Windows(channel, windows)
    }

    /// Change 3: another level, another current or both.
    fn changed_sample(&mut self, channel: u8, level: bool, amperes: u32) -> Call {
        let other = match self.random().below(6) {
            0 => values::refused_current(self.random()),
            _ => values::sample_current(self.random()),
        };
        match self.random().below(3) {
            0 => Call::Sample(channel, !level, amperes),
            1 => Call::Sample(channel, level, other),
            _ => Call::Sample(channel, !level, other),
        }
    }

    pub fn scattered(&mut self, gaps: &[Vec<Call>]) -> Vec<Vec<Call>> {
        let mut scattered = vec![Vec::new(); gaps.len()];
        let mut calls: Vec<Call> = gaps.iter().flatten().cloned().collect();
        calls.extend(self.some(20));
        while !calls.is_empty() {
            let which = self.random().below(calls.len() as u64);
            let place = self.random().below(gaps.len() as u64);
            scattered[place as usize].push(calls.swap_remove(which as usize));
        }
        scattered
    }

    pub fn fresh(&mut self, count: usize) -> Vec<Vec<Call>> {
        let most = self.random().within(1, 5);
        (0..count).map(|_| self.some(most)).collect()
    }
}

#[cfg(test)]
mod tests {
    use super::*;

    /// A stranger's sample is one call: its level, its current or both are
    /// others, and its channel stays.
    #[test]
    fn samples_are_changed_in_level_current_or_both() {
        let mut source = Source::new(1, &[3, 4]);
        let mut seen = [0; 4];
        for _ in 0..300 {
            match source.changed(&Call::Sample(3, true, 0x3E80_0000)) {
                Call::Sample(3, level, amperes) => {
                    let current = amperes != 0x3E80_0000;
                    seen[usize::from(!level) + 2 * usize::from(current)] += 1;
                }
                other => panic!("{other}"),
            }
        }
        assert!(seen[1..].iter().all(|&count| count > 50), "{seen:?}");
        let tick = Call::Tick(2);
        assert_eq!(source.changed(&tick), tick);
    }

    /// Change 6: windows are others, and their channel stays.
    #[test]
    fn windows_are_changed_and_moved_whole() {
        let mut source = Source::new(1, &[4]);
        let windows = vec![(600, 720), (10_079, 1)];
        let call = Call::Windows(3, windows.clone());
        assert_eq!(source.moved(&call), Call::Windows(4, windows.clone()));
        let mut device = reference_box::ChannelBox::default();
        let mut seen = std::collections::BTreeSet::new();
        for _ in 0..100 {
            let changed = source.changed(&call);
            assert!(changed != call && changed.channel() == Some(3));
            seen.insert(changed.make(&mut device).to_string());
        }
        let numbers = ["windows 0", "windows 18", "windows 19"];
        assert_eq!(seen.into_iter().collect::<Vec<_>>(), numbers);
        let sixteen = Call::Windows(3, vec![(600, 720); 16]);
        for _ in 0..100 {
            let changed = source.changed(&sixteen);
            let line = changed.to_string();
            assert_eq!(Call::parse(line.as_bytes()), Ok(Some(changed)), "{line}");
        }
    }

    #[test]
    fn samples_are_moved_whole() {
        let mut source = Source::new(1, &[4]);
        let moved = source.moved(&Call::Sample(3, true, 0x7F80_0000));
        assert_eq!(moved, Call::Sample(4, true, 0x7F80_0000));
    }
}
