//! The script being written, and what its writer knows of the box.

mod hours;
mod limits;
mod outputs;
mod readings;

use super::random::Random;
use super::values::{self, Flavour};
use crate::data::LookUp;
use crate::image::Settings;
use crate::player::Call;
use crate::reals;
use crate::registers::{Access, Digital, Register};
use crate::CHANNELS;
use hours::Timetable;
use limits::Given;
use readings::Played;
use std::fmt::Write;

/// Ticks from one save to the next.
const SAVE: u64 = 1_152_000;
/// Ticks from one look at the feedback to the next.
const LOOK: u64 = 4;

/// The level and the current that a channel was last given.
#[derive(Clone, Copy, Default)]
struct Terminal {
    level: bool,
    amperes: u32,
}

pub struct Script {
    pub random: Random,
    pub flavour: Flavour,
    /// The channels that most calls are for.
    pub focus: Vec<u8>,
    /// The ChConfig last written to each channel.
    configs: [Option<[u8; 4]>; CHANNELS],
    /// Each channel's last sample since power-up or reset, or OutCurrent as
    /// written after it; what was refused is left out.
    terminals: [Terminal; CHANNELS],
    /// The two lookup tables, as far as the writer knows them.
    tables: [LookUp; 2],
    /// The corner of samples that came last; at first the seed, so that scripts
    /// begin at different corners.
    corner: usize,
    /// How many long runs of ticks may still come.
    pub long_runs: u32,
    /// The channels called since power-up, channel k at bit k−1.
    touched: u16,
    write_enable: bool,
    ticks: u64,
    /// The minute and the windows, as far as the writer knows them.
    timetable: Timetable,
    /// The limits and the watchdog, as far as the writer knows them.
    given: Given,
    calls: Vec<Call>,
    /// The box that the calls so far leave.
    played: Played,
}

impl Script {
    pub fn new(seed: u64) -> Script {
        let mut script = Script {
            random: Random::new(seed),
            flavour: Flavour::Plain,
            focus: Vec::new(),
            configs: [None; CHANNELS],
            terminals: Default::default(),
            tables: Default::default(),
            corner: seed as usize,
            long_runs: 0,
            touched: 0,
            write_enable: false,
            ticks: 0,
            timetable: Timetable::default(),
            given: Given::by(&Settings::default()),
            calls: Vec::new(),
            played: Played::default(),
        };
        script.refocus();
        script
    }

    /// How many calls there are.
    pub fn length(&self) -> usize {
        self.calls.len()
    }

    /// The calls so far, which are taken out.
    pub fn take_calls(&mut self) -> Vec<Call> {
        self.played = Played::default();
        std::mem::take(&mut self.calls)
    }

    pub fn into_text(self) -> String {
        let mut text = String::new();
        for call in self.calls {
            writeln!(text, "{call}").expect("a string takes all");
        }
        text
    }

    /// Turns to other channels, two to four of them.
    pub fn refocus(&mut self) {
        let count = self.random.within(2, 4);
        self.focus = (0..count)
            .map(|_| self.random.within(1, 16) as u8)
            .collect();
    }

    pub fn power(&mut self, image: &[u8]) {
        self.calls.push(Call::Power(image.to_vec()));
        let settings = Settings::decode(image).unwrap_or_default();
        self.tables = settings.data.tables;
        self.given = Given::by(&settings);
        self.touched = 0;
        self.restart();
    }

    fn restart(&mut self) {
        self.write_enable = false;
        self.terminals = Default::default();
        self.ticks = 0;
        self.timetable = Timetable::default();
    }

    pub fn store(&mut self, length: usize) {
        self.calls.push(Call::Store(length));
    }

    /// A read with a lent buffer of random bytes.
    pub fn read(&mut self, swno: u16, length: usize) {
        let lent = self.random.bytes(length);
        self.calls.push(Call::Read(swno, lent));
    }

    /// A read with a buffer that is long enough, and now and then longer.
    pub fn read_register(&mut self, swno: u16) {
        let length = Register::find(swno).map_or(4, Register::length);
        let longer = match self.random.below(4) {
            0 => self.random.below(5) as usize,
            _ => 0,
        };
        self.read(swno, length + longer);
    }

    pub fn write(&mut self, swno: u16, bytes: &[u8]) {
        self.calls.push(Call::Write(swno, bytes.to_vec()));
        match (swno, bytes) {
            (0x0D, [on @ 0..=1]) => self.write_enable = *on == 1,
            (0x03, [0xFF]) => self.restart(),
            (0x09, _) => self.remember_module(bytes),
            (0x13C | 0x13D, _) => self.remember_table(usize::from(swno - 0x13C), bytes),
            _ => self.remember_digital(swno, bytes),
        }
    }

    fn remember_table(&mut self, index: usize, bytes: &[u8]) {
        let table = bytes.try_into().map(LookUp::from_bytes);
        match table {
            Ok(table) if self.write_enable && table.is_allowed() => self.tables[index] = table,
            _ => {}
        }
    }

    /// Table 2, or table 1 for every other number.
    pub fn table(&self, table: u8) -> LookUp {
        self.tables[usize::from(table == 2)]
    }

    fn remember_digital(&mut self, swno: u16, bytes: &[u8]) {
        let four: Option<[u8; 4]> = bytes.try_into().ok();
        match (Register::find(swno), four) {
            (Ok(Register::Digital(index, Digital::ChConfig)), four) => self.configs[index] = four,
            (Ok(Register::Digital(index, Digital::OutCurrent)), Some(four)) => {
                let level = self.terminals[index].level;
                self.remember_sample(index, level, u32::from_be_bytes(four));
            }
            (Ok(Register::Digital(index, register)), Some(four)) => {
                self.remember_limit(index, register, u32::from_be_bytes(four));
            }
            _ => {}
        }
    }

    fn remember_sample(&mut self, index: usize, level: bool, amperes: u32) {
        match self.terminals.get_mut(index) {
            Some(terminal) if reals::is_finite(amperes) => *terminal = Terminal { level, amperes },
            _ => {}
        }
    }

    /// The level of a channel's last sample.
    fn last_level(&self, channel: u8) -> bool {
        self.terminals[usize::from(channel) - 1].level
    }

    /// The current of a channel's last sample, or as written after it.
    fn last_current(&self, channel: u8) -> u32 {
        self.terminals[usize::from(channel) - 1].amperes
    }

    /// The ChConfig last written to a channel.
    pub fn last_config(&self, channel: u8) -> Option<[u8; 4]> {
        self.configs[usize::from(channel) - 1]
    }

    /// A write that suits the register; before a protected one WriteEnable is
    /// mostly made TRUE.
    pub fn write_suiting(&mut self, swno: u16) {
        let bytes = values::suiting(&mut self.random, swno, &self.focus, self.flavour);
        self.write_with_enable(swno, &bytes);
    }

    pub fn write_with_enable(&mut self, swno: u16, bytes: &[u8]) {
        let protected = Register::find(swno).map(Register::access) == Ok(Access::Protected);
        if protected && !self.write_enable && self.random.chance(15, 16) {
            self.write(0x0D, &[1]);
        }
        self.write(swno, bytes);
    }

    pub fn write_word(&mut self, swno: u16, word: u32) {
        self.write_with_enable(swno, &word.to_be_bytes());
    }

    /// Change 3: a level and a current at once.
    pub fn sample(&mut self, channel: u8, level: bool, amperes: u32) {
        self.calls.push(Call::Sample(channel, level, amperes));
        let index = usize::from(channel).wrapping_sub(1);
        self.remember_sample(index, level, amperes);
    }

    /// A number below `corners`, another each time until all have come. A step
    /// of 35 leads through any number of them that 5 and 7 don't divide.
    pub fn next_corner(&mut self, corners: usize) -> usize {
        self.corner = (self.corner % corners + 35) % corners;
        self.corner
    }

    /// A sample for the sake of its level: the current is mostly the last one,
    /// or 0 where that trips; now and then it is 0 or any.
    pub fn sample_level(&mut self, channel: u8, level: bool) {
        let last = self.last_current(channel);
        let amperes = match self.random.below(16) {
            0 => values::current(&mut self.random),
            1 | 2 => 0,
            _ if reals::greater(last, values::TRIP) => 0,
            _ => last,
        };
        self.sample(channel, level, amperes);
    }

    /// A sample for the sake of its current: the level is mostly the last one.
    pub fn sample_current(&mut self, channel: u8, amperes: u32) {
        let changed = self.random.chance(1, 4);
        let level = self.last_level(channel) != changed;
        self.sample(channel, level, amperes);
    }

    pub fn lookup(&mut self, table: u8, x: u32) {
        self.calls.push(Call::Lookup(table, x));
    }

    pub fn tick(&mut self, count: u64) {
        self.calls.push(Call::Tick(count as u32));
        self.ticks += count;
        self.timetable.pass(count);
    }

    /// How many ticks there are up to and with the next save.
    pub fn ticks_to_save(&self) -> u64 {
        SAVE - self.ticks % SAVE
    }

    /// How many ticks there are up to and with the next look.
    pub fn ticks_to_look(&self) -> u64 {
        LOOK - self.ticks % LOOK
    }

    /// Mostly a channel of the focus, now and then any other.
    pub fn channel(&mut self) -> u8 {
        let channel = if self.random.chance(1, 12) {
            self.random.within(1, 16) as u8
        } else {
            self.random.pick(&self.focus)
        };
        self.touched |= 1 << (channel - 1);
        channel
    }

    /// The channels called since power-up.
    pub fn touched(&self) -> Vec<u8> {
        let touched = |channel: &u8| self.touched >> (channel - 1) & 1 == 1;
        (1..=CHANNELS as u8).filter(touched).collect()
    }

    /// A register of some channel.
    pub fn digital(&mut self, register: u16) -> u16 {
        u16::from(self.channel()) * 0x10 + register
    }
}
