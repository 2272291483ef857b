//! A channel: its settings, its flags and what calls do to them.

mod config;
mod operating;

pub use config::{Config, Function};

use crate::hours::Windows;
use crate::reals::{self, Real};

/// "FlagReg bits: 7 OutFlag, 6 InFlag, 5 InA, 4 InB, 3 Control, 2 FBStatus,
/// 1 Act not 0, 0 zero."
pub mod flag {
    pub const OUT: u8 = 1 << 7;
    pub const IN: u8 = 1 << 6;
    pub const IN_A: u8 = 1 << 5;
    pub const IN_B: u8 = 1 << 4;
    pub const CONTROL: u8 = 1 << 3;
    pub const FB_STATUS: u8 = 1 << 2;
    pub const ERROR: u8 = 1 << 1;
}

/// The bits of a digital channel's ChError.
pub mod error {
    pub const OVERLOAD: u8 = 1 << 6;
    pub const UNDERLOAD: u8 = 1 << 5;
    pub const EXTERNAL_SHORT_CIRCUIT: u8 = 1 << 4;
    pub const INTERNAL_SHORT_CIRCUIT: u8 = 1 << 3;
    pub const DISCONNECTION: u8 = 1 << 2;
    pub const FEEDBACK: u8 = 1 << 1;
    pub const PRG_ERROR: u8 = 1 << 0;
}

/// The kept values of a channel: its image entry. Of the protected registers
/// there is no other copy, since "a protected write is kept at once".
#[derive(Clone, Copy, Debug, Default, PartialEq, Eq)]
pub struct Kept {
    pub config: Config,
    pub fb_preset: i32,
    pub out_preset: i32,
    pub min_current: Real,
    pub max_current: Real,
    pub user_reals: [u8; 8],
    pub maintenance: [u8; 4],
    pub user_bytes: [u8; 4],
    pub counter: i32,
    pub operating: u32,
}

/// A digital channel.
#[derive(Clone, Copy, Debug, Default, PartialEq, Eq)]
pub struct Channel {
    pub kept: Kept,
    pub counter: i32,
    pub operating: u32,
    /// Change 2: "the left-over quarters" of an eighth, which no image holds;
    /// see [`Channel::left_over`].
    pub quarters: u8,
    pub user_bytes: [u8; 4],
    pub out_flag: bool,
    pub in_flag: bool,
    pub control: bool,
    pub fb_status: bool,
    /// "InternalState (Control as last seen by the special function)".
    pub internal_state: bool,
    pub out_timer: i32,
    pub fb_timer: i32,
    pub out_current: Real,
    pub his: u8,
    pub act: u8,
    /// Change 6: "Each channel has up to eight windows".
    pub windows: Windows,
}

impl Channel {
    /// A channel restored from its kept values, "all else 0". Change 2: "the
    /// left-over quarters are lost at reset", and so at power-up. Change 6: the
    /// windows are "emptied by reset".
    pub fn restored(kept: Kept) -> Channel {
        Channel {
            kept,
            counter: kept.counter,
            operating: kept.operating,
            user_bytes: kept.user_bytes,
            ..Channel::default()
        }
    }

    /// "Output = OutFlag and Functions not 0."
    pub fn output(&self) -> bool {
        self.out_flag && !self.is_input()
    }

    pub fn is_input(&self) -> bool {
        self.kept.config.function() == Function::Input
    }

    /// "InA is InFlag of Ref_A [...], 0 without a reference; simulated
    /// feedback gives OutFlag and its opposite, reference or not." The word
    /// holds InFlag of channel k at bit k−1.
    pub fn in_a(&self, in_flags: u16) -> bool {
        if self.kept.config.simulates_feedback() {
            return self.out_flag;
        }
        is_set(in_flags, self.kept.config.index_a())
    }

    /// "InB of Ref_B".
    pub fn in_b(&self, in_flags: u16) -> bool {
        if self.kept.config.simulates_feedback() {
            return !self.out_flag;
        }
        is_set(in_flags, self.kept.config.index_b())
    }

    /// FlagReg as it reads.
    pub fn flag_reg(&self, in_flags: u16) -> u8 {
        let bits = [
            (flag::OUT, self.out_flag),
            (flag::IN, self.in_flag),
            (flag::IN_A, self.in_a(in_flags)),
            (flag::IN_B, self.in_b(in_flags)),
            (flag::CONTROL, self.control),
            (flag::FB_STATUS, self.fb_status),
            (flag::ERROR, self.act != 0),
        ];
        bits.iter()
            .filter(|(_, on)| *on)
            .fold(0, |byte, (bit, _)| byte | bit)
    }

    /// "*Change rule*: when OutFlag changes, FBTimer := FBPreset, and
    /// FBStatus := TRUE if a reference is set."
    pub fn change_rule(&mut self, before: bool) {
        if self.out_flag == before {
            return;
        }
        self.fb_timer = self.kept.fb_preset;
        if self.kept.config.names_a_reference() {
            self.fb_status = true;
        }
    }

    /// "Setting any Act bit, here or elsewhere, sets its His bit."
    pub fn set_error(&mut self, bits: u8) {
        self.act |= bits;
        self.his |= bits;
    }

    /// "then that His := its Act".
    pub fn acknowledge(&mut self) {
        self.his = self.act;
    }

    /// "Each InFlag 0 to 1 adds 1 to Counter, 2147483647 going to
    /// −2147483648."
    fn set_in_flag(&mut self, on: bool) {
        if on && !self.in_flag {
            self.counter = self.counter.wrapping_add(1);
        }
        self.in_flag = on;
    }

    /// Change 3: "sets the level first and then the current".
    pub fn sample(&mut self, level: bool, amperes: Real) {
        self.set_level(level);
        self.set_current(amperes);
    }

    /// "A level sets InFlag unless simulated."
    fn set_level(&mut self, on: bool) {
        if !self.kept.config.simulates_input() {
            self.set_in_flag(on);
        }
    }

    /// "InFlags sets simulated channels only."
    pub fn simulate_in_flag(&mut self, on: bool) {
        if self.kept.config.simulates_input() {
            self.set_in_flag(on);
        }
    }

    /// "A current is stored; above 2 it trips". "Writing OutCurrent acts as a
    /// current": as a current alone, after Change 3 too.
    pub(crate) fn set_current(&mut self, amperes: Real) {
        self.out_current = amperes;
        if self.is_above_two() {
            self.trip();
        }
    }

    pub fn is_above_two(&self) -> bool {
        reals::greater(self.out_current, reals::TWO)
    }

    /// "it trips: OutFlag and Control FALSE, and unless Enablebit 6, overload
    /// (bit 6 of ChError) is set"; then the change rule.
    pub fn trip(&mut self) {
        let before = self.out_flag;
        self.out_flag = false;
        self.control = false;
        if !self.kept.config.silences_overload() {
            self.set_error(error::OVERLOAD);
        }
        self.change_rule(before);
    }

    /// "Writing FlagReg clears Act bits 6 and 0, then takes bits 7 and 3, and
    /// bit 6 if simulated."
    pub fn write_flag_reg(&mut self, byte: u8) {
        self.act &= !(error::OVERLOAD | error::PRG_ERROR);
        let before = self.out_flag;
        self.take_out_flag(byte & flag::OUT != 0);
        self.change_rule(before);
        self.take_control(byte & flag::CONTROL != 0);
        self.simulate_in_flag(byte & flag::IN != 0);
    }

    /// "OutFlags takes bit 7 alike, clears no Act bit, and skips the change
    /// rule for FALSE to TRUE."
    pub fn write_out_flags_bit(&mut self, on: bool) {
        let before = self.out_flag;
        self.take_out_flag(on);
        if before {
            self.change_rule(before);
        }
    }

    /// "A set bit 7 on Functions 0 [...] isn't taken (the flag stays) and
    /// sets PrgError."
    fn take_out_flag(&mut self, on: bool) {
        if on && self.is_input() {
            self.set_error(error::PRG_ERROR);
        } else {
            self.out_flag = on;
        }
    }

    /// "or a set bit 3 on 0 or $10, isn't taken (the flag stays) and sets
    /// PrgError."
    fn take_control(&mut self, on: bool) {
        let function = self.kept.config.function();
        if on && matches!(function, Function::Input | Function::Output) {
            self.set_error(error::PRG_ERROR);
        } else {
            self.control = on;
        }
    }

    /// "Writing ChConfig clears FBStatus, Control, InternalState [...], then
    /// OutFlag under the new settings by the change rule."
    pub fn write_config(&mut self, config: Config) {
        self.kept.config = config;
        self.fb_status = false;
        self.control = false;
        self.internal_state = false;
        let before = self.out_flag;
        self.out_flag = false;
        self.change_rule(before);
    }

    /// Step 7 of a tick: "Counter and the operating count are kept." The
    /// left-over quarters go on.
    pub fn keep_counts(&mut self) {
        self.kept.counter = self.counter;
        self.kept.operating = self.operating;
    }
}

fn is_set(word: u16, index: Option<usize>) -> bool {
    index.is_some_and(|index| word >> index & 1 == 1)
}

#[cfg(test)]
mod tests;
