//! The kinds of line: a name, the conversion, and the words it is tried on.

use std::ops::RangeInclusive;

use crate::results::{self, OPERATING_UNITS, TIMER_UNITS};

pub struct Kind {
    pub name: &'static str,
    pub result: fn(u32) -> Option<u32>,
    pub inputs: Inputs,
}

/// What the word of a line is.
#[derive(Clone)]
pub enum Inputs {
    /// Bits of a Real. Where most values below zero are refused, few are
    /// tried; `exponents` are the exponent fields worth trying most. Where the
    /// Real is a time, `units` are the counts in a second that it becomes.
    Real {
        both_signs: bool,
        exponents: RangeInclusive<u32>,
        units: Option<u128>,
    },
    TimerCount,
    OperatingCount,
    StepCount,
    BytePair,
}

const fn real(both_signs: bool, exponents: RangeInclusive<u32>) -> Inputs {
    Inputs::Real {
        both_signs,
        exponents,
        units: None,
    }
}

const fn time(both_signs: bool, exponents: RangeInclusive<u32>, units: u128) -> Inputs {
    Inputs::Real {
        both_signs,
        exponents,
        units: Some(units),
    }
}

const fn kind(name: &'static str, result: fn(u32) -> Option<u32>, inputs: Inputs) -> Kind {
    Kind {
        name,
        result,
        inputs,
    }
}

/// An exponent field of 127 stands for values from 1 up to 2.
pub static KINDS: [Kind; 15] = [
    kind(
        "wt",
        results::timer_written,
        time(true, 117..=149, TIMER_UNITS),
    ),
    kind(
        "wp",
        results::preset_written,
        time(false, 117..=149, TIMER_UNITS),
    ),
    kind(
        "wo",
        results::operating_time_written,
        time(false, 122..=155, OPERATING_UNITS),
    ),
    kind("wl", results::current_limit_written, real(false, 100..=126)),
    kind("wc", results::out_current_written, real(true, 100..=130)),
    kind("rt", results::timer_read, Inputs::TimerCount),
    kind("ro", results::operating_time_read, Inputs::OperatingCount),
    kind("rb", results::real_in_and_out, real(true, 100..=155)),
    kind("so", results::out_timer_tick, Inputs::StepCount),
    kind("sf", results::fb_timer_tick, Inputs::StepCount),
    kind("sw", results::wd_timer_tick, Inputs::StepCount),
    kind("sr", results::free_run_timer_tick, Inputs::StepCount),
    kind("sc", results::counter_rise, Inputs::StepCount),
    kind("sp", results::operating_step, Inputs::StepCount),
    kind("u2", results::pair_unsigned, Inputs::BytePair),
];
