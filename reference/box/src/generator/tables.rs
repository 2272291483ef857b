//! Which actions each kind of script takes, and how often.

mod above;
mod holding;
mod opening;
mod running;

use super::actions::{self as act, Action};
use super::kinds::Kind;
use above::CHARGES;
use holding::{ENDS, IMAGES, REFUSALS, REGISTERS, RESET, SAVE, TABLES};
use opening::HOURS;
use running::{CURRENTS, ERRORS, FEEDBACK, RUNS, SAMPLES, TICKS, WATCHDOG};

/// Actions with their weights.
pub type Table = &'static [(u64, Action)];

impl Kind {
    pub fn table(self) -> Table {
        match self {
            Kind::Registers => REGISTERS,
            Kind::Ticks => TICKS,
            Kind::Watchdog => WATCHDOG,
            Kind::Feedback => FEEDBACK,
            Kind::Currents => CURRENTS,
            Kind::Errors => ERRORS,
            Kind::Images => IMAGES,
            Kind::Refusals => REFUSALS,
            Kind::Reset => RESET,
            Kind::Ends => ENDS,
            Kind::Save => SAVE,
            Kind::Tables => TABLES,
            Kind::Runs => RUNS,
            Kind::Samples => SAMPLES,
            Kind::Charges => CHARGES,
            Kind::Hours => HOURS,
            Kind::Mixed => MIXED,
        }
    }
}

/// Beside what a mixed script draws from the other tables.
const MIXED: Table = &[
    (1, act::calm),
    (4, act::read_state),
    (2, act::few_ticks),
    (1, act::many_ticks),
    (1, act::refused_sample),
    (1, act::read_data),
    (1, act::write_rounded_time),
    (1, act::lookup),
    (1, act::charge),
    (1, act::refused_charge),
    (1, act::charge_readings),
    (2, act::short_hours),
    (1, act::give_windows),
    (1, act::set_minute),
    (1, act::refused_hours),
    (1, act::refocus),
];

/// The kinds that a mixed script draws from, with their weights.
pub const PHASES: &[(u64, Kind)] = &[
    (2, Kind::Registers),
    (4, Kind::Ticks),
    (2, Kind::Watchdog),
    (4, Kind::Feedback),
    (4, Kind::Currents),
    (3, Kind::Errors),
    (1, Kind::Images),
    (1, Kind::Refusals),
    (1, Kind::Reset),
    (2, Kind::Ends),
    (1, Kind::Save),
    (2, Kind::Tables),
    (2, Kind::Runs),
    (3, Kind::Samples),
    (3, Kind::Charges),
    (3, Kind::Hours),
    (3, Kind::Mixed),
];
