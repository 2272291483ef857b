//! Random values: counts, Reals, configurations, lookup tables, images, charges
//! and opening hours.

mod charges;
mod currents;
mod hours;
mod lookups;
mod nearest;
mod numbers;
mod operating;
mod settings;
mod suiting;

pub use charges::{
    blocks, blocks_ending, litres_per_pulse, price, pulses, reading, refused_blocks,
    refused_litres, small_blocks, Blocks,
};
pub use currents::{
    beside, current, quiet_current, refused_current, sample_current, tripping_current, LEAK, TRIP,
};
pub use hours::{
    away, closed_windows, edge, minute, open_windows, refused_minute, refused_windows, REFUSALS,
    WEEK,
};
pub use lookups::{table, x_for};
pub use nearest::{half_count, rounded_time, ties, typed_time, Unit};
pub use numbers::{end_count, end_real, limit, signed_time, small_count, time};
pub use operating::{last_count, operating_time, refused_operating_time};
pub use settings::{config, module_config, settings};
pub use suiting::{flag_reg, suiting};

/// What values are drawn for.
#[derive(Clone, Copy, PartialEq, Eq)]
pub enum Flavour {
    Plain,
    Watchdog,
    Feedback,
    Currents,
    Errors,
    Ends,
    Runs,
    Samples,
}
