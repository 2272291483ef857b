//! The kind that dwells on what stands above the box: charges.

use super::Table;
use crate::generator::actions as act;

/// Change 4: the water charge.
pub(super) const CHARGES: Table = &[
    (20, act::charge),
    (10, act::charge_few_litres),
    (8, act::charge_half),
    (6, act::charge_one_more),
    (6, act::charge_about_border),
    (3, act::charge_one_price),
    (3, act::charge_most),
    (20, act::refused_charge),
    (6, act::charge_readings),
    (1, act::charge_between_ticks),
    (1, act::pulses),
    (1, act::count_over),
    (1, act::write_end_counter),
    (1, act::read_state),
    (1, act::few_ticks),
    (1, act::write_flag_reg),
    (1, act::write_config),
    (1, act::refocus),
];
