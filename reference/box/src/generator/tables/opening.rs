//! The kind that dwells on opening hours.

use super::Table;
use crate::generator::actions as act;

/// Change 6: the minute of the week and windows.
pub(super) const HOURS: Table = &[
    (12, act::hours_edges),
    (4, act::hours_of_focus),
    (12, act::minute_passes),
    (14, act::minute_set_again),
    (8, act::two_minutes),
    (12, act::closing),
    (5, act::closing_with_current),
    (4, act::write_while_closed),
    (3, act::open_and_close_between_ticks),
    (10, act::refused_hours_leave),
    (7, act::windows_given_anew),
    (10, act::hours_over_reset),
    (4, act::hours_with_watchdog),
    (7, act::hours_between_ticks),
    (2, act::give_windows),
    (2, act::set_minute),
    (9, act::refused_hours),
    (1, act::tick),
    (1, act::few_ticks),
    (1, act::many_ticks),
    (1, act::start),
    (1, act::write_flag_reg),
    (1, act::write_out_flags),
    (1, act::write_config),
    (1, act::sample_level),
    (1, act::overload),
    (2, act::read_state),
    (1, act::read_errors),
    (1, act::reset),
    (1, act::store),
    (1, act::calm),
    (1, act::refocus),
];
