//! An independent model of the PD 3120 channel box.
//!
//! Written from document 01 (the scope) and the PD 3120 manual, one module a
//! section, in place and with integers alone: Reals are bit patterns of 32
//! bits that [`reals`] takes apart, times are counts. Sentences in quotation
//! marks are document 01's; those after "Manual:" are the manual's.
//!
//! "Built: service channel 0, digital channels 1 to 16, common channel 17,
//! setup image." Of document 02 (the change requests), Change 1 is built, the
//! data channel, $13, Change 2, the quarters of an operating count, Change 3,
//! one sample for level and current, Change 4, the water charge from two
//! readings, Change 5, times written that become the nearest count, Change 6,
//! opening hours by the minute of the week, and Change 7, channels taken from 16
//! to 1 in a tick. Their sentences are named "Change 1:" and so on, or stand in
//! quotation marks in [`data`], [`charge`] and [`hours`].

pub mod calls;
pub mod channel;
pub mod charge;
pub mod data;
pub mod errors;
pub mod generator;
pub mod hours;
pub mod image;
pub mod player;
pub mod reals;
pub mod registers;
pub mod tick;

#[cfg(test)]
mod bench;
#[cfg(test)]
mod limits;
#[cfg(test)]
mod proved_table;
#[cfg(test)]
mod slips;

pub use calls::{Answer, ChannelBox};

/// The number of digital channels.
pub const CHANNELS: usize = 16;
