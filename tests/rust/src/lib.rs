//! The proved library through its C boundary, compared call by call with the
//! independent model of `reference/box`.

mod compared;
mod library;

pub use compared::{compare, compare_script, Difference};
pub use library::Library;
