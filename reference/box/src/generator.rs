//! Random scripts: values, calls that belong together, the script that they
//! are written to, and the kinds of script.

pub mod actions;
pub mod kinds;
pub mod random;
pub mod script;
pub mod tables;
pub mod values;
