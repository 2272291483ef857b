//! What a script may do next: each action writes a call, or a few that belong
//! together.

mod calm;
mod charges;
mod closing;
mod corners;
mod data;
mod ends;
mod hours;
mod images;
mod limits;
mod minutes;
mod nearest;
mod quarters;
mod reads;
mod refusals;
mod runs;
mod samples;
mod surveys;
mod terminals;
mod ticks;
mod writes;

pub use calm::*;
pub use charges::*;
pub use closing::*;
pub use corners::*;
pub use data::*;
pub use ends::*;
pub use hours::*;
pub use images::*;
pub use limits::*;
pub use minutes::*;
pub use nearest::*;
pub use quarters::*;
pub use reads::*;
pub use refusals::*;
pub use runs::*;
pub use samples::*;
pub use surveys::*;
pub use terminals::*;
pub use ticks::*;
pub use writes::*;

use super::script::Script;

pub type Action = fn(&mut Script);

const SERVICE: &[u16] = &[0x00, 0x03, 0x07, 0x08, 0x09, 0x0A, 0x0D, 0x0F];
const COMMON: &[u16] = &[0x110, 0x111, 0x112, 0x11F];
const DATA: &[u16] = &[0x130, 0x131, 0x13A, 0x13B, 0x13C, 0x13D];
const DIGITAL: &[u16] = &[0, 1, 2, 3, 4, 5, 6, 7, 8, 9, 0xA, 0xB, 0xC, 0xD, 0xF];

pub fn refocus(script: &mut Script) {
    script.refocus();
}
