mod errors;
mod hours;
mod limits;
mod looks;
mod order;
mod outputs;
mod quarters;
mod service;

use super::*;
use crate::bench::{with_channel, with_watchdog, Bench};
use crate::channel::{flag, Config, Kept};

const HALF_AMPERE: u32 = 0x3F00_0000;
