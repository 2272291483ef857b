//! Surveys: every register of a channel, of the focus or of the box.

use super::{COMMON, DATA, DIGITAL, SERVICE};
use crate::generator::script::Script;
use crate::image::LENGTH;

/// Every register of one channel of the focus.
pub fn survey(script: &mut Script) {
    let channel = script.channel();
    survey_channel(script, channel);
}

fn survey_channel(script: &mut Script, channel: u8) {
    for register in DIGITAL {
        script.read_register(u16::from(channel) * 0x10 + register);
    }
}

/// Every register of the data channel.
pub fn survey_data(script: &mut Script) {
    for &swno in DATA {
        script.read_register(swno);
    }
}

/// The end of a script: the image, then every register of the box.
pub fn survey_all(script: &mut Script) {
    script.store(LENGTH);
    for &swno in COMMON.iter().chain(SERVICE).chain(DATA) {
        script.read_register(swno);
    }
    for channel in 1..=16 {
        survey_channel(script, channel);
    }
}

/// The end of a short script.
pub fn survey_focus(script: &mut Script) {
    for channel in script.focus.clone() {
        survey_channel(script, channel);
    }
    survey_data(script);
    script.store(LENGTH);
}
