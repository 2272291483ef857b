//! Configurations, and the settings of an image.

use super::lookups::{finite, table};
use super::numbers::{count, limit, preset, small_count};
use super::Flavour;
use crate::channel::{Config, Kept};
use crate::data::KeptData;
use crate::generator::random::Random;
use crate::image::Settings;

fn functions(random: &mut Random, flavour: Flavour) -> u8 {
    let plain = match flavour {
        Flavour::Feedback | Flavour::Currents | Flavour::Samples => 6,
        _ => 2,
    };
    random.weighted(&[(1, 0), (plain, 0x10), (3, 0x20), (3, 0x30), (2, 0x50)])
}

fn enable(random: &mut Random, flavour: Flavour) -> u8 {
    let chances: [(u64, u8); 5] = match flavour {
        Flavour::Feedback => [(2, 0), (2, 2), (1, 5), (1, 6), (1, 7)],
        Flavour::Currents => [(2, 0), (1, 2), (6, 5), (3, 6), (1, 7)],
        Flavour::Errors => [(7, 0), (8, 2), (2, 5), (1, 6), (1, 7)],
        Flavour::Samples => [(2, 0), (4, 2), (2, 5), (2, 6), (1, 7)],
        _ => [(4, 0), (2, 2), (4, 5), (2, 6), (1, 7)],
    };
    let drawn = chances
        .iter()
        .filter(|(times, _)| random.chance(*times, 10))
        .fold(0, |byte, (_, bit)| byte | 1 << bit);
    if random.chance(1, 10) {
        random.byte()
    } else {
        drawn
    }
}

fn reference(random: &mut Random, own: u8, focus: &[u8], flavour: Flavour) -> u8 {
    let none = match flavour {
        Flavour::Feedback => 2,
        Flavour::Samples => 4,
        _ => 5,
    };
    match random.weighted(&[(none, 0), (1, 1), (5, 2), (1, 3)]) {
        0 => 0,
        1 => own,
        2 => random.pick(focus),
        _ => random.within(1, 16) as u8,
    }
}

/// An allowed ChConfig of channel `own`.
pub fn config(random: &mut Random, own: u8, focus: &[u8], flavour: Flavour) -> [u8; 4] {
    [
        enable(random, flavour),
        functions(random, flavour),
        reference(random, own, focus, flavour),
        reference(random, own, focus, flavour),
    ]
}

/// An allowed ModuleConfig.
pub fn module_config(random: &mut Random, flavour: Flavour) -> [u8; 4] {
    let watchdog_on = match flavour {
        Flavour::Watchdog => random.chance(9, 10),
        _ => random.chance(1, 4),
    };
    let functions = if watchdog_on { 0 } else { 0x10 };
    [random.byte(), functions, random.byte(), random.byte()]
}

/// A count for WDPreset: of a few ticks, or long enough never to run out.
pub(super) fn wd_preset(random: &mut Random, flavour: Flavour) -> i32 {
    match flavour {
        Flavour::Watchdog => small_count(random),
        _ => random.weighted(&[(1, 0), (1, 80), (6, 256_000), (1, i32::MAX)]),
    }
}

fn entry(random: &mut Random, own: u8, focus: &[u8], flavour: Flavour) -> Kept {
    Kept {
        config: Config::from_bytes(config(random, own, focus, flavour)),
        fb_preset: preset(random, flavour),
        out_preset: preset(random, flavour),
        min_current: limit(random),
        max_current: limit(random),
        user_reals: random.bits().to_be_bytes(),
        maintenance: random.word().to_be_bytes(),
        user_bytes: random.word().to_be_bytes(),
        counter: count(random, flavour) as i32,
        operating: count(random, flavour),
    }
}

/// The data channel's section, whose tables now and then are empty.
fn data(random: &mut Random) -> KeptData {
    let full = random.chance(7, 8);
    KeptData {
        real_a: finite(random),
        real_b: finite(random),
        tables: [(); 2].map(|()| {
            if full {
                table(random)
            } else {
                Default::default()
            }
        }),
    }
}

/// Settings that power-up accepts. In two of three, the channels outside the
/// focus are simulated inputs, so that the box-wide errors are not always set.
pub fn settings(random: &mut Random, focus: &[u8], flavour: Flavour) -> Settings {
    let quiet = random.chance(2, 3);
    let mut settings = Settings {
        module_config: Config::from_bytes(module_config(random, flavour)),
        wd_preset: wd_preset(random, flavour),
        channels: std::array::from_fn(|index| entry(random, index as u8 + 1, focus, flavour)),
        data: data(random),
    };
    for (kept, own) in settings.channels.iter_mut().zip(1..) {
        if quiet && !focus.contains(&own) {
            kept.config = Config::from_bytes([1, 0, 0, 0]);
        }
    }
    settings
}
