//! What looks of generated scripts meet: references upward and downward, pairs
//! that name each other, and channels 1 and 16 among them.

use crate::generator::kinds::{self, Kind};
use crate::player::Call;
use crate::tick::LOOK;
use crate::{ChannelBox, CHANNELS};
use std::cmp::Ordering;
use std::collections::BTreeSet;

fn in_words(place: usize, other: usize, pair: bool) -> String {
    let way = match other.cmp(&place) {
        Ordering::Less => "downward",
        Ordering::Equal => "own",
        Ordering::Greater => "upward",
    };
    format!("{way} pair {pair}")
}

/// Each reference that a look has just judged: whether OutFlag of the channel
/// that it names is another than InFlag, and what FBStatus is.
fn watch_look(device: &ChannelBox, seen: &mut BTreeSet<String>) {
    for (place, channel) in device.channels.iter().enumerate() {
        if channel.kept.config.simulates_feedback() {
            continue;
        }
        for other in (0..CHANNELS).filter(|&other| channel.names(other)) {
            let named = &device.channels[other];
            let pair = named.names(place);
            let what = in_words(place, other, pair);
            let differ = named.in_flag != named.out_flag;
            seen.insert(format!("{what} differ {differ} {}", channel.fb_status));
            let (own, named) = (place + 1, other + 1);
            seen.insert(format!("{own} names {named}"));
            if pair && own != named {
                seen.insert(format!("{own} in a pair"));
            }
        }
    }
}

fn watch(seed: u64, seen: &mut BTreeSet<String>) {
    let mut device = ChannelBox::default();
    for call in kinds::calls(seed, 2000, Kind::Feedback) {
        let Call::Tick(count) = call else {
            call.make(&mut device);
            continue;
        };
        for _ in 0..count {
            device.tick();
            if device.free_run_timer % LOOK == 0 {
                watch_look(&device, seen);
            }
        }
    }
}

fn corners() -> Vec<String> {
    let mut corners = Vec::new();
    for pair in [false, true] {
        for differ in [false, true] {
            for status in [false, true] {
                corners.push(format!("upward pair {pair} differ {differ} {status}"));
                corners.push(format!("downward pair {pair} differ {differ} {status}"));
            }
        }
    }
    let ends = ["1 names 16", "16 names 1", "1 in a pair", "16 in a pair"];
    corners.extend(ends.map(str::to_string));
    corners
}

#[test]
fn a_few_scripts_of_feedback_reach_every_corner() {
    let mut seen = BTreeSet::new();
    for seed in 1..=12 {
        watch(seed, &mut seen);
    }
    let missing = |what: &String| !seen.contains(what);
    let missing: Vec<String> = corners().into_iter().filter(missing).collect();
    assert_eq!(missing, Vec::<String>::new());
}
