mod hours;

use super::*;
use crate::answers::Compared;
use crate::second::is_for;
use reference_box::image::{LENGTH, OLD_LENGTH};
use std::collections::BTreeSet;

/// How many of 400 pairs have something.
fn pairs_with(has: impl Fn(&Pair) -> bool) -> usize {
    let pairs = (0..400).map(|seed| Pair::draw(seed, false));
    pairs.filter(|pair| has(pair)).count()
}

/// The numbers that a list's calls for some channels are answered with.
fn numbers(pair: &Pair, channels: &[u8]) -> Vec<String> {
    let mut device = ChannelBox::default();
    device.power_up(&pair.image);
    let mut numbers = Vec::new();
    for call in &pair.second {
        let answer = call.make(&mut device).to_string();
        if is_for(call, channels) {
            numbers.extend(answer.split(' ').nth(1).map(str::to_string));
        }
    }
    numbers
}

#[test]
fn the_same_seed_gives_the_same_pair() {
    let (one, again) = (Pair::draw(5, false), Pair::draw(5, false));
    assert_eq!(one.first, again.first);
    assert_eq!(one.second, again.second);
    assert_eq!(one.image, again.image);
}

#[test]
fn the_others_are_all_but_c() {
    let mut random = Random::new(1);
    for channel in 1..=16 {
        let others = (0..100).flat_map(|_| some_others(&mut random, channel));
        let others: BTreeSet<u8> = others.collect();
        let expected = (1..=16).filter(|&other| other != channel);
        assert_eq!(others, expected.collect());
    }
}

#[test]
fn most_pairs_differ() {
    assert!(pairs_with(|pair| pair.first != pair.second) > 380);
}

#[test]
fn channels_are_named_by_images_and_by_writes() {
    let named = pairs_with(|pair| pair.strangers.len() < 15);
    let by_image = |pair: &Pair| strangers(pair.channel, &pair.image, &[]);
    let named_by_writes = pairs_with(|pair| by_image(pair) != pair.strangers);
    assert!(named > 250 && named_by_writes > 120);
}

#[test]
fn own_calls_get_every_number_that_they_can() {
    for number in ["0", "2", "3", "4", "5", "6", "7", "9"] {
        let has = |pair: &Pair| numbers(pair, &[pair.channel]).contains(&number.to_string());
        assert!(pairs_with(has) > 3, "{number}");
    }
}

#[test]
fn strangers_calls_alone_keep_the_watchdog_awake() {
    let has = |pair: &Pair| {
        let stretches = pair.first.split(|call| matches!(call, Call::Tick(_)));
        stretches.rev().skip(1).any(|stretch| {
            let mut wires = stretch.iter().filter(|call| call.is_wire()).peekable();
            wires.peek().is_some() && wires.all(|call| is_for(call, &pair.strangers))
        })
    };
    assert!(pairs_with(has) > 200);
}

#[test]
fn the_watchdog_is_on_in_many_pairs() {
    let has = |pair: &Pair| pair.image[2] == 0 && pair.image[5..8] == [0, 0, 0];
    assert!(pairs_with(has) > 100);
}

#[test]
fn a_long_pair_goes_through_the_save() {
    let pair = Pair::draw(1, true);
    let ticks = |list: &[Call]| -> u64 {
        let ticks = list.iter().map(|call| match call {
            Call::Tick(count) => u64::from(*count),
            _ => 0,
        });
        ticks.sum()
    };
    assert!(ticks(&pair.first) >= 1_152_000);
    assert_eq!(ticks(&pair.first), ticks(&pair.second));
}

/// The answers to the data channel's calls and the lookups of a list, without
/// the two error bits.
fn data_answers(image: &[u8], list: &[Call]) -> Vec<String> {
    let mut device = ChannelBox::default();
    device.power_up(image);
    let mut answers = Vec::new();
    for call in list {
        let answer = call.make(&mut device).to_string();
        if matches!(call, Call::Lookup(..)) || call.channel() == Some(19) {
            let line = call.to_string();
            let compared = Compared::of(&line, &answer).expect("an answer");
            answers.push(compared.to_string());
        }
    }
    answers
}

/// Not owed by demand 3, which is about c's own calls; but no stranger's call
/// moves the data channel.
#[test]
fn data_calls_learn_nothing_of_strangers() {
    let mut all = Vec::new();
    for seed in 0..400 {
        let pair = Pair::draw(seed, false);
        let answers = data_answers(&pair.image, &pair.first);
        assert_eq!(answers, data_answers(&pair.image, &pair.second), "{seed}");
        all.extend(answers);
    }
    for number in ["0", "2", "4", "5", "6", "7", "15"] {
        let start = format!("number {number}, ");
        assert!(all.iter().any(|answer| answer.starts_with(&start)));
    }
}

#[test]
fn images_have_either_length() {
    let old = pairs_with(|pair| pair.image.len() == OLD_LENGTH);
    let long = pairs_with(|pair| pair.image.len() == LENGTH);
    assert!(old > 50 && long > 200 && old + long == 400);
}

/// Lookups stand between ticks that have no wire call since the tick before.
#[test]
fn lookups_stand_alone_between_ticks() {
    let has = |pair: &Pair| {
        let stretches = pair.first.split(|call| matches!(call, Call::Tick(_)));
        stretches.rev().skip(1).any(|stretch| {
            let lookup = |call: &Call| matches!(call, Call::Lookup(..));
            stretch.iter().any(lookup) && !stretch.iter().any(Call::is_wire)
        })
    };
    assert!(pairs_with(has) > 20);
}

/// c's channel after a list.
fn after(pair: &Pair, list: &[Call]) -> reference_box::channel::Channel {
    let mut device = ChannelBox::default();
    device.power_up(&pair.image);
    for call in list {
        call.make(&mut device);
    }
    device.channels[usize::from(pair.channel) - 1]
}

/// Change 2: the further ticks have quarters to show, of a count whose steps
/// a read shows.
#[test]
fn many_pairs_end_in_the_middle_of_quarters() {
    for quarters in 0..4 {
        let has = |pair: &Pair| {
            let end = after(pair, &pair.first);
            end.quarters == quarters && end.operating < 1 << 24
        };
        assert!(pairs_with(has) > 30, "{quarters}");
    }
}

/// How many ticks of a list find InFlag of any stranger TRUE.
fn strange_runs(pair: &Pair, list: &[Call]) -> u32 {
    let mut device = ChannelBox::default();
    device.power_up(&pair.image);
    let mut runs = 0;
    for call in list {
        call.make(&mut device);
        if let Call::Tick(count) = call {
            let running = |other: &u8| device.channels[usize::from(*other) - 1].in_flag;
            runs += count * u32::from(pair.strangers.iter().any(running));
        }
    }
    runs
}

#[test]
fn strangers_run_and_not_alike_in_both_lists() {
    let has = |pair: &Pair| {
        let first = strange_runs(pair, &pair.first);
        first > 0 && first != strange_runs(pair, &pair.second)
    };
    assert!(pairs_with(has) > 200);
}

/// The further ticks run c, wired or simulated.
#[test]
fn the_further_ticks_run_c() {
    for seed in 0..100 {
        let pair = Pair::draw(seed, false);
        let before = after(&pair, &pair.first);
        let list = [&pair.first[..], &pair.quarters].concat();
        let end = after(&pair, &list);
        assert_eq!(end.operating, before.operating.saturating_add(1), "{seed}");
        assert_eq!(end.quarters, before.quarters);
        assert_eq!(pair.quarters.len(), runs::SHOWING);
    }
}

/// The samples of a list for some channels.
fn samples(list: &[Call], channels: &[u8]) -> Vec<Call> {
    let sample = |call: &&Call| matches!(call, Call::Sample(..)) && is_for(call, channels);
    list.iter().filter(sample).cloned().collect()
}

/// Change 3: c's own samples, accepted and refused, are in both lists, and so
/// are samples for no channel; "A stranger's sample is struck as one call".
#[test]
fn samples_stand_in_both_lists_but_for_strangers() {
    let none: Vec<u8> = [0].into_iter().chain(17..=255).collect();
    let mut counts = [0; 4];
    for seed in 0..400 {
        let pair = Pair::draw(seed, false);
        let both = |channels: &[u8]| {
            let first = samples(&pair.first, channels);
            assert_eq!(first, samples(&pair.second, channels), "{seed}");
            first
        };
        let own = both(&[pair.channel]);
        let refused =
            |call: &Call| matches!(call, Call::Sample(_, _, real) if real >> 23 & 0xFF == 0xFF);
        counts[0] += usize::from(own.iter().any(|call| !refused(call)));
        counts[1] += usize::from(own.iter().any(refused));
        counts[2] += usize::from(!both(&none).is_empty());
        let strange = samples(&pair.first, &pair.strangers);
        counts[3] += usize::from(strange != samples(&pair.second, &pair.strangers));
    }
    let [own, refused, none, strange] = counts;
    assert!(own > 300 && refused > 40 && none > 100, "{counts:?}");
    assert!(strange > 350, "{counts:?}");
}

/// A stranger's sample stands alone between ticks, where it is no wire call.
#[test]
fn strangers_samples_stand_alone_between_ticks() {
    let has = |pair: &Pair| {
        let stretches = pair.first.split(|call| matches!(call, Call::Tick(_)));
        stretches.rev().skip(1).any(|stretch| {
            !samples(stretch, &pair.strangers).is_empty() && !stretch.iter().any(Call::is_wire)
        })
    };
    assert!(pairs_with(has) > 150);
}

/// In many pairs the lists differ in how many of the strangers' samples trip, in
/// how many do not and in how many are refused.
#[test]
fn strangers_samples_are_of_every_sort() {
    let sort = |call: &Call| match call {
        Call::Sample(_, _, real) if real >> 23 & 0xFF == 0xFF => 2,
        Call::Sample(_, _, real) if (0x4000_0001..0x7F80_0000).contains(real) => 1,
        _ => 0,
    };
    for wanted in 0..3 {
        let count = |pair: &Pair, list: &[Call]| {
            let samples = samples(list, &pair.strangers);
            samples.iter().filter(|call| sort(call) == wanted).count()
        };
        let has = |pair: &Pair| count(pair, &pair.first) != count(pair, &pair.second);
        assert!(pairs_with(has) > 100, "{wanted}");
    }
}
