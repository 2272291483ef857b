//! Change 6: windows and minutes in pairs.

use super::*;

/// The windows of a list for some channels.
fn windows(list: &[Call], channels: &[u8]) -> Vec<Call> {
    let windows = |call: &&Call| matches!(call, Call::Windows(..)) && is_for(call, channels);
    list.iter().filter(windows).cloned().collect()
}

fn minutes(list: &[Call]) -> Vec<Call> {
    let minute = |call: &&Call| matches!(call, Call::Minute(_));
    list.iter().filter(minute).cloned().collect()
}

/// "Timetable calls for a stranger are struck with its other calls; setting the
/// minute is a call of everyone." Windows for no channel are nobody's stranger's.
#[test]
fn windows_stand_in_both_lists_but_for_strangers() {
    let none: Vec<u8> = [0].into_iter().chain(17..=255).collect();
    let mut counts = [0; 4];
    for seed in 0..400 {
        let pair = Pair::draw(seed, false);
        let both = |channels: &[u8]| {
            let first = windows(&pair.first, channels);
            assert_eq!(first, windows(&pair.second, channels), "{seed}");
            first
        };
        assert_eq!(minutes(&pair.first), minutes(&pair.second), "{seed}");
        counts[0] += usize::from(!both(&[pair.channel]).is_empty());
        counts[1] += usize::from(!both(&none).is_empty());
        counts[2] += usize::from(!minutes(&pair.first).is_empty());
        let strange = windows(&pair.first, &pair.strangers);
        counts[3] += usize::from(strange != windows(&pair.second, &pair.strangers));
    }
    let [own, none, minutes, strange] = counts;
    assert!(own > 250 && none > 60 && minutes > 300, "{counts:?}");
    assert!(strange > 300, "{counts:?}");
}

/// A player can read every call.
#[test]
fn every_call_is_read_back_from_its_line() {
    for seed in 0..400 {
        let pair = Pair::draw(seed, false);
        for call in pair.first.iter().chain(&pair.second).chain(&pair.hours) {
            let line = call.to_string();
            let read = Call::parse(line.as_bytes());
            assert_eq!(read.as_ref(), Ok(&Some(call.clone())), "{line}");
        }
    }
}

/// The box's ticks of a list, each with the channels that it finds closed.
fn closed(pair: &Pair, list: &[Call]) -> Vec<[bool; CHANNELS]> {
    let mut device = ChannelBox::default();
    device.power_up(&pair.image);
    let mut closed = Vec::new();
    for call in list {
        match call {
            Call::Tick(count) => {
                for _ in 0..*count {
                    device.tick();
                    let minute = device.clock.now();
                    closed.push(std::array::from_fn(|index| {
                        device.channels[index].is_closed(minute)
                    }));
                }
            }
            _ => {
                call.make(&mut device);
            }
        }
    }
    closed
}

/// In many pairs c opens and closes while its strangers' hours differ.
#[test]
fn strangers_hours_differ_while_c_opens_and_closes() {
    let has = |pair: &Pair| {
        let (first, second) = (closed(pair, &pair.first), closed(pair, &pair.second));
        let index = usize::from(pair.channel) - 1;
        let c = |ticks: &[[bool; CHANNELS]]| -> Vec<bool> {
            ticks.iter().map(|closed| closed[index]).collect()
        };
        assert_eq!(c(&first), c(&second));
        let changes = c(&first).windows(2).filter(|two| two[0] != two[1]).count();
        let strange = first
            .iter()
            .zip(&second)
            .filter(|(one, other)| one != other);
        changes > 1 && strange.count() > 5
    };
    assert!(pairs_with(has) > 100);
}

/// Strangers' windows stand alone between ticks, where they are no wire call.
#[test]
fn strangers_windows_stand_alone_between_ticks() {
    let has = |pair: &Pair| {
        let stretches = pair.first.split(|call| matches!(call, Call::Tick(_)));
        stretches.rev().skip(1).any(|stretch| {
            !windows(stretch, &pair.strangers).is_empty() && !stretch.iter().any(Call::is_wire)
        })
    };
    assert!(pairs_with(has) > 40);
}

/// The minute moves by itself in some pairs, with strangers' windows in its
/// middle, and after the end in others.
#[test]
fn the_minute_moves_by_itself() {
    let long = |list: &[Call]| {
        let long = |call: &Call| matches!(call, Call::Tick(count) if *count > 60);
        list.iter().any(long)
    };
    assert!(pairs_with(|pair| long(&pair.first)) > 40);
    assert!(pairs_with(|pair| long(&pair.hours)) > 40);
}

/// The calls after the end find c's own windows and a set minute in many pairs.
#[test]
fn many_pairs_end_with_windows_of_c() {
    let has = |pair: &Pair| {
        let windows = after(pair, &pair.first).windows;
        windows.iter().flatten().count() > 0 && pair.hours.len() >= crate::hours::SHOWING
    };
    assert!(pairs_with(has) > 150);
}

/// They show them: in some tries c stays on, in some it does not.
#[test]
fn the_tries_after_the_end_show_both() {
    let tries = |pair: &Pair| -> Vec<bool> {
        let list = [&pair.first[..], &pair.quarters, &pair.hours].concat();
        let mut device = ChannelBox::default();
        device.power_up(&pair.image);
        let mut on = Vec::new();
        for (place, call) in list.iter().enumerate() {
            call.make(&mut device);
            let ending = place + pair.hours.len() >= list.len();
            if ending && matches!(call, Call::Tick(1)) {
                let channel = &device.channels[usize::from(pair.channel) - 1];
                on.push(channel.out_flag);
            }
        }
        on
    };
    assert!(pairs_with(|pair| tries(pair).contains(&true)) > 300);
    assert!(pairs_with(|pair| tries(pair).contains(&false)) > 150);
}
