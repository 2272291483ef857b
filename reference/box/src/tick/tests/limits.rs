//! Short scripts tell boxes that have one limit wrong.

use crate::channel::Channel;
use crate::generator::kinds::{self, Kind, KINDS};
use crate::player::Call;
use crate::reals::{self, Real};
use crate::tick::wrong::limits::Limits;
use crate::ChannelBox;

/// So many calls of each kind are about 2000 of all.
const CALLS: usize = 118;

/// A limit that a box has wrong, in words, and its limits.
type Wrong = (&'static str, Limits);

fn at_least(left: Real, right: Real) -> bool {
    !reals::less(left, right)
}

const RIGHT: Limits = Limits::RIGHT;

fn leak_limits() -> Vec<Wrong> {
    let wrong = |what, leaks| (what, Limits { leaks, ..RIGHT });
    vec![
        wrong("leak above 0.2", |channel: &Channel| {
            !channel.out_flag && reals::greater(channel.out_current, 0x3E4C_CCCD)
        }),
        wrong("leak from 0.1 on", |channel: &Channel| {
            !channel.out_flag && at_least(channel.out_current, 0x3DCC_CCCD)
        }),
        wrong("leak above 0.1 and a bit", |channel: &Channel| {
            !channel.out_flag && reals::greater(channel.out_current, 0x3DCC_CCCE)
        }),
        wrong("leak above 0.05", |channel: &Channel| {
            !channel.out_flag && reals::greater(channel.out_current, 0x3D4C_CCCD)
        }),
    ]
}

fn trip_limits() -> Vec<Wrong> {
    let wrong = |what, trips| (what, Limits { trips, ..RIGHT });
    vec![
        wrong("trip from 2 on", |amperes| at_least(amperes, 0x4000_0000)),
        wrong("trip above 2.5", |amperes| {
            reals::greater(amperes, 0x4020_0000)
        }),
        wrong("trip above 2 and a bit", |amperes| {
            reals::greater(amperes, 0x4000_0001)
        }),
        wrong("trip above 1.5", |amperes| {
            reals::greater(amperes, 0x3FC0_0000)
        }),
    ]
}

fn max_limits() -> Vec<Wrong> {
    let wrong = |what, overloads| (what, Limits { overloads, ..RIGHT });
    vec![
        wrong("from MaxCurrent on", |channel: &Channel| {
            channel.out_flag
                && channel.fb_timer < 0
                && at_least(channel.out_current, channel.kept.max_current)
        }),
        wrong("MaxCurrent while FBTimer runs", |channel: &Channel| {
            channel.out_flag && channel.is_above_max()
        }),
        wrong("MaxCurrent with FBTimer 0", |channel: &Channel| {
            channel.out_flag && channel.fb_timer <= 0 && channel.is_above_max()
        }),
        wrong("MaxCurrent without OutFlag", |channel: &Channel| {
            channel.fb_timer < 0 && channel.is_above_max()
        }),
        wrong("MaxCurrent never", |_| false),
    ]
}

fn is_low(channel: &Channel) -> bool {
    reals::less(channel.out_current, channel.kept.min_current)
}

fn min_limits() -> Vec<Wrong> {
    let wrong = |what, underloads| {
        (
            what,
            Limits {
                underloads,
                ..RIGHT
            },
        )
    };
    vec![
        wrong("up to MinCurrent", |channel: &Channel| {
            !reals::greater(channel.out_current, channel.kept.min_current)
                && channel.out_flag
                && channel.fb_timer < 0
                && channel.kept.config.enables_underload()
        }),
        wrong("MinCurrent while FBTimer runs", |channel: &Channel| {
            is_low(channel) && channel.out_flag && channel.kept.config.enables_underload()
        }),
        wrong("MinCurrent with FBTimer 0", |channel: &Channel| {
            is_low(channel)
                && channel.out_flag
                && channel.fb_timer <= 0
                && channel.kept.config.enables_underload()
        }),
        wrong("MinCurrent without Enablebit 5", |channel: &Channel| {
            is_low(channel) && channel.out_flag && channel.fb_timer < 0
        }),
        wrong("MinCurrent without OutFlag", |channel: &Channel| {
            is_low(channel) && channel.fb_timer < 0 && channel.kept.config.enables_underload()
        }),
    ]
}

fn fb_timer_limits() -> Vec<Wrong> {
    let wrong = |what, feeds_back| {
        (
            what,
            Limits {
                feeds_back,
                ..RIGHT
            },
        )
    };
    vec![wrong("feedback with FBTimer 0", |channel: &Channel| {
        channel.fb_timer <= 0 && channel.fb_status
    })]
}

fn timer_ends() -> Vec<Wrong> {
    let wrong = |what, is_timer| (what, Limits { is_timer, ..RIGHT });
    vec![
        wrong("timers with 8388608", |real| {
            reals::is_timer(real) || real == 0x4B00_0000
        }),
        wrong("timers without -8388608", |real| {
            reals::is_timer(real) && real != 0xCB00_0000
        }),
        wrong("timers below -8388608", |real| {
            reals::is_timer(real) || real == 0xCB00_0001
        }),
    ]
}

fn preset_ends() -> Vec<Wrong> {
    let wrong = |what, is_preset| (what, Limits { is_preset, ..RIGHT });
    vec![
        wrong("presets with 8388608", |real| {
            reals::is_preset(real) || real == 0x4B00_0000
        }),
        wrong("presets without -0", |real| {
            reals::is_preset(real) && real != 0x8000_0000
        }),
        wrong("presets below 0", |real| {
            reals::is_preset(real) || real == 0x8000_0001
        }),
    ]
}

fn operating_ends() -> Vec<Wrong> {
    let wrong = |what, is_operating| {
        (
            what,
            Limits {
                is_operating,
                ..RIGHT
            },
        )
    };
    vec![
        wrong("OperatingTime with 536870912", |real| {
            reals::is_operating(real) || real == 0x4E00_0000
        }),
        wrong("OperatingTime without -0", |real| {
            reals::is_operating(real) && real != 0x8000_0000
        }),
        wrong("OperatingTime below 0", |real| {
            reals::is_operating(real) || real == 0x8000_0001
        }),
    ]
}

fn limit_ends() -> Vec<Wrong> {
    let wrong = |what, is_limit| (what, Limits { is_limit, ..RIGHT });
    vec![
        wrong("limits without 1", |real| {
            reals::is_limit(real) && real != 0x3F80_0000
        }),
        wrong("limits above 1", |real| {
            reals::is_limit(real) || real == 0x3F80_0001
        }),
        wrong("limits without -0", |real| {
            reals::is_limit(real) && real != 0x8000_0000
        }),
        wrong("limits below 0", |real| {
            reals::is_limit(real) || real == 0x8000_0001
        }),
    ]
}

fn all() -> Vec<Wrong> {
    let wrong = [
        leak_limits(),
        trip_limits(),
        max_limits(),
        min_limits(),
        fb_timer_limits(),
        timer_ends(),
        preset_ends(),
        operating_ends(),
        limit_ends(),
    ];
    wrong.concat()
}

/// Runs of more ticks cost time; only the ten-hour save has longer ones.
const LONGEST_RUN: u32 = 2_000;

/// The calls of a script as `./pd3120 compare SEED 2000` draws it.
fn script(seed: u64, kind: Kind) -> impl Iterator<Item = Call> {
    let calls = kinds::calls(seed, CALLS, kind).into_iter();
    calls.map(|call| match call {
        Call::Tick(count) => Call::Tick(count.min(LONGEST_RUN)),
        call => call,
    })
}

/// The limits that the scripts of a seed, one of each kind, do not tell.
fn untold(seed: u64) -> Vec<&'static str> {
    let mut left = all();
    for &(_, kind) in KINDS {
        let mut model = ChannelBox::default();
        let boxes = left.into_iter().map(|wrong| (wrong, ChannelBox::default()));
        let mut boxes: Vec<(Wrong, ChannelBox)> = boxes.collect();
        for call in script(seed, kind) {
            let reply = call.make(&mut model);
            boxes.retain_mut(|((_, limits), device)| limits.make(&call, device) == reply);
        }
        left = boxes.into_iter().map(|(wrong, _)| wrong).collect();
    }
    left.into_iter().map(|(what, _)| what).collect()
}

/// About 2000 random calls tell each, of nearly every seed.
#[test]
fn short_scripts_tell_each_limit_that_is_wrong() {
    let untold: Vec<&str> = (1..=20).flat_map(untold).collect();
    for (what, _) in all() {
        let times = untold.iter().filter(|&&other| other == what).count();
        assert!(times <= 2, "{what}: not told by {times} of 20 seeds");
    }
    assert!(untold.len() <= 4, "{untold:?}");
}

/// With no limit wrong the boxes are the same.
#[test]
fn with_the_right_limits_all_comes_out_equal() {
    for &(_, kind) in KINDS {
        for seed in [1, 2] {
            let (mut model, mut other) = (ChannelBox::default(), ChannelBox::default());
            for call in script(seed, kind) {
                let reply = call.make(&mut model);
                assert_eq!(RIGHT.make(&call, &mut other), reply, "{kind:?}: {call}");
                assert!(model == other, "{kind:?}: {call}");
            }
        }
    }
}
