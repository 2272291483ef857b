//! Boxes whose opening hours are wrong in one way: one script of hours tells
//! each of them from the model.

mod device;
mod judging;
mod questions;

use crate::generator::kinds::{self, Kind};
use crate::tick::wrong::Clearing;
use crate::ChannelBox;
use device::Wrongly;
use Wrong::*;

/// One thing that is wrong, or nothing.
#[derive(Clone, Copy, Debug, PartialEq, Eq)]
enum Wrong {
    Nothing,
    // Whether a channel is closed.
    EndIncluded,
    StartExcluded,
    WeeksEndNever,
    WeeksEndTurned,
    EqualEndsAlways,
    EqualEndsOneMinute,
    FirstWindowOnly,
    LastWindowOnly,
    EighthIgnored,
    OutsideAny,
    NoWindowsClosed,
    UnsetIsZero,
    NextChannels,
    // The minute's movement.
    MovedAfterTick,
    MovedEarly,
    MovedLate,
    NeverMoved,
    MovedOnce,
    WeekStops,
    WeekShort,
    SettingKeepsTicks,
    SameSettingIgnored,
    RefusedStartsAnew,
    RefusedUnsets,
    RefusedTaken,
    WindowsStartAnew,
    TicksSincePowerUp,
    // The clearing.
    Clears(Clearing),
    ClearsOnce,
    ClearsAtCall,
    ClearsWrites,
    OpeningSwitchesOn,
    // What empties.
    ResetKeepsWindows,
    ResetKeepsMinute,
    PowerKeepsWindows,
    PowerKeepsMinute,
    ConfigEmpties,
    // Questions, and what a call takes.
    EighteenBeforeNineteen,
    EighteenFirst,
    NineteenFirst,
    NineTaken,
    EightRefused,
    StartNotAsked,
    EndNotAsked,
    FirstWindowAsked,
    Minute10080,
    Minute10079Refused,
    End10080,
    EmptyIgnored,
    EmptyCloses,
    WindowsAdded,
    RefusedWindowsTaken,
    RefusedWindowsEmpty,
    ChannelsAgain,
    MinuteIsWire,
    WindowsAreWire,
}

const ALL: &[Wrong] = &[
    EndIncluded,
    StartExcluded,
    WeeksEndNever,
    WeeksEndTurned,
    EqualEndsAlways,
    EqualEndsOneMinute,
    FirstWindowOnly,
    LastWindowOnly,
    EighthIgnored,
    OutsideAny,
    NoWindowsClosed,
    UnsetIsZero,
    NextChannels,
    MovedAfterTick,
    MovedEarly,
    MovedLate,
    NeverMoved,
    MovedOnce,
    WeekStops,
    WeekShort,
    SettingKeepsTicks,
    SameSettingIgnored,
    RefusedStartsAnew,
    RefusedUnsets,
    RefusedTaken,
    WindowsStartAnew,
    TicksSincePowerUp,
    Clears(Clearing::AfterSpecialFunction),
    Clears(Clearing::AfterTrip),
    Clears(Clearing::AfterErrors),
    Clears(Clearing::OutFlagAlone),
    Clears(Clearing::ControlAlone),
    Clears(Clearing::WithoutChangeRule),
    Clears(Clearing::ChangeRuleBeforeTimers),
    Clears(Clearing::WithError),
    ClearsOnce,
    ClearsAtCall,
    ClearsWrites,
    OpeningSwitchesOn,
    ResetKeepsWindows,
    ResetKeepsMinute,
    PowerKeepsWindows,
    PowerKeepsMinute,
    ConfigEmpties,
    EighteenBeforeNineteen,
    EighteenFirst,
    NineteenFirst,
    NineTaken,
    EightRefused,
    StartNotAsked,
    EndNotAsked,
    FirstWindowAsked,
    Minute10080,
    Minute10079Refused,
    End10080,
    EmptyIgnored,
    EmptyCloses,
    WindowsAdded,
    RefusedWindowsTaken,
    RefusedWindowsEmpty,
    ChannelsAgain,
    MinuteIsWire,
    WindowsAreWire,
];

/// The first call of a script whose reply is another than the model's.
fn first_told(wrong: Wrong, seed: u64, calls: usize, kind: Kind) -> Option<usize> {
    let (mut right, mut wrong) = (ChannelBox::default(), Wrongly::new(wrong));
    let calls = kinds::calls(seed, calls, kind);
    calls
        .iter()
        .position(|call| call.make(&mut right) != call.make(&mut wrong))
}

#[test]
fn with_nothing_wrong_it_is_the_model() {
    for (seed, kind) in [
        (1, Kind::Hours),
        (2, Kind::Hours),
        (3, Kind::Watchdog),
        (4, Kind::Mixed),
        (5, Kind::Reset),
    ] {
        assert_eq!(first_told(Nothing, seed, 1700, kind), None);
        let right = Clears(Clearing::Right);
        assert_eq!(first_told(right, seed, 1700, kind), None);
    }
}

#[test]
fn one_script_tells_each_wrong_way() {
    let mut missed = Vec::new();
    for seed in [1, 2, 3, 3120] {
        for &wrong in ALL {
            if first_told(wrong, seed, 3000, Kind::Hours).is_none() {
                missed.push((seed, wrong));
            }
        }
    }
    assert_eq!(missed, []);
}
