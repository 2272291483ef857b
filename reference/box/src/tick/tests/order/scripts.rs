//! Generated scripts cannot tell one order from another, and tell the boxes that
//! a loop from the far end may make.

use crate::generator::kinds::{self, Kind, KINDS};
use crate::player::{Call, Reply};
use crate::tick::wrong::orders::{Order, Step, FIRST, LAST};
use crate::ChannelBox;

/// Makes a call on a box whose ticks go in an order.
fn make(call: &Call, device: &mut ChannelBox, order: Order) -> Reply {
    match call {
        Call::Tick(count) => {
            (0..*count).for_each(|_| device.tick_in_order(order));
            Reply::Tick
        }
        _ => call.make(device),
    }
}

/// Runs of more ticks cost time.
const LONGEST_RUN: u32 = 4_000;

/// Cuts a long run of ticks; the save comes as much nearer.
fn cut(call: Call, boxes: [&mut ChannelBox; 2]) -> Call {
    match call {
        Call::Tick(count) if count > LONGEST_RUN => {
            for device in boxes {
                device.save_count += count - LONGEST_RUN;
            }
            Call::Tick(LONGEST_RUN)
        }
        _ => call,
    }
}

/// Asks for the same replies as the model's, and the same box after each call.
fn assert_equal(order: Order, seed: u64, kind: Kind) {
    let (mut model, mut other) = (ChannelBox::default(), ChannelBox::default());
    for (line, call) in kinds::calls(seed, 1700, kind).into_iter().enumerate() {
        let call = cut(call, [&mut model, &mut other]);
        let replies = (call.make(&mut model), make(&call, &mut other, order));
        let what = format!("{order:?}, {kind:?} {seed}, {line}: {call}");
        assert_eq!(replies.0, replies.1, "{what}");
        assert!(model == other, "{what}");
    }
}

#[test]
fn from_1_to_16_all_comes_out_equal() {
    for &(_, kind) in KINDS {
        for seed in [1, 2, 3] {
            assert_equal(Order::NearEndFirst, seed, kind);
        }
    }
}

/// With nothing left out and nothing mirrored, the wrong ticks are the model's.
#[test]
fn channel_by_channel_and_step_by_step_all_comes_out_equal() {
    for &(_, kind) in KINDS {
        assert_equal(Order::FarEndFirst, 4, kind);
        assert_equal(Order::StepByStep, 4, kind);
    }
}

/// The orders that a script does not tell from the model's.
fn untold(seed: u64, kind: Kind, orders: &[Order]) -> Vec<Order> {
    let mut model = ChannelBox::default();
    let boxes = orders.iter().map(|&order| (order, ChannelBox::default()));
    let mut boxes: Vec<(Order, ChannelBox)> = boxes.collect();
    for call in kinds::calls(seed, 3000, kind) {
        if boxes.is_empty() {
            break;
        }
        let reply = call.make(&mut model);
        boxes.retain_mut(|(order, device)| make(&call, device, *order) == reply);
    }
    boxes.into_iter().map(|(order, _)| order).collect()
}

/// Asks that each is told by one of a few scripts, from a seed on.
fn assert_told(kind: Kind, first_seed: u64, orders: &[Order]) {
    let mut left = orders.to_vec();
    for seed in first_seed..first_seed + 8 {
        if !left.is_empty() {
            left = untold(seed, kind, &left);
        }
    }
    assert_eq!(left, [], "{kind:?}");
}

/// Orders in which the loop of a step starts at 15, or ends at 2.
fn without(steps: &[Step]) -> Vec<Order> {
    let both = |&step: &Step| [LAST, FIRST].map(|place| Order::StepWithout(step, place));
    steps.iter().flat_map(both).collect()
}

#[test]
fn scripts_tell_a_loop_that_starts_at_15_or_ends_at_2() {
    for kind in [Kind::Feedback, Kind::Ticks, Kind::Currents, Kind::Hours] {
        assert_told(kind, 1, &[Order::Without(LAST), Order::Without(FIRST)]);
    }
}

#[test]
fn scripts_tell_a_step_whose_loop_does() {
    let feedback = [
        Step::Timers,
        Step::SpecialFunction,
        Step::Look,
        Step::Errors,
    ];
    assert_told(Kind::Feedback, 1, &without(&feedback));
    assert_told(Kind::Watchdog, 1, &without(&[Step::Clearing]));
    assert_told(Kind::Hours, 1, &without(&[Step::Clearing]));
    assert_told(Kind::Currents, 1, &without(&[Step::Trip]));
    assert_told(Kind::Runs, 2, &without(&[Step::Operating]));
}

/// About every third script of saves tells that channel 16, or channel 1, is not
/// kept. The first that is asked does after one run of 1152000 ticks.
#[test]
fn scripts_tell_a_save_whose_loop_does_or_that_is_mirrored() {
    let mut orders = without(&[Step::Save]);
    orders.push(Order::SaveMirrored);
    assert_told(Kind::Save, 384, &orders);
}

#[test]
fn scripts_tell_a_mirrored_index() {
    for kind in [Kind::Feedback, Kind::Hours] {
        let mirrored = [
            Order::Mirrored,
            Order::InFlagsMirrored,
            Order::WindowsMirrored,
        ];
        assert_told(kind, 1, &mirrored);
    }
}

#[test]
fn scripts_tell_a_channel_that_sees_what_an_earlier_one_became() {
    for kind in [Kind::Feedback, Kind::Hours, Kind::Currents] {
        let seeing = [
            Order::SeesOutFlags,
            Order::PairSeesOutFlag,
            Order::ClosesTheRest,
        ];
        assert_told(kind, 1, &seeing);
    }
}
