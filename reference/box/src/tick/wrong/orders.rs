//! Change 7: ticks that take the channels in another order, which must come out
//! equal, and ticks that a loop from the far end gets wrong. Tests ask whether
//! generated scripts tell them from the model's.

pub(crate) use super::steps::Step;

use super::Common;
use crate::calls::ChannelBox;
use crate::channel::Channel;
use crate::CHANNELS;

/// The place of channel 1.
pub(crate) const FIRST: usize = 0;
/// The place of channel 16.
pub(crate) const LAST: usize = CHANNELS - 1;

/// How a tick goes through the channels. Channel k has place k−1.
#[derive(Clone, Copy, Debug, PartialEq, Eq)]
pub(crate) enum Order {
    /// As the model does it: from 16 to 1.
    FarEndFirst,
    /// As it was before: from 1 to 16.
    NearEndFirst,
    /// Each step for all channels, from 16 to 1, before the next step.
    StepByStep,
    /// The loop starts at 15, or ends at 2: no step but the save is done for this
    /// place.
    Without(usize),
    /// The loop of one step, or of the save, does so.
    StepWithout(Step, usize),
    /// Channel k becomes what the tick makes of channel 17−k, by k's own windows;
    /// in the second half that one has had its turn.
    Mirrored,
    /// InFlag of channel k is taken for that of channel 17−k.
    InFlagsMirrored,
    /// Channel k is closed by the windows of channel 17−k.
    WindowsMirrored,
    /// The save keeps the counts of channel 17−k for channel k.
    SaveMirrored,
    /// A look takes OutFlag for InFlag where the channel had its turn before.
    SeesOutFlags,
    /// It does so where the two channels name each other.
    PairSeesOutFlag,
    /// What closes a channel closes all that come after it.
    ClosesTheRest,
}

impl Order {
    fn place(self, turn: usize) -> usize {
        match self {
            Order::NearEndFirst => turn,
            _ => mirrored(turn),
        }
    }
}

fn mirrored(place: usize) -> usize {
    LAST - place
}

impl Channel {
    /// Whether a reference names the channel at a place.
    pub(crate) fn names(&self, place: usize) -> bool {
        let config = self.kept.config;
        [config.index_a(), config.index_b()].contains(&Some(place))
    }
}

impl ChannelBox {
    pub(crate) fn tick_in_order(&mut self, order: Order) {
        match order {
            Order::StepByStep => self.tick_by_steps(None),
            Order::StepWithout(step, place) => self.tick_by_steps(Some((step, place))),
            _ => self.tick_by_channels(order),
        }
    }

    fn tick_by_channels(&mut self, order: Order) {
        self.clock.begin_tick();
        let mut common = self.begin_work();
        if order == Order::InFlagsMirrored {
            common.in_flags = common.in_flags.reverse_bits();
        }
        for place in (0..CHANNELS).map(|turn| order.place(turn)) {
            if order != Order::Without(place) {
                self.work_on(place, order, &mut common);
            }
        }
        if self.count_to_save() {
            self.save_in_order(order);
        }
    }

    /// Steps 2 to 6 of a channel, with what clears it before.
    fn work_on(&mut self, place: usize, order: Order, common: &mut Common) {
        let judged = match order {
            Order::WindowsMirrored => mirrored(place),
            _ => place,
        };
        let closed = self.channels[judged].is_closed(self.clock.now());
        let in_flags = self.seen_by(place, order, common.in_flags);
        if order == Order::Mirrored {
            self.channels[place] = self.channels[mirrored(place)];
        }
        self.channels[place].tick(common.run_out || closed, common.look, in_flags);
        common.run_out |= closed && order == Order::ClosesTheRest;
    }

    /// The InFlags that a channel's look sees.
    fn seen_by(&self, place: usize, order: Order, in_flags: u16) -> u16 {
        let sees_out_flag = |&other: &usize| match order {
            Order::SeesOutFlags => true,
            Order::PairSeesOutFlag => {
                self.channels[place].names(other) && self.channels[other].names(place)
            }
            _ => false,
        };
        let before = place + 1..CHANNELS;
        before.filter(sees_out_flag).fold(in_flags, |word, other| {
            let out_flag = u16::from(self.channels[other].out_flag);
            word & !(1 << other) | out_flag << other
        })
    }

    fn save_in_order(&mut self, order: Order) {
        let counts = self.channels;
        for place in (0..CHANNELS).map(|turn| order.place(turn)) {
            let channel = &mut self.channels[place];
            channel.keep_counts();
            if order == Order::SaveMirrored {
                channel.kept.counter = counts[mirrored(place)].counter;
                channel.kept.operating = counts[mirrored(place)].operating;
            }
        }
        self.data.keep_real_a();
    }
}
