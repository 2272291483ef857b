//! Change 6: ticks whose clearing is wrong in one way. Tests ask whether
//! generated scripts tell them from the model's. Ticks that go through the
//! channels in another way, Change 7, stand in [`orders`], boxes that have a
//! limit wrong in [`limits`].

pub(crate) mod limits;
pub(crate) mod orders;
mod steps;

use super::{LOOK, STEP};
use crate::calls::ChannelBox;
use crate::channel::{error, Channel};
use crate::CHANNELS;

/// How a channel that is closed is cleared.
#[derive(Clone, Copy, Debug, PartialEq, Eq)]
pub(crate) enum Clearing {
    /// As the model does it.
    Right,
    AfterSpecialFunction,
    AfterTrip,
    AfterErrors,
    OutFlagAlone,
    ControlAlone,
    WithoutChangeRule,
    ChangeRuleBeforeTimers,
    /// With an error bit of its own.
    WithError,
}

/// What all channels of a tick have in common.
#[derive(Clone, Copy)]
struct Common {
    run_out: bool,
    look: bool,
    in_flags: u16,
}

impl ChannelBox {
    /// What a tick does before the work on its channels, the minute apart.
    fn begin_work(&mut self) -> Common {
        self.data.count_timers(STEP);
        let run_out = self.count_service();
        Common {
            run_out,
            look: self.free_run_timer % LOOK == 0,
            in_flags: self.in_flags(),
        }
    }

    /// A tick in which the minute is left, and these channels are closed.
    pub(crate) fn tick_clearing(&mut self, clearing: Clearing, closed: [bool; CHANNELS]) {
        let common = self.begin_work();
        for (channel, closed) in self.channels.iter_mut().zip(closed).rev() {
            channel.tick_clearing(clearing, closed, common);
        }
        if self.count_to_save() {
            self.save();
        }
    }
}

impl Channel {
    fn clear(&mut self) {
        self.out_flag = false;
        self.control = false;
    }

    /// Clears in the place of the model. Gives the OutFlag that the change rule
    /// of step 3 compares with.
    fn clear_wrongly(&mut self, clearing: Clearing, start: bool) -> bool {
        match clearing {
            Clearing::AfterSpecialFunction | Clearing::AfterTrip | Clearing::AfterErrors => {}
            Clearing::OutFlagAlone => self.out_flag = false,
            Clearing::ControlAlone => self.control = false,
            Clearing::WithError => {
                self.clear();
                self.set_error(error::PRG_ERROR);
            }
            Clearing::ChangeRuleBeforeTimers => {
                self.clear();
                self.change_rule(start);
            }
            Clearing::Right | Clearing::WithoutChangeRule => self.clear(),
        }
        match clearing {
            Clearing::WithoutChangeRule | Clearing::ChangeRuleBeforeTimers => self.out_flag,
            _ => start,
        }
    }

    fn clear_late(&mut self, now: bool) {
        if now {
            let before = self.out_flag;
            self.clear();
            self.change_rule(before);
        }
    }

    fn tick_clearing(&mut self, clearing: Clearing, closed: bool, common: Common) {
        let mut start = self.out_flag;
        if common.run_out {
            self.clear();
        }
        if closed {
            start = self.clear_wrongly(clearing, start);
        }
        self.count_timers();
        self.run_special_function();
        if closed && clearing == Clearing::AfterSpecialFunction {
            self.clear();
        }
        self.change_rule(start);
        self.trip_on_load();
        self.clear_late(closed && clearing == Clearing::AfterTrip);
        if common.look {
            self.look(common.in_flags);
        }
        self.count_operating();
        self.judge();
        self.clear_late(closed && clearing == Clearing::AfterErrors);
    }
}
