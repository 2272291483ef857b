//! Change 7: ticks in which each step is a loop of its own through the
//! channels, from 16 to 1.

use super::Common;
use crate::calls::ChannelBox;
use crate::channel::Channel;

/// The work of a tick on a channel, one loop each.
#[derive(Clone, Copy, Debug, PartialEq, Eq)]
pub(crate) enum Step {
    /// By the watchdog, or outside all windows.
    Clearing,
    Timers,
    SpecialFunction,
    Trip,
    Look,
    Operating,
    Errors,
    Save,
}

impl Step {
    /// All of them, as they follow one another.
    pub(crate) const ALL: [Step; 8] = [
        Step::Clearing,
        Step::Timers,
        Step::SpecialFunction,
        Step::Trip,
        Step::Look,
        Step::Operating,
        Step::Errors,
        Step::Save,
    ];
}

impl ChannelBox {
    /// A tick in which one step may leave out the channel at a place.
    pub(super) fn tick_by_steps(&mut self, left_out: Option<(Step, usize)>) {
        self.clock.begin_tick();
        let minute = self.clock.now();
        let common = self.begin_work();
        let save = self.count_to_save();
        let starts = self.channels.map(|channel| channel.out_flag);
        for step in Step::ALL {
            for (place, channel) in self.channels.iter_mut().enumerate().rev() {
                let does = match step {
                    Step::Clearing => common.run_out || channel.is_closed(minute),
                    Step::Look => common.look,
                    Step::Save => save,
                    _ => true,
                };
                if does && left_out != Some((step, place)) {
                    channel.take_step(step, starts[place], common);
                }
            }
        }
        if save {
            self.data.keep_real_a();
        }
    }
}

impl Channel {
    /// Does one step. The change rule of step 3 compares with OutFlag as the
    /// tick found it.
    fn take_step(&mut self, step: Step, start: bool, common: Common) {
        match step {
            Step::Clearing => self.clear(),
            Step::Timers => self.count_timers(),
            Step::SpecialFunction => {
                self.run_special_function();
                self.change_rule(start);
            }
            Step::Trip => self.trip_on_load(),
            Step::Look => self.look(common.in_flags),
            Step::Operating => self.count_operating(),
            Step::Errors => self.judge(),
            Step::Save => self.keep_counts(),
        }
    }
}
