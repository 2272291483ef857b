//! What `check` counts, and what it says of it.

use std::fmt;

/// What was found the same, how often strangers differed, and in how many pairs
/// c's output was on at the end, its OperatingTime went on with the four further
/// ticks, and c was closed by its windows after them.
#[derive(Default)]
pub struct Counts {
    pub own: usize,
    pub end: usize,
    pub pairs_that_end_on: usize,
    pub pairs_that_differ: usize,
    pub pairs_that_differ_at_end: usize,
    pub pairs_that_go_on: usize,
    pub pairs_that_close: usize,
}

impl Counts {
    /// Why nothing is shown, where so much is missing.
    pub fn ask(&self) -> Result<(), &'static str> {
        let none = [
            (
                self.own.min(self.pairs_that_differ_at_end),
                "no stranger's register ever differed, or no own call was there",
            ),
            (
                self.pairs_that_go_on,
                "four ticks never moved the channel's OperatingTime",
            ),
            (
                self.pairs_that_close,
                "the channel's windows never closed it after the end",
            ),
            (
                self.pairs_that_end_on,
                "the channel's output was never on at the end",
            ),
        ];
        match none.iter().find(|(count, _)| *count == 0) {
            Some((_, why)) => Err(why),
            None => Ok(()),
        }
    }
}

impl fmt::Display for Counts {
    fn fmt(&self, formatter: &mut fmt::Formatter) -> fmt::Result {
        write!(
            formatter,
            "{} own answers and {} end registers the same, and the output, which was on in {}; \
             in {} pairs the strangers' own answers or registers differed, in {} the registers; \
             in {} the channel's OperatingTime moved, by the same, in four ticks after the end; \
             in {} its windows closed it, at the same ticks, after them",
            self.own,
            self.end,
            self.pairs_that_end_on,
            self.pairs_that_differ,
            self.pairs_that_differ_at_end,
            self.pairs_that_go_on,
            self.pairs_that_close,
        )
    }
}
