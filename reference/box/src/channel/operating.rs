//! Change 2: the operating count and its quarters.

use super::Channel;

/// "four such ticks add one to the operating count".
const QUARTERS: u8 = 4;

impl Channel {
    /// Step 5 of every tick. Change 2: "each tick with InFlag TRUE adds a
    /// quarter of an eighth, and four such ticks add one to the operating
    /// count", which goes on "stopping at 4294967295": there the quarters go
    /// on from 3 to 0 and the count stays. The four need not follow one
    /// another, nor fall on looks.
    ///
    /// The manual's sentence, "This variable totalises the time period InFlag
    /// is True", is compared "against this reading of it".
    pub fn count_operating(&mut self) {
        if !self.in_flag {
            return;
        }
        self.quarters = self.left_over() + 1;
        if self.quarters == QUARTERS {
            self.quarters = 0;
            self.operating = self.operating.saturating_add(1);
        }
    }

    /// The left-over quarters, 0 to 3. Change 1: "a number that a change adds
    /// to the box acts, where it is out of its range [...], as it stands after
    /// a refused power-up": any other acts as 0.
    pub fn left_over(&self) -> u8 {
        if self.quarters < QUARTERS {
            self.quarters
        } else {
            0
        }
    }

    /// An accepted write of OperatingTime, whatever WriteEnable is. Change 2:
    /// "the left-over quarters are lost [...] when OperatingTime is written".
    pub fn write_operating(&mut self, count: u32) {
        self.operating = count;
        self.quarters = 0;
    }
}

#[cfg(test)]
mod tests;
