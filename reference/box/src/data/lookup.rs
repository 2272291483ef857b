//! The lookup: "A local call takes table 1 or 2 and a finite X."

use super::{LookUp, Pair};
use crate::calls::ChannelBox;
use crate::reals::{self, Real, ZERO};

impl ChannelBox {
    /// "15 when the table number isn't 1 or 2, asked first; 7 follows for a
    /// bad X." A refusal gives 0. No wire call: it changes nothing.
    pub fn lookup(&self, table: u8, x: Real) -> (u8, Real) {
        let tables = &self.data.kept.tables;
        let table = match table {
            1 => &tables[0],
            2 => &tables[1],
            _ => return (15, ZERO),
        };
        if !reals::is_finite(x) {
            return (7, ZERO);
        }
        (0, reals::as_read(table.value(x)))
    }
}

impl LookUp {
    /// "At or below X1 it gives Y1, else above X10 it gives Y10. Otherwise
    /// take the first k with X not above Xk. Where X equals Xk the answer is
    /// exactly Yk". X is finite.
    fn value(&self, x: Real) -> Real {
        let pairs = self.0.map(Pair::as_it_acts);
        let (first, last) = (pairs[0], pairs[9]);
        if !reals::greater(x, first.x) {
            return first.y;
        }
        if reals::greater(x, last.x) {
            return last.y;
        }
        let reached = |pair: &Pair| !reals::greater(x, pair.x);
        // X is above X1 and not above X10, so there is one, and one before it.
        let k = pairs.iter().position(reached).expect("X10 is reached");
        if reals::equal(x, pairs[k].x) {
            return pairs[k].y;
        }
        interpolated(pairs[k - 1], pairs[k], x)
    }
}

impl Pair {
    /// "a number that a change adds to the box acts, where it is out of its
    /// range or not finite, as it stands after a refused power-up": as 0.
    fn as_it_acts(self) -> Pair {
        let finite_or_zero = |real| if reals::is_finite(real) { real } else { ZERO };
        Pair {
            x: finite_or_zero(self.x),
            y: finite_or_zero(self.y),
        }
    }
}

/// "else it is Y(k−1) + (Yk − Y(k−1)) times (X − X(k−1)) / (Xk − X(k−1)), each
/// operation rounded once, left to right."
fn interpolated(before: Pair, after: Pair, x: Real) -> Real {
    let rise = reals::subtract(after.y, before.y);
    let part = reals::subtract(x, before.x);
    let step = reals::subtract(after.x, before.x);
    let product = reals::multiply(rise, part);
    reals::add(before.y, reals::divide(product, step))
}

#[cfg(test)]
mod tests;
