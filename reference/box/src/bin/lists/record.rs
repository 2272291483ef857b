//! What `make` writes: two scripts, and which of their lines belong together.
//!
//! The file `own` begins with `seed SEED pairs PAIRS`. Each pair follows with
//! its number from 1, its channel c and a line for each of these; FIRST and
//! SECOND are line numbers from 1 in the files of the two lists, of answers as
//! of calls, and so many lines (COUNT) run on from there.
//!
//! | line                       | what stands there                          |
//! |----------------------------|--------------------------------------------|
//! | `pair NUMBER channel C`    |                                            |
//! | `power FIRST SECOND COUNT` | the power-up                               |
//! | `own FIRST SECOND COUNT`   | one of c's own calls                       |
//! | `first FIRST COUNT`        | a stranger's call in the first list        |
//! | `second SECOND COUNT`      | a stranger's call in the second list       |
//! | `end FIRST SECOND COUNT`   | reads of each register of c at the end     |
//! | `kept FIRST SECOND COUNT`  | the store, for c's entry of the image      |
//! | `outputs FIRST SECOND COUNT` | the outputs, for c's own bit             |
//! | `other FIRST SECOND COUNT` | reads of each register of the strangers    |
//! | `quarters FIRST SECOND COUNT` | further ticks that show c's quarters    |
//! | `hours FIRST SECOND COUNT` | further ticks that show c's windows        |

use crate::hypotheses;
use crate::pair::Pair;
use crate::second::is_for;
use reference_box::generator::random::Random;
use reference_box::image::LENGTH;
use reference_box::player::Call;
use std::io::{self, Write};

/// Of so many pairs the last goes through the ten-hour save.
const LONG: u64 = 500;

/// A script being written, with the number of its lines.
struct Lines<W> {
    out: W,
    count: usize,
}

impl<W: Write> Lines<W> {
    fn new(out: W) -> Lines<W> {
        Lines { out, count: 0 }
    }

    /// Writes calls and gives the number of the first one's line.
    fn write(&mut self, calls: &[Call]) -> io::Result<usize> {
        let first = self.count + 1;
        for call in calls {
            writeln!(self.out, "{call}")?;
        }
        self.count += calls.len();
        Ok(first)
    }
}

/// The three files being written.
pub struct Record<W> {
    first: Lines<W>,
    second: Lines<W>,
    own: W,
}

impl<W: Write> Record<W> {
    pub fn new(first: W, second: W, own: W) -> Record<W> {
        Record {
            first: Lines::new(first),
            second: Lines::new(second),
            own,
        }
    }

    /// Draws so many pairs and writes them. Before a pair is written, it is
    /// asked whether the hypotheses hold of it.
    pub fn make(mut self, seed: u64, pairs: u64) -> io::Result<Record<W>> {
        writeln!(self.own, "seed {seed} pairs {pairs}")?;
        let mut seeds = Random::new(seed);
        for number in 1..=pairs {
            let pair = Pair::draw(seeds.bits(), number % LONG == 0);
            if let Err(why) = hold(&pair) {
                let message = format!("seed {seed}, pair {number}: {why}");
                return Err(io::Error::other(message));
            }
            self.write(number, &pair)?;
        }
        self.first.out.flush()?;
        self.second.out.flush()?;
        self.own.flush()?;
        Ok(self)
    }

    pub fn write(&mut self, number: u64, pair: &Pair) -> io::Result<()> {
        writeln!(self.own, "pair {number} channel {}", pair.channel)?;
        self.both("power", &[Call::Power(pair.image.to_vec())])?;
        self.lists(pair)?;
        self.both("end", &pair.ending)?;
        self.both("kept", &[Call::Store(LENGTH)])?;
        self.both("outputs", &[Call::Outputs])?;
        self.both("other", &pair.survey)?;
        self.both("quarters", &pair.quarters)?;
        self.both("hours", &pair.hours)
    }

    /// Calls that stand in both files.
    fn both(&mut self, what: &str, calls: &[Call]) -> io::Result<()> {
        let first = self.first.write(calls)?;
        let second = self.second.write(calls)?;
        writeln!(self.own, "{what} {first} {second} {}", calls.len())
    }

    fn lists(&mut self, pair: &Pair) -> io::Result<()> {
        let first = self.first.write(&pair.first)?;
        let second = self.second.write(&pair.second)?;
        let own_first = lines_for(&pair.first, first, &[pair.channel]);
        let own_second = lines_for(&pair.second, second, &[pair.channel]);
        for (first, second) in own_first.iter().zip(own_second) {
            writeln!(self.own, "own {first} {second} 1")?;
        }
        for line in lines_for(&pair.first, first, &pair.strangers) {
            writeln!(self.own, "first {line} 1")?;
        }
        for line in lines_for(&pair.second, second, &pair.strangers) {
            writeln!(self.own, "second {line} 1")?;
        }
        Ok(())
    }

    /// The files, once made.
    #[cfg(test)]
    pub fn into_files(self) -> [W; 3] {
        [self.first.out, self.second.out, self.own]
    }
}

/// The hypotheses, asked of the whole lists: the reads at the end are theirs,
/// and so are the ticks after them.
fn hold(pair: &Pair) -> Result<(), String> {
    let after = [&pair.ending, &pair.survey, &pair.quarters, &pair.hours].map(Vec::as_slice);
    let whole = |list: &[Call]| [list, &after.concat()].concat();
    let (first, second) = (whole(&pair.first), whole(&pair.second));
    let strangers = hypotheses::ask(&pair.image, pair.channel, &first, &second)?;
    if strangers != pair.strangers {
        return Err("the strangers are others".to_string());
    }
    Ok(())
}

/// The line numbers of the calls for some channels.
fn lines_for(list: &[Call], first_line: usize, channels: &[u8]) -> Vec<usize> {
    let lines = list.iter().zip(first_line..);
    lines
        .filter(|(call, _)| is_for(call, channels))
        .map(|(_, line)| line)
        .collect()
}
