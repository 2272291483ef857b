//! The file `own`, read back. Its form is written at the top of `record.rs`.

use crate::{hours, runs};

/// Lines of the two files that are matched, counted from 1.
pub type Match = (usize, usize);

/// A pair as the file has it.
#[derive(Debug, Default)]
pub struct Matched {
    pub number: u64,
    pub channel: usize,
    pub power: Vec<Match>,
    pub own: Vec<Match>,
    pub end: Vec<Match>,
    pub kept: Vec<Match>,
    pub outputs: Vec<Match>,
    pub other: Vec<Match>,
    /// Change 2: c's own calls and ticks that show its left-over quarters.
    pub quarters: Vec<Match>,
    /// Change 6: c's own calls, ticks and minutes that show its windows.
    pub hours: Vec<Match>,
    /// Strangers' calls in the first list, and in the second.
    pub first: Vec<usize>,
    pub second: Vec<usize>,
}

#[derive(Debug)]
pub struct Own {
    pub seed: u64,
    pub pairs: Vec<Matched>,
}

/// The registers of a digital channel, which are all read at the end.
const REGISTERS: usize = 15;

impl Own {
    pub fn read(text: &str) -> Result<Own, String> {
        let mut lines = text.lines();
        let head: Vec<&str> = lines.next().unwrap_or("").split(' ').collect();
        let ["seed", seed, "pairs", count] = head[..] else {
            return Err("own: the first line does not name seed and pairs".to_string());
        };
        let count: usize = number(count)?;
        let mut own = Own {
            seed: number(seed)?,
            pairs: Vec::new(),
        };
        for line in lines {
            own.take(line)?;
        }
        let whole = own.pairs.iter().all(Matched::is_whole);
        if own.pairs.len() != count || !whole {
            return Err(format!("own: {count} whole pairs are not there"));
        }
        Ok(own)
    }

    fn take(&mut self, line: &str) -> Result<(), String> {
        let words: Vec<&str> = line.split(' ').collect();
        if let ["pair", pair, "channel", channel] = words[..] {
            self.pairs.push(Matched {
                number: number(pair)?,
                channel: number(channel)?,
                ..Matched::default()
            });
            return Ok(());
        }
        let pair = self.pairs.last_mut().ok_or("own: no pair has begun")?;
        let known = match words[..] {
            [what, first, second, count] => {
                let (first, second) = (number(first)?, number(second)?);
                pair.take_matches(what, first, second, number(count)?)
            }
            [what, line, count] => pair.take_strange(what, number(line)?, number(count)?),
            _ => None,
        };
        known.ok_or_else(|| format!("own: {line}: not understood"))
    }
}

impl Matched {
    fn take_matches(
        &mut self,
        what: &str,
        first: usize,
        second: usize,
        count: usize,
    ) -> Option<()> {
        let matches = match what {
            "power" => &mut self.power,
            "own" => &mut self.own,
            "end" => &mut self.end,
            "kept" => &mut self.kept,
            "outputs" => &mut self.outputs,
            "other" => &mut self.other,
            "quarters" => &mut self.quarters,
            "hours" => &mut self.hours,
            _ => return None,
        };
        matches.extend((0..count).map(|offset| (first + offset, second + offset)));
        Some(())
    }

    fn take_strange(&mut self, what: &str, line: usize, count: usize) -> Option<()> {
        let lines = match what {
            "first" => &mut self.first,
            "second" => &mut self.second,
            _ => return None,
        };
        lines.extend(line..line + count);
        Some(())
    }

    fn is_whole(&self) -> bool {
        (1..=16).contains(&self.channel)
            && self.power.len() == 1
            && self.end.len() == REGISTERS
            && self.kept.len() == 1
            && self.outputs.len() == 1
            && self.quarters.len() == runs::SHOWING
            && self.hours.len() >= hours::SHOWING
    }
}

fn number<T: std::str::FromStr>(word: &str) -> Result<T, String> {
    word.parse()
        .map_err(|_| format!("own: {word} is not a number"))
}
