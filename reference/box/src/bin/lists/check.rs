//! What `check` does: compares the answers to both lists.

use crate::answers::{in_words, Compared};
use crate::counts::Counts;
use crate::own::{Match, Matched, Own};
use crate::runs::{FIRST_READ, LAST_READ};
use reference_box::image::LENGTH;

/// The bytes of an image before the channels' entries.
const BEFORE_ENTRIES: usize = 10;
const ENTRY_LENGTH: usize = 44;
/// "per channel registers 9, 7, 8, A, B, C, D, 5, 2, 4", with their lengths.
const ENTRY: [(&str, usize); 10] = [
    ("ChConfig", 4),
    ("FBPreset", 4),
    ("OutPreset", 4),
    ("MinCurrent", 4),
    ("MaxCurrent", 4),
    ("the 8 user bytes", 8),
    ("the maintenance bytes", 4),
    ("the 4 user bytes", 4),
    ("Counter", 4),
    ("OperatingTime", 4),
];

/// The scripts of both lists with their answers.
pub struct Played<'a> {
    pub first: List<'a>,
    pub second: List<'a>,
}

/// A script and what is compared of its answers, line for line.
pub struct List<'a> {
    calls: Vec<&'a str>,
    answers: Vec<Compared<'a>>,
}

impl<'a> List<'a> {
    /// Every call must have an answer of its kind, and every answer a call.
    pub fn new(name: &str, calls: &'a str, answers: &'a str) -> Result<List<'a>, String> {
        let calls: Vec<&str> = calls.lines().collect();
        let lines: Vec<&str> = answers.lines().collect();
        let mut answers = Vec::with_capacity(lines.len());
        for (call, line) in calls.iter().zip(&lines) {
            let answer = Compared::of(call, line).ok_or_else(|| {
                let place = format!("line {} of the {name} list", answers.len() + 1);
                format!("{place}: {} is answered by: {line}", in_words(call))
            })?;
            answers.push(answer);
        }
        if calls.len() != lines.len() {
            let (calls, lines) = (calls.len(), lines.len());
            return Err(format!(
                "{lines} answers to {calls} calls of the {name} list"
            ));
        }
        Ok(List { calls, answers })
    }

    /// The call and the answer of a line.
    fn at(&self, line: usize) -> Result<(&'a str, Compared<'a>), String> {
        let index = line.wrapping_sub(1);
        match (self.calls.get(index), self.answers.get(index)) {
            (Some(&call), Some(&answer)) => Ok((call, answer)),
            _ => Err(format!("own: there is no line {line}")),
        }
    }

    /// How many calls there are, without those that "stand outside lists".
    fn length(&self) -> usize {
        let outside = ["power ", "store ", "outputs"];
        let inside = |call: &&&str| !outside.iter().any(|name| call.starts_with(name));
        self.calls.iter().filter(inside).count()
    }
}

impl Played<'_> {
    /// Compares all that belongs together. On success a line to print, else
    /// the first difference in words.
    pub fn check(&self, own: &Own) -> Result<String, String> {
        let mut counts = Counts::default();
        for pair in &own.pairs {
            self.check_pair(pair, &mut counts).map_err(|why| {
                let (number, channel) = (pair.number, pair.channel);
                format!("seed {}, pair {number}, channel {channel}: {why}", own.seed)
            })?;
        }
        let calls = self.first.length() + self.second.length();
        let asked = counts.ask();
        asked.map_err(|why| format!("seed {}: nothing is shown: {why}", own.seed))?;
        let (pairs, seed) = (own.pairs.len(), own.seed);
        Ok(format!(
            "{pairs} pairs (seed {seed}): {calls} calls, {counts}"
        ))
    }

    fn check_pair(&self, pair: &Matched, counts: &mut Counts) -> Result<(), String> {
        for &lines in &pair.power {
            self.compare(lines, "power-up", accepted)?;
        }
        for (&lines, number) in pair.own.iter().zip(1..) {
            self.compare(lines, &format!("own call {number}"), same)?;
        }
        for &lines in &pair.end {
            self.compare(lines, "register at the end", accepted)?;
        }
        for &lines in &pair.kept {
            let kept = |first: Compared, second: Compared| same_entry(pair.channel, first, second);
            self.compare(lines, "kept values", kept)?;
        }
        for &lines in &pair.outputs {
            let output =
                |first: Compared, second: Compared| same_output(pair.channel, first, second);
            self.compare(lines, "output at the end", output)?;
            let (_, answer) = self.first.at(lines.0)?;
            counts.pairs_that_end_on += usize::from(output_of(pair.channel, answer)?);
        }
        for &lines in &pair.quarters {
            self.compare(lines, "left-over quarters", accepted)?;
        }
        for &lines in &pair.hours {
            self.compare(lines, "opening hours", accepted)?;
        }
        counts.own += pair.own.len();
        counts.end += pair.end.len();
        let at_end = self.registers_differ(pair)?;
        let differ = at_end || self.answers_differ(pair)?;
        counts.pairs_that_differ += usize::from(differ);
        counts.pairs_that_differ_at_end += usize::from(at_end);
        counts.pairs_that_go_on += usize::from(self.goes_on(pair)?);
        counts.pairs_that_close += usize::from(self.closes(pair)?);
        Ok(())
    }

    /// Whether OperatingTime after the four ticks is another than before them.
    /// Of the lent bytes after it nothing is asked here.
    fn goes_on(&self, pair: &Matched) -> Result<bool, String> {
        let time = |place: usize| {
            let (first, _) = pair.quarters[place];
            let answer = self.first.at(first)?.1;
            Ok::<_, String>(answer.buffer.and_then(|buffer| buffer.get(..8)))
        };
        Ok(time(FIRST_READ)? != time(LAST_READ)?)
    }

    /// Whether a read of FlagReg, each after a tick with OutFlag made TRUE before
    /// it, shows OutFlag FALSE.
    fn closes(&self, pair: &Matched) -> Result<bool, String> {
        let flag_reg = format!("read {:x} ", 0x10 * pair.channel);
        for &(first, _) in &pair.hours {
            let (call, answer) = self.first.at(first)?;
            let digit = answer.buffer.and_then(|buffer| buffer.chars().next());
            let out_flag = digit.and_then(|digit| digit.to_digit(16));
            if call.starts_with(&flag_reg) && out_flag.is_some_and(|digit| digit < 8) {
                return Ok(true);
            }
        }
        Ok(false)
    }

    /// Asks something of the answers to one call of both lists.
    fn compare(
        &self,
        (first, second): Match,
        what: &str,
        ask: impl Fn(Compared, Compared) -> Result<(), String>,
    ) -> Result<(), String> {
        let (call, first_answer) = self.first.at(first)?;
        let (other, second_answer) = self.second.at(second)?;
        let found = match call == other {
            true => ask(first_answer, second_answer),
            false => Err("not the same call".to_string()),
        };
        found.map_err(|why| {
            let lines = format!("line {first} of first.calls, {second} of second.calls");
            format!("{what}, {} ({lines}): {why}", in_words(call))
        })
    }

    /// Whether a stranger's register at the end is another in the other list.
    fn registers_differ(&self, pair: &Matched) -> Result<bool, String> {
        let mut differ = false;
        for &(first, second) in &pair.other {
            differ |= self.first.at(first)?.1 != self.second.at(second)?.1;
        }
        Ok(differ)
    }

    /// Whether the strangers' own calls got other answers, or more or fewer.
    fn answers_differ(&self, pair: &Matched) -> Result<bool, String> {
        let answers = |list: &List, lines: &[usize]| -> Result<Vec<String>, String> {
            let answer = |line: &usize| Ok(list.at(*line)?.1.to_string());
            lines.iter().map(answer).collect()
        };
        Ok(answers(&self.first, &pair.first)? != answers(&self.second, &pair.second)?)
    }
}

fn same(first: Compared, second: Compared) -> Result<(), String> {
    if first == second {
        return Ok(());
    }
    Err(differ(&first.to_string(), &second.to_string()))
}

fn differ(first: &str, second: &str) -> String {
    format!("{first} in the first list, but {second} in the second")
}

/// The same, and done in both.
fn accepted(first: Compared, second: Compared) -> Result<(), String> {
    same(first, second)?;
    match first.number {
        Some("0") => Ok(()),
        _ => Err(format!("{first} in both lists, where 0 is due")),
    }
}

/// Two stores whose images have the same entry for a channel.
fn same_entry(channel: usize, first: Compared, second: Compared) -> Result<(), String> {
    let mut from = BEFORE_ENTRIES + ENTRY_LENGTH * (channel - 1);
    for (name, length) in ENTRY {
        let first = kept_value(first, from, length)?;
        let second = kept_value(second, from, length)?;
        if first != second {
            return Err(format!("{name}: {}", differ(first, second)));
        }
        from += length;
    }
    Ok(())
}

/// Some bytes of a stored image.
fn kept_value(answer: Compared<'_>, from: usize, length: usize) -> Result<&str, String> {
    let whole = answer.length == Some(LENGTH.to_string().as_str());
    let stored = answer.number == Some("0") && whole;
    let image = answer.buffer.filter(|_| stored);
    image
        .and_then(|image| image.get(2 * from..2 * (from + length)))
        .ok_or_else(|| format!("{answer}, which is no stored image"))
}

/// Two words of outputs that have the same bit for a channel.
fn same_output(channel: usize, first: Compared, second: Compared) -> Result<(), String> {
    if output_of(channel, first)? == output_of(channel, second)? {
        return Ok(());
    }
    Err(differ(&first.to_string(), &second.to_string()))
}

/// "four hexadecimal digits, bit k−1 for channel k's Output".
fn output_of(channel: usize, answer: Compared) -> Result<bool, String> {
    let digit = |byte: u8| matches!(byte, b'0'..=b'9' | b'a'..=b'f');
    let digits = answer
        .word
        .filter(|word| word.len() == 4 && word.bytes().all(digit));
    let word = digits.and_then(|digits| u16::from_str_radix(digits, 16).ok());
    let word = word.ok_or_else(|| format!("{answer}, which is no word"))?;
    Ok(word >> (channel - 1) & 1 == 1)
}

#[cfg(test)]
mod tests;
