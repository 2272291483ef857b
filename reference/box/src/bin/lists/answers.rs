//! Answers as lines, what is compared of them, and calls in words.

use reference_box::player::Call;
use reference_box::registers::Register;
use std::fmt;

/// What is compared of an answer: "the same number in both lists and, if a
/// wire call, the same length and (a read) the same whole buffer afterwards";
/// not "the two box-wide error bits".
#[derive(Clone, Copy, Debug, Default, PartialEq, Eq)]
pub struct Compared<'a> {
    pub number: Option<&'a str>,
    pub length: Option<&'a str>,
    pub buffer: Option<&'a str>,
    /// Of a lookup, which belongs to no channel.
    pub real: Option<&'a str>,
    /// Of `outputs`, which has no number.
    pub word: Option<&'a str>,
}

impl Compared<'_> {
    /// Of the answer to a call, if it is one.
    pub fn of<'a>(call: &str, answer: &'a str) -> Option<Compared<'a>> {
        let words: Vec<&str> = answer.split(' ').collect();
        let (name, words) = words.split_first()?;
        if call.split(' ').next() != Some(name) {
            return None;
        }
        let (number, length, buffer) = match (*name, words) {
            ("read", [number, length, _, _, buffer]) => (number, Some(length), Some(buffer)),
            ("write", [number, length, _, _]) => (number, Some(length), None),
            ("store", [number, length, buffer]) => (number, Some(length), Some(buffer)),
            ("power" | "sample" | "tick" | "minute" | "windows", [number]) => (number, None, None),
            ("lookup", [number, real]) => return Some(Compared::of_lookup(number, real)),
            ("outputs", [word]) => return Some(Compared::of_outputs(word)),
            _ => return None,
        };
        Some(Compared {
            number: Some(number),
            length: length.copied(),
            buffer: buffer.copied(),
            ..Compared::default()
        })
    }

    fn of_lookup<'a>(number: &'a str, real: &'a str) -> Compared<'a> {
        Compared {
            number: Some(number),
            real: Some(real),
            ..Compared::default()
        }
    }

    fn of_outputs(word: &str) -> Compared<'_> {
        Compared {
            word: Some(word),
            ..Compared::default()
        }
    }
}

impl fmt::Display for Compared<'_> {
    fn fmt(&self, formatter: &mut fmt::Formatter) -> fmt::Result {
        let parts = [
            ("number", self.number),
            ("length", self.length),
            ("buffer", self.buffer),
            ("Real", self.real),
            ("outputs", self.word),
        ];
        let words = parts
            .iter()
            .filter_map(|(name, word)| Some((name, (*word)?)));
        let words: Vec<String> = words.map(|(name, word)| format!("{name} {word}")).collect();
        formatter.write_str(&words.join(", "))
    }
}

/// A line of a script in words.
pub fn in_words(line: &str) -> String {
    match Call::parse(line.as_bytes()) {
        Ok(Some(Call::Read(swno, _))) => {
            format!("the read of {} ({line})", register(swno))
        }
        Ok(Some(Call::Write(swno, _))) => {
            format!("the write of {} ({line})", register(swno))
        }
        Ok(Some(Call::Sample(channel, ..))) => {
            format!("the sample for channel {channel} ({line})")
        }
        Ok(Some(Call::Windows(channel, _))) => {
            format!("the windows of channel {channel} ({line})")
        }
        Ok(Some(Call::Lookup(table, _))) => {
            format!("the lookup in table {table} ({line})")
        }
        Ok(Some(Call::Power(_))) => "the power-up".to_string(),
        Ok(Some(Call::Store(_))) => "the store".to_string(),
        Ok(Some(Call::Outputs)) => "the outputs".to_string(),
        _ => format!("the call {line}"),
    }
}

fn register(swno: u16) -> String {
    match Register::find(swno) {
        Ok(Register::Service(name)) => format!("SWNo ${swno:X}, {name:?}"),
        Ok(Register::Digital(_, name)) => format!("SWNo ${swno:X}, {name:?}"),
        Ok(Register::Common(name)) => format!("SWNo ${swno:X}, {name:?}"),
        Ok(Register::Data(name)) => format!("SWNo ${swno:X}, {name:?}"),
        Err(_) => format!("SWNo ${swno:X}, which is not listed"),
    }
}
