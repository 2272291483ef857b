//! A call as a line of a script.

use super::charge::Charge;
use super::device::Device;
use super::reply::{hexadecimal, Reply};
use super::windows::{windows_line, windows_of};
use super::words::{
    bit, bytes, decimal, decimal_word, minute_of, real_of, small, swno_of, words_of, Why,
};
use crate::CHANNELS;
use std::fmt;

const LONGEST_STORE: u64 = 4096;
const LENT: u8 = 0xA5;

/// A call as the script gives it.
#[derive(Clone, Debug, PartialEq, Eq)]
pub enum Call {
    Power(Vec<u8>),
    Store(usize),
    Read(u16, Vec<u8>),
    Write(u16, Vec<u8>),
    /// Change 3: a channel, its level and its current.
    Sample(u8, bool, u32),
    Tick(u32),
    /// Change 1: a table and X.
    Lookup(u8, u32),
    /// Change 4: two Counter values, litres per pulse and the blocks.
    Charge(Charge),
    /// Change 6: a minute of the week.
    Minute(u16),
    /// Change 6: a channel and its windows, each a start and an end.
    Windows(u8, Vec<(u16, u16)>),
    /// The Outputs of all channels: a question beside the calls.
    Outputs,
}

impl Call {
    /// The call of a line, or none on a blank one.
    pub fn parse(line: &[u8]) -> Result<Option<Call>, Why> {
        let words = words_of(line);
        let Some((&name, rest)) = words.split_first() else {
            return Ok(None);
        };
        Call::from_words(name, rest).map(Some)
    }

    fn from_words(name: &[u8], words: &[&[u8]]) -> Result<Call, Why> {
        match (name, words) {
            (b"power", [image]) => Ok(Call::Power(bytes(image)?)),
            (b"store", [length]) => {
                let length = decimal(length, LONGEST_STORE)?;
                Ok(Call::Store(length as usize))
            }
            (b"read", [swno, lent]) => Ok(Call::Read(swno_of(swno)?, bytes(lent)?)),
            (b"write", [swno, value]) => Ok(Call::Write(swno_of(swno)?, bytes(value)?)),
            (b"sample", [channel, level, real]) => {
                let (channel, level) = (small(channel)?, bit(level)?);
                Ok(Call::Sample(channel, level, real_of(real)?))
            }
            (b"lookup", [table, real]) => Ok(Call::Lookup(small(table)?, real_of(real)?)),
            (b"charge", _) => Charge::from_words(words).map(Call::Charge),
            (b"minute", [minute]) => Ok(Call::Minute(minute_of(minute)?)),
            (b"windows", _) => windows_of(words),
            (b"outputs", []) => Ok(Call::Outputs),
            (b"tick", []) => Ok(Call::Tick(1)),
            (b"tick", [count]) => Ok(Call::Tick(decimal_word(count)?)),
            _ if is_name(name) => Err(Why::WrongNumberOfWords),
            _ => Err(Why::UnknownCall),
        }
    }

    /// Makes the call on a box.
    pub fn make(&self, device: &mut impl Device) -> Reply {
        match self {
            Call::Power(image) => Reply::Power(device.power_up(image)),
            Call::Store(length) => {
                let mut buffer = vec![LENT; *length];
                let (number, length) = device.store(&mut buffer);
                Reply::Store(number, length, buffer)
            }
            Call::Read(swno, lent) => {
                let mut buffer = lent.clone();
                Reply::Read(device.read(*swno, &mut buffer), buffer)
            }
            Call::Write(swno, value) => Reply::Write(device.write(*swno, value)),
            Call::Sample(channel, level, real) => {
                Reply::Sample(device.sample(*channel, *level, *real))
            }
            Call::Tick(count) => {
                for _ in 0..*count {
                    device.tick();
                }
                Reply::Tick
            }
            Call::Lookup(table, x) => {
                let (number, real) = device.lookup(*table, *x);
                Reply::Lookup(number, real)
            }
            Call::Charge(charge) => charge.make(device),
            Call::Minute(minute) => Reply::Minute(device.minute(*minute)),
            Call::Windows(channel, windows) => Reply::Windows(device.windows(*channel, windows)),
            Call::Outputs => Reply::Outputs(outputs(device)),
        }
    }
}

/// Output of channel k at bit k−1.
fn outputs(device: &impl Device) -> u16 {
    let bit = |channel: u8| u16::from(device.output(channel)) << (channel - 1);
    (1..=CHANNELS as u8).fold(0, |word, channel| word | bit(channel))
}

/// "A wire call is for the channel of its SWNo, a sample for its own channel,
/// refused ones included". Change 1: "Data calls are never strangers' calls":
/// a wire call of $13 is for channel 19, a lookup for none. Change 4: a charge
/// stands "above the box" and is no call on it at all. Change 6: "Timetable
/// calls for a stranger are struck with its other calls; setting the minute is a
/// call of everyone." `outputs` is for no channel and in no list.
impl Call {
    /// The channel that a call is for, digital or not.
    pub fn channel(&self) -> Option<u16> {
        match self {
            Call::Read(swno, _) | Call::Write(swno, _) => Some(swno >> 4),
            Call::Sample(channel, ..) | Call::Windows(channel, _) => Some(u16::from(*channel)),
            Call::Power(_)
            | Call::Store(_)
            | Call::Tick(_)
            | Call::Lookup(..)
            | Call::Charge(_)
            | Call::Minute(_)
            | Call::Outputs => None,
        }
    }

    pub fn is_wire(&self) -> bool {
        matches!(self, Call::Read(..) | Call::Write(..))
    }
}

/// The line of a script.
impl fmt::Display for Call {
    fn fmt(&self, formatter: &mut fmt::Formatter) -> fmt::Result {
        match self {
            Call::Power(image) => write!(formatter, "power {}", hexadecimal(image)),
            Call::Store(length) => write!(formatter, "store {length}"),
            Call::Read(swno, lent) => write!(formatter, "read {swno:x} {}", hexadecimal(lent)),
            Call::Write(swno, value) => write!(formatter, "write {swno:x} {}", hexadecimal(value)),
            Call::Sample(channel, level, real) => {
                let level = u8::from(*level);
                write!(formatter, "sample {channel} {level} {real:08x}")
            }
            Call::Tick(1) => write!(formatter, "tick"),
            Call::Tick(count) => write!(formatter, "tick {count}"),
            Call::Lookup(table, x) => write!(formatter, "lookup {table} {x:08x}"),
            Call::Charge(charge) => charge.fmt(formatter),
            Call::Minute(minute) => write!(formatter, "minute {minute}"),
            Call::Windows(channel, windows) => {
                formatter.write_str(&windows_line(*channel, windows))
            }
            Call::Outputs => formatter.write_str("outputs"),
        }
    }
}

fn is_name(word: &[u8]) -> bool {
    let names: [&[u8]; 9] = [
        b"power", b"store", b"read", b"write", b"sample", b"tick", b"lookup", b"minute", b"outputs",
    ];
    names.contains(&word)
}

#[cfg(test)]
mod tests {
    use super::*;

    fn charge(earlier: i32, later: i32, litres: u32, limits: &[u64], prices: &[u32]) -> Call {
        Call::Charge(Charge {
            earlier,
            later,
            litres_per_pulse: litres,
            limits: limits.to_vec(),
            prices: prices.to_vec(),
        })
    }

    #[test]
    fn a_call_is_read_back_from_its_line() {
        for call in [
            Call::Power(vec![1, 0xAB]),
            Call::Store(886),
            Call::Read(0x11F, vec![]),
            Call::Write(0xFFFF, vec![0xFE]),
            Call::Sample(255, true, 0x0000_0001),
            Call::Sample(16, false, 0xFF80_0000),
            Call::Tick(1),
            Call::Tick(1_152_000),
            Call::Lookup(255, 0x0000_000A),
            charge(0, 0, 0, &[], &[]),
            charge(-1, 10, u32::MAX, &[], &[u32::MAX]),
            charge(i32::MIN, i32::MAX, 1, &[0, u64::MAX], &[0, 7, 8]),
            charge(1, 2, 10, &[7, 6, 5, 4, 3, 2, 1], &[8; 8]),
            Call::Minute(0),
            Call::Minute(65_535),
            Call::Windows(0, vec![]),
            Call::Windows(255, vec![(0, 65_535)]),
            Call::Windows(16, (0..16).map(|start| (start, 600 - start)).collect()),
            Call::Outputs,
        ] {
            let line = call.to_string();
            assert_eq!(Call::parse(line.as_bytes()), Ok(Some(call)), "{line}");
        }
    }

    #[test]
    fn a_call_is_for_the_channel_of_its_swno_its_sample_or_its_windows() {
        assert_eq!(Call::Read(0x11F, vec![]).channel(), Some(17));
        assert_eq!(Call::Write(0x120, vec![]).channel(), Some(18));
        assert_eq!(Call::Write(0x00D, vec![1]).channel(), Some(0));
        assert_eq!(Call::Sample(200, true, 0).channel(), Some(200));
        assert_eq!(Call::Sample(16, false, 0x7FC0_0000).channel(), Some(16));
        assert_eq!(Call::Tick(1).channel(), None);
        assert_eq!(Call::Write(0x13D, vec![]).channel(), Some(19));
        assert_eq!(Call::Lookup(1, 0).channel(), None);
        assert!(Call::Read(0x130, vec![]).is_wire() && !Call::Lookup(1, 0).is_wire());
        assert!(!Call::Sample(1, true, 0).is_wire());
        assert_eq!(Call::Windows(9, vec![(0, 1)]).channel(), Some(9));
        assert_eq!(Call::Windows(0, vec![]).channel(), Some(0));
        assert_eq!(Call::Minute(9).channel(), None);
        assert!(!Call::Windows(1, vec![]).is_wire() && !Call::Minute(0).is_wire());
        let charge = charge(0, 1, 1, &[], &[1]);
        assert!(charge.channel().is_none() && !charge.is_wire());
        assert!(Call::Outputs.channel().is_none() && !Call::Outputs.is_wire());
    }
}
