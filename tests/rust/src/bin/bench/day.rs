//! A mixed day: a list of calls as a well head makes them, drawn beforehand.

use crate::cases::busy_config;
use crate::sides::Side;
use reference_box::generator::random::Random;
use reference_box::registers::Register;

/// A call without memory of its own, so that playing it costs the call alone.
#[derive(Clone, Copy)]
pub enum Call {
    Tick,
    Sample(u8, bool, f32),
    Read(u16),
    Write(u16, [u8; 4], u8),
}

const SEED: u64 = 3120;

type Draw = fn(&mut Random) -> Call;

/// What a day is made of, with weights.
const MIX: &[(u64, Draw)] = &[
    (50, |_| Call::Tick),
    (30, |random| {
        Call::Sample(channel(random), random.chance(1, 2), amperes(random))
    }),
    (15, |random| Call::Read(read_from(random))),
    (5, write),
];

/// The registers that are read of a channel: FlagReg, OutTimer, Counter,
/// OutCurrent, OperatingTime, ChError.
const READ: [u16; 6] = [0x0, 0x1, 0x2, 0x3, 0x4, 0xF];
/// CommonError and IOChError, each a tenth of the reads.
const READ_OF_ALL: [u16; 2] = [0x00F, 0x112];

/// So many calls, always the same.
pub fn day(calls: usize) -> Vec<Call> {
    let mut random = Random::new(SEED);
    let draw = |_| random.weighted(MIX)(&mut random);
    (0..calls).map(draw).collect()
}

fn channel(random: &mut Random) -> u8 {
    random.within(1, 16) as u8
}

/// Mostly below 1 A; one in a hundred is an overload.
fn amperes(random: &mut Random) -> f32 {
    match random.below(100) {
        0 => 2.5,
        hundredths => hundredths as f32 / 100.0,
    }
}

fn read_from(random: &mut Random) -> u16 {
    if random.chance(1, 5) {
        return random.pick(&READ_OF_ALL);
    }
    u16::from(channel(random)) * 0x10 + random.pick(&READ)
}

/// FlagReg, OutTimer, Counter, ChConfig or OutFlags. ChConfig is written as it
/// stands, so that the box stays as busy as it was.
fn write(random: &mut Random) -> Call {
    let channel = channel(random);
    let (register, bytes) = match random.below(10) {
        0..=4 => (0x0, [random.pick(&[0x88, 0x08, 0x80, 0x00]), 0, 0, 0]),
        5 => (0x1, 1.5_f32.to_be_bytes()),
        6 => (0x2, random.word().to_be_bytes()),
        7 => (0x9, busy_config(channel)),
        _ => return Call::Write(0x110, random.word().to_be_bytes(), 2),
    };
    let swno = u16::from(channel) * 0x10 + register;
    let length = Register::find(swno).map_or(0, Register::length);
    Call::Write(swno, bytes, length as u8)
}

pub fn play<S: Side>(side: &mut S, calls: &[Call]) {
    let mut buffer = [0; 12];
    for call in calls {
        match *call {
            Call::Tick => side.tick(),
            Call::Sample(channel, level, amperes) => side.sample(channel, level, amperes),
            Call::Read(swno) => side.read(swno, &mut buffer),
            Call::Write(swno, bytes, length) => side.write(swno, &bytes[..usize::from(length)]),
        }
    }
}

#[cfg(test)]
mod tests {
    use super::*;
    use crate::cases::{prepared, Start};
    use crate::sides::Library;
    use pd3120::{Error, Pd3120};

    fn make(module: &mut Pd3120, call: Call) -> Result<(), Error> {
        match call {
            Call::Tick => module.tick(),
            Call::Sample(channel, level, amperes) => module.sample(channel, level, amperes)?,
            Call::Read(swno) => drop(module.read(swno, &mut [0; 12])?),
            Call::Write(swno, bytes, length) => {
                module.write(swno, &bytes[..usize::from(length)])?;
            }
        }
        Ok(())
    }

    #[test]
    fn no_call_of_a_day_is_refused() {
        let Library(mut module) = prepared(Start::Busy);
        for call in day(100_000) {
            make(&mut module, call).expect("a call that is done");
        }
    }
}
