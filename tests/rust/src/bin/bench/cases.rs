//! Single calls, each made many times on a prepared box.

use crate::sides::{Side, Windows};
use pd3120::Tariff;
use reference_box::channel::{flag, Config, Kept};
use reference_box::data::{KeptData, LookUp, Pair};
use reference_box::image::{Settings, LENGTH};
use reference_box::registers::LONGEST;
use reference_box::CHANNELS;
use std::hint::black_box;

/// The box that a call is made on.
#[derive(Clone, Copy)]
pub enum Start {
    /// The watchdog off, all other settings zero.
    Idle,
    /// All sixteen channels running a duty cycle, with two references each, and
    /// a rising LookUp1.
    Busy,
    /// The busy box with the minute of the week set, and so many windows on each
    /// channel, of which only the last is open.
    Hours(usize),
}

/// The call that is made.
#[derive(Clone, Copy)]
pub enum Work {
    Tick,
    Read(u16),
    Write(u16, &'static [u8]),
    Sample,
    LookUp,
    Minute,
    Windows,
    PowerUp,
    Store,
    Charge,
}

/// Every case with its name in the table.
pub const CASES: &[(&str, Start, Work)] = &[
    ("tick, idle box", Start::Idle, Work::Tick),
    ("tick, busy box", Start::Busy, Work::Tick),
    ("tick, minute set", Start::Hours(0), Work::Tick),
    ("tick, one window each", Start::Hours(1), Work::Tick),
    ("tick, eight windows each", Start::Hours(8), Work::Tick),
    ("read FlagReg ($10)", Start::Busy, Work::Read(0x10)),
    ("read Counter ($12)", Start::Busy, Work::Read(0x12)),
    ("read ChError ($1F)", Start::Busy, Work::Read(0x1F)),
    ("read CommonError ($F)", Start::Busy, Work::Read(0x0F)),
    ("read LookUp1 ($13C)", Start::Busy, Work::Read(0x13C)),
    (
        "write FlagReg",
        Start::Busy,
        Work::Write(0x10, &[flag::CONTROL]),
    ),
    (
        "write ChConfig",
        Start::Busy,
        Work::Write(0x19, &DUTY_CYCLE),
    ),
    ("sample, level alternating", Start::Busy, Work::Sample),
    ("lookup, in the middle", Start::Busy, Work::LookUp),
    ("set the minute", Start::Busy, Work::Minute),
    ("set eight windows", Start::Busy, Work::Windows),
    ("power-up, 886 bytes", Start::Busy, Work::PowerUp),
    ("store, 886 bytes", Start::Busy, Work::Store),
    ("charge, four blocks", Start::Idle, Work::Charge),
];

/// ChConfig of channel 1 in the busy box.
const DUTY_CYCLE: [u8; 4] = [0, 0x30, 2, 3];

/// ChConfig of a channel in the busy box: its references are the next two.
pub fn busy_config(channel: u8) -> [u8; 4] {
    let [enable, functions, ..] = DUTY_CYCLE;
    [enable, functions, channel % 16 + 1, (channel + 1) % 16 + 1]
}

/// The busy box turns each output every second tick.
fn busy_channel(channel: u8) -> Kept {
    Kept {
        config: Config::from_bytes(busy_config(channel)),
        out_preset: 16,
        fb_preset: 64,
        max_current: 0x3F80_0000,
        ..Kept::default()
    }
}

/// A LookUp1 whose X are 1 to 10, and whose Y their squares.
fn busy_data() -> KeptData {
    let pair = |index| {
        let x = index as f32 + 1.0;
        Pair {
            x: x.to_bits(),
            y: (x * x).to_bits(),
        }
    };
    KeptData {
        tables: [LookUp(std::array::from_fn(pair)), LookUp::default()],
        ..KeptData::default()
    }
}

/// An X between the fifth and the sixth entry.
const MIDDLE: f32 = 5.3;

/// The minute that is set, and windows of which only the last has it and the
/// 9999 minutes after it.
const NOW: u16 = 0;
const HOURS: [(u16, u16); 8] = [
    (10_072, 10_073),
    (10_073, 10_074),
    (10_074, 10_075),
    (10_075, 10_076),
    (10_076, 10_077),
    (10_077, 10_078),
    (10_078, 10_079),
    (0, 10_000),
];

/// A charge that has litres in each block: 350 pulses of ten litres.
const READINGS: [i32; 2] = [i32::MAX - 99, i32::MIN + 250];
const LITRES_PER_PULSE: u32 = 10;
const TARIFF: Tariff = Tariff {
    blocks: 4,
    limits: [1000, 2000, 3000],
    prices: [150, 200, 325, 410],
};

/// The setup image of a start, in all with the watchdog off.
pub fn image(start: Start) -> [u8; LENGTH] {
    let (channels, data) = match start {
        Start::Idle => ([Kept::default(); CHANNELS], KeptData::default()),
        Start::Busy | Start::Hours(_) => {
            let channel = |index| busy_channel(index as u8 + 1);
            (std::array::from_fn(channel), busy_data())
        }
    };
    let settings = Settings {
        module_config: Config::from_bytes([0, 0x10, 0, 0]),
        channels,
        data,
        ..Settings::default()
    };
    settings.encode()
}

/// A box of a start, with WriteEnable on.
pub fn prepared<S: Side>(start: Start) -> S {
    let mut side = S::default();
    side.power_up(&image(start));
    side.write(0x0D, &[1]);
    if let Start::Busy | Start::Hours(_) = start {
        for channel in 1..=16 {
            side.write(u16::from(channel) * 0x10, &[flag::CONTROL]);
            side.sample(channel, channel % 2 == 0, 0.0);
        }
    }
    if let Start::Hours(count) = start {
        side.set_minute(NOW);
        let windows = Windows::new(&HOURS[HOURS.len() - count..]);
        (1..=16).for_each(|channel| side.set_windows(channel, &windows));
    }
    side
}

/// Makes the call so many times. Arguments pass through `black_box`, so that
/// nothing is worked out once for all calls.
pub fn repeat<S: Side>(side: &mut S, work: Work, times: u32) {
    let mut buffer = [0; LONGEST];
    let mut room = [0; LENGTH];
    let image = image(Start::Busy);
    let windows = Windows::new(&HOURS);
    match work {
        Work::Tick => (0..times).for_each(|_| side.tick()),
        Work::Read(swno) => (0..times).for_each(|_| {
            side.read(black_box(swno), black_box(&mut buffer));
        }),
        Work::Write(swno, bytes) => (0..times).for_each(|_| {
            side.write(black_box(swno), black_box(bytes));
        }),
        Work::Sample => (0..times).for_each(|count| {
            side.sample(black_box(4), black_box(count % 2 == 0), black_box(0.5));
        }),
        Work::LookUp => (0..times).for_each(|_| {
            side.look_up(black_box(1), black_box(MIDDLE));
        }),
        Work::Minute => (0..times).for_each(|_| side.set_minute(black_box(NOW))),
        Work::Windows => (0..times).for_each(|_| {
            side.set_windows(black_box(4), black_box(&windows));
        }),
        Work::PowerUp => (0..times).for_each(|_| side.power_up(black_box(&image))),
        Work::Store => (0..times).for_each(|_| side.store(black_box(&mut room))),
        Work::Charge => (0..times).for_each(|_| {
            let [earlier, later] = black_box(READINGS);
            side.charge(
                earlier,
                later,
                black_box(LITRES_PER_PULSE),
                black_box(&TARIFF),
            );
        }),
    }
}

#[cfg(test)]
mod tests {
    use super::*;
    use crate::sides::Library;
    use pd3120::{charge, Error, Pd3120, Window};

    fn make(module: &mut Pd3120, work: Work) -> Result<(), Error> {
        match work {
            Work::Tick => module.tick(),
            Work::Read(swno) => drop(module.read(swno, &mut [0; LONGEST])?),
            Work::Write(swno, bytes) => drop(module.write(swno, bytes)?),
            Work::Sample => module.sample(4, true, 0.5)?,
            Work::LookUp => drop(module.look_up(1, MIDDLE)?),
            Work::Minute => module.set_minute(NOW)?,
            Work::Windows => {
                module.set_windows(4, &HOURS.map(|(start, end)| Window { start, end }))?;
            }
            Work::PowerUp => module.power_up_again(&image(Start::Busy))?,
            Work::Store => drop(module.store(&mut [0; LENGTH])?),
            Work::Charge => {} // no call on the box; its test stands below
        }
        Ok(())
    }

    #[test]
    fn no_call_that_is_measured_is_refused() {
        for &(name, start, work) in CASES {
            let Library(mut module) = prepared(start);
            assert_eq!(make(&mut module, work), Ok(()), "{name}");
        }
    }

    /// 25 + 11 · 0.3, rounded as it goes.
    #[test]
    fn the_lookup_that_is_measured_is_between_two_entries() {
        let Library(module) = prepared(Start::Busy);
        let level = module.look_up(1, MIDDLE).expect("a finite X");
        assert!((28.299..28.301).contains(&level), "{level}");
    }

    /// 1000 litres at 150, at 200 and at 325, and 500 at 410.
    #[test]
    fn the_charge_that_is_measured_has_litres_in_each_block() {
        let [earlier, later] = READINGS;
        let cents = charge(earlier, later, LITRES_PER_PULSE, &TARIFF);
        assert_eq!(cents, Ok(8800));
    }

    #[test]
    fn every_channel_of_the_busy_box_turns_its_output() {
        for start in [Start::Busy, Start::Hours(1), Start::Hours(8)] {
            let Library(mut module) = prepared(start);
            for channel in 1..=16 {
                let mut seen = [false; 2];
                for _ in 0..8 {
                    module.tick();
                    seen[usize::from(module.output(channel))] = true;
                }
                assert_eq!(seen, [true; 2], "{channel}");
            }
        }
    }

    /// The windows are in place: at a minute outside them no output stays on.
    #[test]
    fn every_channel_of_the_box_with_windows_can_be_closed() {
        for count in [0, 1, 8] {
            let Library(mut module) = prepared(Start::Hours(count));
            module.set_minute(10_079).expect("a minute");
            for _ in 0..8 {
                module.tick();
                let on = (1..=16).filter(|&channel| module.output(channel)).count();
                assert!(count == 0 || on == 0, "{count}");
            }
        }
    }
}
