//! What the tests share: everything that a box shows of itself, and how long an
//! output stays on.

// Not every test uses all of it.
#![allow(dead_code)]

use pd3120::table::LENGTH;
use pd3120::{Answer, Error, Pd3120, IMAGE_LENGTH};

type Read = (Result<Answer, Error>, [u8; LENGTH]);

#[derive(Debug, PartialEq)]
pub struct Shown {
    image: [u8; IMAGE_LENGTH],
    registers: Vec<Read>,
    outputs: Vec<bool>,
}

/// Every register, the image and the outputs. Reading acknowledges errors, so a
/// clone is read.
pub fn shown(module: &Pd3120) -> Shown {
    let mut copy = module.clone();
    Shown {
        image: module.image(),
        registers: (0..=0x140).map(|swno| read(&mut copy, swno)).collect(),
        outputs: (0..=17).map(|channel| module.output(channel)).collect(),
    }
}

fn read(module: &mut Pd3120, swno: u16) -> Read {
    let mut buffer = [0xA5; LENGTH];
    let answer = module.read(swno, &mut buffer);
    (answer, buffer)
}

/// A box with something in it: channel 4 is an output that is on, with an error.
pub fn used() -> Pd3120 {
    let mut module = Pd3120::default();
    module.write(0x0D, &[1]).expect("WriteEnable");
    module.write(0x09, &[0, 0x10, 0, 0]).expect("watchdog off");
    module.write(0x49, &[0, 0x10, 5, 0]).expect("ChConfig");
    module.write(0x40, &[0x80]).expect("FlagReg");
    module.write(0x0D, &[0]).expect("WriteEnable");
    for on in [true, false, true] {
        module.sample(4, on, 0.0).expect("channel 4");
        module.tick();
    }
    module
}

/// How many ticks a channel's output stays on for, of two hours at most.
pub fn ticks_open(mut module: Pd3120, channel: u8) -> usize {
    let still_on = |_: &usize| {
        module.tick();
        module.output(channel)
    };
    (0..2 * 60 * 1920).take_while(still_on).count()
}
