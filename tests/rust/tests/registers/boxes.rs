//! Boxes that the tests begin with, and calls on them.

use pd3120::registers::*;
use pd3120::{Error, Pd3120};

/// "0 = done".
pub fn number<T>(answer: Result<T, Error>) -> u8 {
    answer.map_or_else(|error| error.number(), |_| 0)
}

/// The bytes of a register, read from a copy, so that nothing is acknowledged.
pub fn read(module: &Pd3120, swno: u16) -> Vec<u8> {
    let mut bytes = vec![0; 80];
    let answer = module.clone().read(swno, &mut bytes);
    bytes.truncate(answer.unwrap_or_else(|e| panic!("${swno:X}: {e}")).length);
    bytes
}

pub fn write(module: &mut Pd3120, swno: u16, bytes: &[u8]) {
    let answer = module.write(swno, bytes);
    answer.unwrap_or_else(|e| panic!("${swno:X} {bytes:02X?}: {e}"));
}

pub fn ticks(module: &mut Pd3120, count: usize) {
    for _ in 0..count {
        module.tick();
    }
}

/// All-zero settings, and WriteEnable TRUE.
pub fn enabled() -> Pd3120 {
    let mut module = Pd3120::default();
    write(&mut module, SWNO_WRITE_ENABLE, &[1]);
    module
}

/// The watchdog off, and WriteEnable TRUE.
pub fn unwatched() -> Pd3120 {
    let mut module = enabled();
    write(&mut module, SWNO_MODULE_CONFIG, &[0, WATCHDOG_OFF, 0, 0]);
    module
}

/// `unwatched` with a channel's Enablebit, Functions, Ref_A and Ref_B.
pub fn configured(channel: u8, config: [u8; SIZE_CH_CONFIG]) -> Pd3120 {
    let mut module = unwatched();
    write(&mut module, swno(channel, REG_CH_CONFIG), &config);
    module
}

/// Every channel an output whose input is simulated; the watchdog off; WriteEnable
/// as given.
pub fn simulated(enable: bool) -> Pd3120 {
    let mut module = unwatched();
    let config = [ENABLE_SIMULATED_INPUT, FUNCTIONS_OUTPUT, 0, 0];
    for channel in 1..=CHANNELS {
        write(&mut module, swno(channel, REG_CH_CONFIG), &config);
    }
    write(&mut module, SWNO_WRITE_ENABLE, &[u8::from(enable)]);
    module
}
