mod calls;
mod image_and_reset;
mod nearest;
mod quarters;
mod questions;
mod registers;
mod samples;

use super::*;
use crate::bench::{with_watchdog, Bench};
use crate::channel::{error, flag, Kept};

const LENT: u8 = 0xA5;

fn read_into(bench: &mut Bench, swno: u16, length: usize) -> (Answer, Vec<u8>) {
    let mut buffer = vec![LENT; length];
    let answer = bench.device.read(swno, &mut buffer);
    (answer, buffer)
}

/// A box whose every field differs from zero.
fn busy() -> Bench {
    let mut bench = with_watchdog(2560);
    bench.configure(1, [0x61, 0x30, 2, 3]);
    bench.configure(2, [0, 0x20, 0, 0]);
    bench.write(0x10, &[0xFF]);
    bench.write(0x20, &[0xFF]);
    bench.device.sample(2, true, 0x4000_0001);
    bench.write(0x0D, &[1]);
    bench.write(0x15, &[1, 2, 3, 4]);
    bench.write_word(0x130, reals::ONE);
    bench.write_word(0x131, reals::TWO);
    bench.write(0x13C, &[1; 80]);
    bench.write(0x13D, &[2; 80]);
    bench.ticks(5);
    bench
}
