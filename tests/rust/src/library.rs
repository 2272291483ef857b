//! The library's box as a device that scripts are played on, and its charge.

use pd3120::{Block, Error, ErrorBits, Pd3120, Tariff, Window};
use reference_box::player::Device;
use reference_box::reals::Real;
use reference_box::Answer;

/// Before its first power-up it is the box of a refused one, as the model is.
#[derive(Clone, Debug, Default)]
pub struct Library(pub Pd3120);

/// "0 = done".
fn number<T>(answer: Result<T, Error>) -> u8 {
    answer.map_or_else(|error| error.number(), |_| 0)
}

fn wire(answer: Result<pd3120::Answer, Error>) -> Answer {
    let (number, length, bits) = match answer {
        Ok(done) => (0, done.length, Some(done.bits)),
        Err(error) => (error.number(), 0, error.bits),
    };
    let ErrorBits {
        data_error,
        general_error,
    } = bits.expect("a wire call answers its two bits");
    Answer {
        number,
        length,
        data_error,
        general_error,
    }
}

/// The model's limits and prices, of any number of blocks.
fn tariff(limits: &[u64], prices: &[u32]) -> Tariff {
    let block = |(&limit, &price)| Block { limit, price };
    let limited: Vec<Block> = limits.iter().zip(prices).map(block).collect();
    match prices.last() {
        Some(&last) => Tariff::new(&limited, last),
        None => Tariff {
            blocks: 0,
            ..Tariff::new(&[], 0)
        },
    }
}

impl Device for Library {
    fn power_up(&mut self, image: &[u8]) -> u8 {
        number(self.0.power_up_again(image))
    }

    fn store(&self, buffer: &mut [u8]) -> (u8, usize) {
        match self.0.store(buffer) {
            Ok(length) => (0, length),
            Err(error) => (error.number(), 0),
        }
    }

    fn read(&mut self, swno: u16, buffer: &mut [u8]) -> Answer {
        wire(self.0.read(swno, buffer))
    }

    fn write(&mut self, swno: u16, bytes: &[u8]) -> Answer {
        wire(self.0.write(swno, bytes))
    }

    fn sample(&mut self, channel: u8, level: bool, amperes: Real) -> u8 {
        number(self.0.sample(channel, level, f32::from_bits(amperes)))
    }

    fn tick(&mut self) {
        self.0.tick();
    }

    fn lookup(&self, table: u8, x: Real) -> (u8, Real) {
        match self.0.look_up(table, f32::from_bits(x)) {
            Ok(level) => (0, level.to_bits()),
            Err(error) => (error.number(), 0),
        }
    }

    fn charge(
        &self,
        earlier: i32,
        later: i32,
        litres_per_pulse: u32,
        limits: &[u64],
        prices: &[u32],
    ) -> (u8, u64) {
        let tariff = tariff(limits, prices);
        match pd3120::charge(earlier, later, litres_per_pulse, &tariff) {
            Ok(cents) => (0, cents),
            Err(refusal) => (refusal.number(), 0),
        }
    }

    fn minute(&mut self, minute: u16) -> u8 {
        number(self.0.set_minute(minute))
    }

    fn windows(&mut self, channel: u8, windows: &[(u16, u16)]) -> u8 {
        let window = |&(start, end): &(u16, u16)| Window { start, end };
        let windows: Vec<Window> = windows.iter().map(window).collect();
        number(self.0.set_windows(channel, &windows))
    }

    fn output(&self, channel: u8) -> bool {
        self.0.output(channel)
    }
}
