//! The two boxes that are measured.

use pd3120::{Pd3120, Tariff, Window};
use reference_box::image::LENGTH;
use reference_box::{charge, ChannelBox};
use std::hint::black_box;

/// Windows, for each side as it takes them.
#[derive(Clone)]
pub struct Windows {
    library: Vec<Window>,
    model: Vec<(u16, u16)>,
}

impl Windows {
    pub fn new(model: &[(u16, u16)]) -> Windows {
        let window = |&(start, end): &(u16, u16)| Window { start, end };
        Windows {
            library: model.iter().map(window).collect(),
            model: model.to_vec(),
        }
    }
}

/// A box whose calls are measured. Each method makes one call and hands the
/// answer to `black_box`, so that none is left out for not being used.
pub trait Side: Clone + Default {
    fn power_up(&mut self, image: &[u8]);
    fn store(&self, buffer: &mut [u8]);
    fn read(&mut self, swno: u16, buffer: &mut [u8]);
    fn write(&mut self, swno: u16, bytes: &[u8]);
    fn sample(&mut self, channel: u8, level: bool, amperes: f32);
    fn look_up(&self, table: u8, x: f32);
    fn set_minute(&mut self, minute: u16);
    fn set_windows(&mut self, channel: u8, windows: &Windows);
    fn tick(&mut self);
    /// By a tariff of four blocks. The box has no part in it.
    fn charge(&self, earlier: i32, later: i32, litres_per_pulse: u32, tariff: &Tariff);

    /// The kept values, by which both sides are seen to have done the same.
    fn image(&self) -> [u8; LENGTH] {
        let mut image = [0; LENGTH];
        self.store(&mut image);
        image
    }
}

/// The proved library, through the wrapper and the C boundary.
#[derive(Clone, Default)]
pub struct Library(pub Pd3120);

impl Side for Library {
    fn power_up(&mut self, image: &[u8]) {
        let _ = black_box(self.0.power_up_again(image));
    }

    fn store(&self, buffer: &mut [u8]) {
        let _ = black_box(self.0.store(buffer));
    }

    fn read(&mut self, swno: u16, buffer: &mut [u8]) {
        let _ = black_box(self.0.read(swno, buffer));
    }

    fn write(&mut self, swno: u16, bytes: &[u8]) {
        let _ = black_box(self.0.write(swno, bytes));
    }

    fn sample(&mut self, channel: u8, level: bool, amperes: f32) {
        let _ = black_box(self.0.sample(channel, level, amperes));
    }

    fn look_up(&self, table: u8, x: f32) {
        let _ = black_box(self.0.look_up(table, x));
    }

    fn set_minute(&mut self, minute: u16) {
        let _ = black_box(self.0.set_minute(minute));
    }

    fn set_windows(&mut self, channel: u8, windows: &Windows) {
        let _ = black_box(self.0.set_windows(channel, &windows.library));
    }

    fn tick(&mut self) {
        self.0.tick();
    }

    fn charge(&self, earlier: i32, later: i32, litres_per_pulse: u32, tariff: &Tariff) {
        let _ = black_box(pd3120::charge(earlier, later, litres_per_pulse, tariff));
    }
}

/// The independent model, changed in place. Its methods are kept out of line: a
/// call of the library cannot be merged into the loop around it, so neither may
/// one of the model. Within such a method the compiler does as it likes.
#[derive(Clone, Default)]
pub struct Model(ChannelBox);

impl Side for Model {
    #[inline(never)]
    fn power_up(&mut self, image: &[u8]) {
        black_box(self.0.power_up(image));
    }

    #[inline(never)]
    fn store(&self, buffer: &mut [u8]) {
        black_box(self.0.store(buffer));
    }

    #[inline(never)]
    fn read(&mut self, swno: u16, buffer: &mut [u8]) {
        black_box(self.0.read(swno, buffer));
    }

    #[inline(never)]
    fn write(&mut self, swno: u16, bytes: &[u8]) {
        black_box(self.0.write(swno, bytes));
    }

    #[inline(never)]
    fn sample(&mut self, channel: u8, level: bool, amperes: f32) {
        black_box(self.0.sample(channel, level, amperes.to_bits()));
    }

    #[inline(never)]
    fn look_up(&self, table: u8, x: f32) {
        black_box(self.0.lookup(table, x.to_bits()));
    }

    #[inline(never)]
    fn set_minute(&mut self, minute: u16) {
        black_box(self.0.minute(minute));
    }

    #[inline(never)]
    fn set_windows(&mut self, channel: u8, windows: &Windows) {
        black_box(self.0.windows(channel, &windows.model));
    }

    #[inline(never)]
    fn tick(&mut self) {
        self.0.tick();
    }

    #[inline(never)]
    fn charge(&self, earlier: i32, later: i32, litres_per_pulse: u32, tariff: &Tariff) {
        let (limits, prices) = (&tariff.limits, &tariff.prices);
        let answer = charge::charge(earlier, later, litres_per_pulse, limits, prices);
        black_box(answer);
    }
}
