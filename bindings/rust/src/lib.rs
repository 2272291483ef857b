//! The PD 3120 channel box, proved, as a safe Rust type; and above it the
//! [`charge`](mod@charge) for water.
//!
//! The box is the Rattle library of this repository: every call does what
//! document 01 and Changes 1 to 3 and 5 to 7 of document 02 say, for any box, call
//! and buffer, and this is proved. [`Pd3120`] reaches it through its C boundary.
//! That this package declares the boundary as it is, no proof says; its tests and
//! `tests/rust` compare it. The same holds of the charge and Change 4.
//!
//! `./pd3120 lib` builds the archives of both libraries, which are linked in.
//! PD3120_LIB can name another folder that has them. They are for x86-64 Linux,
//! and ask a program for nothing but `memcpy` and `memset`.
//!
//! The package itself needs `core` alone. Its feature `std`, which is on by
//! default, adds `std::error::Error` to [`Error`] and [`ChargeRefusal`]; firmware
//! takes it with `default-features = false`.
//!
//! ```
//! use pd3120::{Pd3120, Refusal};
//!
//! // No setup image yet: power-up is refused, and the box has all-zero settings.
//! let refused = Pd3120::power_up(&[]).unwrap_err();
//! assert_eq!(refused.refusal, Refusal::ImageLength);
//! let mut module = Pd3120::default();
//!
//! // A pulse of the water meter on channel 4, and its Counter over the wire.
//! module.sample(4, true, 0.0)?;
//! module.sample(4, false, 0.0)?;
//! let mut counter = [0; 4];
//! let answer = module.read(0x42, &mut counter)?;
//! assert_eq!((answer.length, i32::from_be_bytes(counter)), (4, 1));
//! # Ok::<(), pd3120::Error>(())
//! ```

#![no_std]
#![deny(unsafe_code)]
#![warn(missing_docs)]

#[cfg(any(test, feature = "std"))]
extern crate std;

#[allow(unsafe_code)]
mod boundary;
pub mod charge;
mod code;
mod error;
mod factory;
pub mod hours;
pub mod registers;
pub mod table;

pub use charge::{charge, Block, ChargeRefusal, Tariff};
pub use error::{Error, Refusal};
pub use factory::FACTORY_IMAGE;
pub use hours::Window;
pub use table::Pair;

use boundary::Module;
use core::fmt;

/// The length of a setup image, as it is stored.
pub const IMAGE_LENGTH: usize = 886;

/// The length of a setup image without the data channel, which powers up too.
pub const OLDER_IMAGE_LENGTH: usize = 717;

/// The two bits that every wire call answers, done or refused.
#[derive(Clone, Copy, Debug, PartialEq, Eq)]
pub struct ErrorBits {
    /// DataError: Act of the service channel is not 0.
    pub data_error: bool,
    /// GeneralError: His of the service channel is not 0.
    pub general_error: bool,
}

/// What a wire call that is done answers.
#[derive(Clone, Copy, Debug, PartialEq, Eq)]
pub struct Answer {
    /// How many bytes of the buffer a read has filled; 0 for a write.
    pub length: usize,
    /// DataError and GeneralError.
    pub bits: ErrorBits,
}

/// A PD 3120 channel box, powered up.
///
/// It is a plain value of 2012 bytes: it can be moved, cloned and sent to
/// another thread, and nothing of it is held elsewhere.
#[derive(Clone)]
pub struct Pd3120 {
    module: Module,
}

// Every function of a call is `#[inline]`, here and below: in a program of another package nothing
// then stands between the caller and the library's own function.
impl Pd3120 {
    /// The box that a setup image powers up to. An older image, of 717 bytes,
    /// leaves the values of the data channel 0.
    ///
    /// A refused image gives the box of all-zero settings on the hardware. Here
    /// that box is [`Pd3120::default`]:
    ///
    /// ```
    /// # use pd3120::Pd3120;
    /// # let image = [0; 886];
    /// let module = Pd3120::power_up(&image).unwrap_or_default();
    /// ```
    #[inline]
    pub fn power_up(image: &[u8]) -> Result<Pd3120, Error> {
        let (module, code) = Module::powered_up(image);
        code::plain(code)?;
        Ok(Pd3120 { module })
    }

    /// Powers this box up again. A refused image leaves it as
    /// [`Pd3120::default`].
    #[inline]
    pub fn power_up_again(&mut self, image: &[u8]) -> Result<(), Error> {
        code::plain(self.module.power_up(image))?;
        Ok(())
    }

    /// Puts the kept values into the first 886 bytes of a buffer, as a setup
    /// image, and gives that length.
    #[inline]
    pub fn store(&self, buffer: &mut [u8]) -> Result<usize, Error> {
        code::plain(self.module.store(buffer))
    }

    /// The kept values as a setup image.
    #[inline]
    pub fn image(&self) -> [u8; IMAGE_LENGTH] {
        let mut image = [0; IMAGE_LENGTH];
        self.store(&mut image).expect("886 bytes are enough");
        image
    }

    /// A wire read of a register into the front of a buffer.
    ///
    /// Every wire call, refused or not, clears Act bit 3 of the service channel
    /// and sets WDTimer to WDPreset; this is all that a refused one changes.
    #[inline]
    pub fn read(&mut self, swno: u16, buffer: &mut [u8]) -> Result<Answer, Error> {
        code::wire(swno, self.module.read(swno, buffer))
    }

    /// A wire write of all bytes of a register.
    ///
    /// A time that a register takes is a Real in seconds and becomes the nearest
    /// count of its unit, at a tie the even one. Read before the next tick, it is
    /// the time of that count.
    ///
    /// ```
    /// use pd3120::Pd3120;
    ///
    /// // OutTimer of channel 1 counts in 1/256 s: 0.3 s become 77 of them.
    /// let mut module = Pd3120::default();
    /// module.write(0x11, &0.3_f32.to_be_bytes())?;
    /// let mut bytes = [0; 4];
    /// module.read(0x11, &mut bytes)?;
    /// assert_eq!(f32::from_be_bytes(bytes), 77.0 / 256.0);
    /// # Ok::<(), pd3120::Error>(())
    /// ```
    #[inline]
    pub fn write(&mut self, swno: u16, bytes: &[u8]) -> Result<Answer, Error> {
        code::wire(swno, self.module.write(swno, bytes))
    }

    /// A sample of a channel's terminal: its level, then its load current. A rise
    /// of the level adds 1 to Counter, a current above 2 A trips the output, and
    /// one sample can do both. A refused sample does neither. No wire call: the
    /// watchdog goes on.
    ///
    /// ```
    /// use pd3120::{Pd3120, Refusal};
    ///
    /// // Channel 4 drives a valve (Functions $10), which is opened.
    /// let mut module = Pd3120::default();
    /// module.write(0x0D, &[1])?; // WriteEnable
    /// module.write(0x49, &[0, 0x10, 0, 0])?; // ChConfig
    /// module.write(0x40, &[0x80])?; // FlagReg
    /// module.sample(4, true, 0.5)?;
    /// assert!(module.output(4));
    ///
    /// // A measured current that is no number: the level is not taken either.
    /// let broken = module.sample(4, false, f32::NAN).unwrap_err();
    /// assert_eq!(broken.refusal, Refusal::NotFinite);
    /// let none = module.sample(17, false, f32::NAN).unwrap_err();
    /// assert_eq!(none.refusal, Refusal::NoChannel);
    ///
    /// // A fall, and then a rise with too much current: it counts, and it trips.
    /// module.sample(4, false, 0.5)?;
    /// module.sample(4, true, 2.5)?;
    /// assert!(!module.output(4));
    /// let mut counter = [0; 4];
    /// module.read(0x42, &mut counter)?;
    /// assert_eq!(i32::from_be_bytes(counter), 2);
    /// # Ok::<(), pd3120::Error>(())
    /// ```
    #[inline]
    pub fn sample(&mut self, channel: u8, level: bool, amperes: f32) -> Result<(), Error> {
        code::plain(self.module.sample(channel, level, amperes))?;
        Ok(())
    }

    /// Sets the minute of the week, 0 to 10079. Each 1920th tick from then moves
    /// it as the tick begins, from 10079 to 0; each setting starts the 1920 anew.
    /// Power-up and reset leave it unset, and no channel is closed then. No wire
    /// call: the watchdog goes on.
    ///
    /// ```
    /// use pd3120::{hours, Pd3120, Refusal};
    ///
    /// let mut module = Pd3120::default();
    /// module.set_minute(hours::minute(6, 23, 59))?;
    /// let beyond = module.set_minute(10_080).unwrap_err();
    /// assert_eq!(beyond.refusal, Refusal::NotMinute);
    /// # Ok::<(), pd3120::Error>(())
    /// ```
    #[inline]
    pub fn set_minute(&mut self, minute: u16) -> Result<(), Error> {
        code::plain(self.module.set_minute(minute))?;
        Ok(())
    }

    /// Gives a channel its windows, whole: up to eight, or none, which takes those
    /// of before away. Power-up and reset take them away too. While the minute of
    /// the week is set, a channel with windows has OutFlag and Control cleared at
    /// each tick outside all of them; opening turns nothing on. No wire call: the
    /// watchdog goes on.
    ///
    /// ```
    /// use pd3120::{hours, Pd3120, Refusal, Window};
    ///
    /// // Channel 4 drives the valve of a standpipe (Functions $10).
    /// let mut module = Pd3120::default();
    /// module.write(0x0D, &[1])?; // WriteEnable
    /// module.write(0x09, &[0, 0x10, 0, 0])?; // ModuleConfig: no watchdog
    /// module.write(0x49, &[0, 0x10, 0, 0])?; // ChConfig
    ///
    /// // Open from 06:00 to 20:00 on the week's first day, and it is 19:59.
    /// let day = Window {
    ///     start: hours::minute(0, 6, 0),
    ///     end: hours::minute(0, 20, 0),
    /// };
    /// module.set_windows(4, &[day])?;
    /// module.set_minute(hours::minute(0, 19, 59))?;
    /// module.write(0x40, &[0x80])?; // FlagReg
    /// for _ in 0..1919 {
    ///     module.tick();
    /// }
    /// assert!(module.output(4));
    /// module.tick();
    /// assert!(!module.output(4));
    ///
    /// let many = module.set_windows(4, &[day; 9]).unwrap_err();
    /// assert_eq!(many.refusal, Refusal::TooManyWindows);
    /// # Ok::<(), pd3120::Error>(())
    /// ```
    #[inline]
    pub fn set_windows(&mut self, channel: u8, windows: &[Window]) -> Result<(), Error> {
        let (numbers, count) = hours::numbers(windows);
        code::plain(self.module.set_windows(channel, &numbers[..count]))?;
        Ok(())
    }

    /// The Y of a level table, 1 for LookUp1 or 2 for LookUp2, for a finite X: Y1
    /// at or below X1, Y10 above X10, and between two entries on the line from one
    /// to the other. No wire call: the watchdog goes on.
    ///
    /// ```
    /// use pd3120::{table, Pair, Pd3120, Refusal};
    ///
    /// // The float of a tank: 40 litres a centimetre, from 80 litres on.
    /// let pairs = [0, 1, 2, 3, 4, 5, 6, 7, 8, 9].map(|k| Pair {
    ///     x: 10.0 * k as f32,
    ///     y: 80.0 + 400.0 * k as f32,
    /// });
    /// let mut module = Pd3120::default();
    /// module.write(0x0D, &[1])?; // WriteEnable
    /// module.write(0x13C, &table::to_bytes(&pairs))?; // LookUp1
    ///
    /// assert_eq!(module.look_up(1, 20.0), Ok(880.0));
    /// assert_eq!(module.look_up(1, 22.5), Ok(980.0));
    /// assert_eq!(module.look_up(1, -3.0), Ok(80.0));
    /// assert_eq!(module.look_up(1, 95.0), Ok(3680.0));
    ///
    /// let none = module.look_up(3, 20.0).unwrap_err();
    /// assert_eq!(none.refusal, Refusal::NoTable);
    /// let broken = module.look_up(1, f32::INFINITY).unwrap_err();
    /// assert_eq!(broken.refusal, Refusal::NotAllowed);
    /// # Ok::<(), pd3120::Error>(())
    /// ```
    #[inline]
    pub fn look_up(&self, table: u8, x: f32) -> Result<f32, Error> {
        code::looked_up(self.module.look_up(table, x))
    }

    /// A tick: 1/32 s passes. The channels are taken from 16 to 1, which nothing
    /// shows afterwards.
    #[inline]
    pub fn tick(&mut self) {
        self.module.tick();
    }

    /// Whether a channel's terminal is driven; FALSE for a number outside 1 to
    /// 16.
    #[inline]
    pub fn output(&self, channel: u8) -> bool {
        self.module.output(channel)
    }
}

/// The box of all-zero settings, which every refused power-up gives.
impl Default for Pd3120 {
    #[inline]
    fn default() -> Pd3120 {
        // An empty image is refused, by number 10.
        let (module, _) = Module::powered_up(&[]);
        Pd3120 { module }
    }
}

/// Shows no internals: the box is known by its calls.
impl fmt::Debug for Pd3120 {
    fn fmt(&self, formatter: &mut fmt::Formatter) -> fmt::Result {
        formatter.debug_struct("Pd3120").finish_non_exhaustive()
    }
}
