//! The setup image of a box as delivered, put together from its parts.

use crate::IMAGE_LENGTH;

/// The setup image of a box as delivered: the watchdog is on with a WDPreset of
/// 10 s, MaxCurrent is 1 A on each digital channel, and all else is 0.
///
/// ```
/// use pd3120::{Pd3120, FACTORY_IMAGE};
///
/// let mut module = Pd3120::power_up(&FACTORY_IMAGE)?;
/// let mut bytes = [0; 4];
/// module.read(0x0A, &mut bytes)?; // WDPreset
/// assert_eq!(f32::from_be_bytes(bytes), 10.0);
/// # Ok::<(), pd3120::Error>(())
/// ```
pub const FACTORY_IMAGE: [u8; IMAGE_LENGTH] = image();

type Image = [u8; IMAGE_LENGTH];

/// 10 s in 1/256 s.
const WD_PRESET: u32 = 10 * 256;

/// The bits of the Real 1, in amperes.
const MAX_CURRENT: u32 = 0x3F80_0000;

/// The digital channels, and the bytes that each has in an image.
const CHANNELS: usize = 16;
const CHANNEL_LENGTH: usize = 44;

/// The bytes of a channel before its MaxCurrent: ChConfig, FBPreset, OutPreset and
/// MinCurrent.
const BEFORE_MAX_CURRENT: usize = 16;

/// Where the count byte of each section stands: ModuleConfig and WDPreset, the
/// digital channels, the data channel, the sum.
const MODULE: usize = 0;
const DIGITAL: usize = MODULE + 1 + 4 + 4;
const DATA: usize = DIGITAL + 1 + CHANNELS * CHANNEL_LENGTH;
const SUM: usize = IMAGE_LENGTH - 3;

/// A number of four bytes put into an image, the high byte first.
const fn put(mut image: Image, at: usize, number: u32) -> Image {
    let bytes = number.to_be_bytes();
    let mut k = 0;
    while k < bytes.len() {
        image[at + k] = bytes[k];
        k += 1;
    }
    image
}

/// The image with the sum of all bytes before it. No sum of so few leaves 32 bits.
const fn sealed(mut image: Image) -> Image {
    let mut sum: u32 = 0;
    let mut at = 0;
    while at <= SUM {
        sum += image[at] as u32;
        at += 1;
    }
    image[SUM + 1] = (sum >> 8) as u8;
    image[SUM + 2] = sum as u8;
    image
}

/// ModuleConfig is 0, and with it Functions: the watchdog is on.
const fn image() -> Image {
    let mut image = [0; IMAGE_LENGTH];
    image[MODULE] = 1;
    image = put(image, MODULE + 5, WD_PRESET);
    image[DIGITAL] = CHANNELS as u8;
    let mut channel = 0;
    while channel < CHANNELS {
        let entry = DIGITAL + 1 + channel * CHANNEL_LENGTH;
        image = put(image, entry + BEFORE_MAX_CURRENT, MAX_CURRENT);
        channel += 1;
    }
    image[DATA] = 1;
    image[SUM] = 1;
    sealed(image)
}
