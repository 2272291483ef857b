//! The limits of document 01 and document 02 as their bits and numbers. The
//! other tests name them.

use crate::errors::{EXTERNAL_RESET, INTERNAL_RESET, RUN_OUT};
use crate::{hours, image, reals, tick};

#[test]
fn the_limits_are_the_papers() {
    assert_eq!((reals::ONE_TENTH, reals::ONE), (0x3DCC_CCCD, 0x3F80_0000));
    assert_eq!(reals::TWO, 0x4000_0000);
    assert_eq!(reals::TIMER_END, 0x4B00_0000);
    assert_eq!(reals::MINUS_TIMER_END, 0xCB00_0000);
    assert_eq!(reals::OPERATING_END, 0x4E00_0000);
    assert_eq!(tick::LAST_OF_SAVE, 1_151_999);
    assert_eq!(hours::LAST_MINUTE, 10_079);
    assert_eq!(image::LENGTH, 886);
}

#[test]
fn the_bits_of_the_service_channel_are_the_papers() {
    assert_eq!((INTERNAL_RESET, EXTERNAL_RESET), (0x80, 0x40));
    assert_eq!(RUN_OUT, 0x08);
}
