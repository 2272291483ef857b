//! The image of a box as delivered. tests/c/factory.c asks the same of the C
//! header's, so that the two are equal.

use pd3120::table::LENGTH;
use pd3120::{Error, Pd3120, Refusal, FACTORY_IMAGE, IMAGE_LENGTH};

const WELLHEAD: &str = include_str!("../../../examples/wellhead.calls");

fn image_of(call: &str) -> Option<&str> {
    call.strip_prefix("power ")?.split_whitespace().next()
}

/// The image that the day at the well head begins with, after one that is too
/// short.
fn example() -> Vec<u8> {
    let mut images = WELLHEAD.lines().filter_map(image_of);
    let digits = images.find(|image| image.len() > 100).expect("an image");
    let byte = |at| u8::from_str_radix(&digits[at..at + 2], 16).expect("two digits");
    (0..digits.len()).step_by(2).map(byte).collect()
}

fn delivered() -> Pd3120 {
    Pd3120::power_up(&FACTORY_IMAGE).expect("the factory image")
}

/// What a register has to read as, from its front on; zeros behind that.
fn expected(swno: u16) -> &'static [u8] {
    match (swno >> 4, swno & 0xF) {
        (0, 0x0) => &[0x01, 0x3F],      // the highest SWNo
        (0, 0x8) => &[0x41, 0x20],      // WDTimer: 10.0
        (0, 0xA) => &[0x41, 0x20],      // WDPreset: 10.0
        (0, 0xF) => &[0x80],            // CommonError: His has power-up
        (1..=16, 0xB) => &[0x3F, 0x80], // MaxCurrent: 1.0
        _ => &[],
    }
}

#[test]
fn it_is_stored_as_the_same_bytes() {
    assert_eq!(delivered().image(), FACTORY_IMAGE);
}

#[test]
fn it_is_the_image_that_the_example_has() {
    let module = Pd3120::power_up(&example()).expect("the example's image");
    assert_eq!(module.image(), FACTORY_IMAGE);
}

#[test]
fn every_register_reads_as_the_sentence_says() {
    let mut module = delivered();
    let mut listed = 0;
    for swno in 0..=0x13F {
        let mut bytes = [0; LENGTH];
        match module.read(swno, &mut bytes) {
            Ok(_) => listed += 1,
            Err(Error { refusal, .. }) => assert_eq!(refusal, Refusal::Unlisted),
        }
        let mut zeros = [0; LENGTH];
        let front = expected(swno);
        zeros[..front.len()].copy_from_slice(front);
        assert_eq!(bytes, zeros, "${swno:X}");
    }
    assert_eq!(listed, 8 + 16 * 15 + 4 + 6);
}

#[test]
fn its_watchdog_runs_out_after_ten_seconds() {
    let mut module = delivered();
    for tick in 1..=10 * 32 {
        module.tick();
        let mut errors = [0; 12];
        module.clone().read(0x0F, &mut errors).expect("CommonError");
        assert_eq!(errors[0] & 0x08 != 0, tick == 10 * 32, "{tick}");
    }
}

#[test]
fn a_changed_byte_is_refused() {
    for at in 0..IMAGE_LENGTH {
        let mut image = FACTORY_IMAGE;
        image[at] ^= 0x01;
        Pd3120::power_up(&image).expect_err("a count or the sum is wrong");
    }
}
