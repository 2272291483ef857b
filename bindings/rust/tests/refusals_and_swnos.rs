//! As refusals.rs, and the SWNo that a refused wire call has.

mod common;

use common::{shown, ticks_open, used};
use pd3120::{Error, Pd3120, Window};

const LENT: [u8; 16] = [0xA5; 16];
const INFINITE: [u8; 4] = 0x7F80_0000_u32.to_be_bytes();

/// A read that must be refused, with its buffer untouched.
fn refused_read(module: &mut Pd3120, swno: u16, length: usize) -> Error {
    let mut buffer = LENT;
    let error = module.read(swno, &mut buffer[..length]).unwrap_err();
    assert_eq!((buffer, error.swno), (LENT, Some(swno)));
    error
}

fn refused_write(module: &mut Pd3120, swno: u16, bytes: &[u8]) -> Error {
    let error = module.write(swno, bytes).unwrap_err();
    assert_eq!(error.swno, Some(swno));
    error
}

/// The number of a call that is no wire call, which answers nothing else.
fn number_alone(error: Error) -> u8 {
    assert_eq!((error.bits, error.swno), (None, None));
    error.number()
}

#[test]
fn each_wire_call_is_refused_by_its_number_and_keeps_its_swno_and_its_two_bits() {
    let mut module = used();
    let before = shown(&module);
    let refused = [
        (1, refused_read(&mut module, 0x140, 16)),
        (1, refused_write(&mut module, 0xFFFF, &[])),
        (2, refused_read(&mut module, 0x01, 16)),
        (2, refused_read(&mut module, 0x120, 16)),
        (2, refused_write(&mut module, 0x132, &[0; 4])),
        (2, refused_write(&mut module, 0x1E, &[0])),
        (3, refused_write(&mut module, 0x1F, &[0; 4])),
        (4, refused_write(&mut module, 0x10, &[0; 2])),
        (4, refused_write(&mut module, 0x10, &[])),
        (5, refused_read(&mut module, 0x12, 3)),
        (5, refused_read(&mut module, 0x12, 0)),
        (5, refused_read(&mut module, 0x13D, 16)),
        (6, refused_write(&mut module, 0x19, &[0; 4])),
        (6, refused_write(&mut module, 0x13C, &[0; 80])),
        (7, refused_write(&mut module, 0x0D, &[2])),
        (7, refused_write(&mut module, 0x130, &INFINITE)),
    ];
    for (number, error) in refused {
        assert_eq!(error.number(), number, "{error}");
        let bits = error.bits.expect("a wire call");
        assert!(bits.general_error, "His has the reset of power-up");
        assert!(bits.data_error, "channel 4 has an error");
    }
    assert_eq!(shown(&module), before);
}

#[test]
fn a_refused_wire_call_clears_the_watchdogs_bit_all_the_same() {
    let mut module = Pd3120::default();
    module.tick();
    let mut errors = [0; 12];
    let error = module.read(0x0F, &mut errors[..11]).unwrap_err();
    assert!(!error.bits.expect("a wire call").data_error);
    module.tick();
    module.read(0x0F, &mut errors).expect("done");
    assert_eq!(errors[0], 0x88, "His: power-up and a watchdog that ran out");
}

#[test]
fn each_sample_is_refused_by_its_number() {
    let mut module = used();
    let before = shown(&module);
    let refused = [
        (8, module.sample(0, true, 0.0)),
        (8, module.sample(17, false, 0.0)),
        (8, module.sample(255, true, 1.0)),
        (8, module.sample(0, true, f32::NAN)),
        (9, module.sample(1, true, f32::NAN)),
        (9, module.sample(4, false, f32::INFINITY)),
        (9, module.sample(16, true, f32::NEG_INFINITY)),
    ];
    for (number, answer) in refused {
        assert_eq!(number_alone(answer.unwrap_err()), number);
    }
    assert_eq!(shown(&module), before);
}

fn window(start: u16, end: u16) -> Window {
    Window { start, end }
}

#[test]
fn the_minute_and_windows_are_refused_by_their_numbers_in_order() {
    let mut module = used();
    module.set_minute(30).expect("a minute");
    module.set_windows(4, &[window(20, 40)]).expect("channel 4");
    let before = shown(&module);
    let (good, late) = (window(40, 20), window(10_080, 0));
    let refused = [
        (18, module.set_minute(10_080)),
        (18, module.set_minute(u16::MAX)),
        (8, module.set_windows(0, &[])),
        (8, module.set_windows(17, &[late; 9])),
        (8, module.set_windows(255, &[good])),
        (19, module.set_windows(4, &[good; 9])),
        (19, module.set_windows(4, &[late; 9])),
        (19, module.set_windows(16, &[good; 300])),
        (18, module.set_windows(4, &[late])),
        (18, module.set_windows(4, &[window(0, 10_080)])),
        (
            18,
            module.set_windows(4, &[good, good, window(9, u16::MAX)]),
        ),
    ];
    for (number, answer) in refused {
        assert_eq!(number_alone(answer.unwrap_err()), number);
    }
    assert_eq!(shown(&module), before);
    // The minute is 30 still, and the window that of before: it closes at 40.
    assert_eq!(ticks_open(module, 4), 10 * 1920 - 1);
}

#[test]
fn storing_is_refused_without_room_and_leaves_the_buffer() {
    let module = used();
    for length in [0, 1, 717, 885] {
        let mut buffer = vec![0xA5; length];
        let error = module.store(&mut buffer).unwrap_err();
        assert_eq!(number_alone(error), 14);
        assert!(buffer.iter().all(|&byte| byte == 0xA5));
    }
}

/// Makes the sum of an image right.
fn seal(image: &mut [u8]) {
    let (before, place) = image.split_at_mut(image.len() - 2);
    let sum: u16 = before.iter().map(|&byte| u16::from(byte)).sum();
    place.copy_from_slice(&sum.to_be_bytes());
}

/// An image with one byte changed, its sum made right again if asked.
fn damaged(offset: usize, byte: u8, right_sum: bool) -> Vec<u8> {
    let mut image = Pd3120::default().image().to_vec();
    image[offset] = byte;
    if right_sum {
        seal(&mut image);
    }
    image
}

/// An image with a RealA.
fn with_real_a(real: [u8; 4]) -> Vec<u8> {
    let mut image = Pd3120::default().image().to_vec();
    image[715..719].copy_from_slice(&real);
    seal(&mut image);
    image
}

#[test]
fn a_lookup_is_refused_by_its_table_and_then_by_its_x() {
    let module = used();
    let before = shown(&module);
    let refused = [
        (15, module.look_up(0, 1.0)),
        (15, module.look_up(3, f32::NAN)),
        (15, module.look_up(255, 0.0)),
        (7, module.look_up(1, f32::NAN)),
        (7, module.look_up(2, f32::NEG_INFINITY)),
    ];
    for (number, answer) in refused {
        assert_eq!(number_alone(answer.unwrap_err()), number);
    }
    assert_eq!(shown(&module), before);
}

#[test]
fn each_bad_image_is_refused_by_its_number_and_gives_the_box_of_zero_settings() {
    let bad = [
        (10, vec![]),
        (10, vec![1; 718]),
        (10, vec![1; 885]),
        (10, vec![1; 887]),
        (11, damaged(9, 15, true)),
        (12, damaged(1, 1, false)),
        (13, damaged(2, 0x20, true)),
        (11, damaged(714, 2, true)),
        (11, damaged(883, 2, true)),
        (13, with_real_a(INFINITE)),
    ];
    for (number, image) in bad {
        let error = Pd3120::power_up(&image).unwrap_err();
        assert_eq!(number_alone(error), number);
        let mut module = used();
        assert_eq!(module.power_up_again(&image), Err(error));
        assert_eq!(shown(&module), shown(&Pd3120::default()), "{number}");
    }
}

#[cfg(feature = "std")]
#[test]
fn a_refusal_is_an_error_of_std() {
    fn refused() -> Result<(), Box<dyn std::error::Error>> {
        Pd3120::default().write(0x13C, &[0; 80])?;
        Ok(())
    }
    let shown = refused().unwrap_err().to_string();
    assert!(shown.starts_with("SWNo $13C: refused by 6: "), "{shown}");
}
