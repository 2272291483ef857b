//! Calls that are done, through the whole wrapper.

mod common;

use common::{shown, used};
use pd3120::table::{self, PAIRS};
use pd3120::{Pair, Pd3120, IMAGE_LENGTH, OLDER_IMAGE_LENGTH};
use std::mem::size_of;
use std::thread;

fn word(module: &mut Pd3120, swno: u16) -> [u8; 4] {
    let mut bytes = [0; 4];
    let answer = module.read(swno, &mut bytes).expect("a listed register");
    assert_eq!(answer.length, 4);
    bytes
}

#[test]
fn a_box_is_its_module_and_nothing_else() {
    assert_eq!(size_of::<Pd3120>(), 2012);
}

#[test]
fn pulses_are_counted() {
    let mut module = Pd3120::default();
    for on in [true, false, true, false, true] {
        module.sample(4, on, 0.0).expect("channel 4");
    }
    assert_eq!(word(&mut module, 0x42), [0, 0, 0, 3]);
    assert_eq!(word(&mut module, 0x52), [0; 4]);
}

#[test]
fn a_read_fills_the_front_of_the_buffer_and_leaves_the_rest() {
    let mut buffer = [0xA5; 5];
    let answer = Pd3120::default().read(0, &mut buffer).expect("done");
    assert_eq!((answer.length, buffer), (2, [0x01, 0x3F, 0xA5, 0xA5, 0xA5]));
    assert!(answer.bits.general_error && !answer.bits.data_error);
}

#[test]
fn a_write_answers_no_length_and_is_read_back() {
    let mut module = Pd3120::default();
    let answer = module.write(0x12, &[0x80, 0, 0, 1]).expect("Counter");
    assert_eq!(answer.length, 0);
    assert_eq!(word(&mut module, 0x12), [0x80, 0, 0, 1]);
}

#[test]
fn a_time_becomes_the_nearest_count() {
    let mut module = Pd3120::default();
    module.write(0x0D, &[1]).expect("WriteEnable");
    for (swno, written, read) in [
        (0x18, 0.3, 77.0 / 256.0),
        (0x17, 1.5 / 256.0, 2.0 / 256.0),
        (0x11, -1.5 / 256.0, -2.0 / 256.0),
        (0x16, 2.5 / 256.0, 2.0 / 256.0),
        (0x13A, -0.5 / 256.0, 0.0),
        (0x14, 0.1, 1.0 / 8.0),
        (0x14, 2.5 / 8.0, 2.0 / 8.0),
    ] {
        let (written, read): (f32, f32) = (written, read);
        module.write(swno, &written.to_be_bytes()).expect("a time");
        assert_eq!(word(&mut module, swno), read.to_be_bytes());
    }
}

#[test]
fn a_current_goes_over_as_its_bits() {
    let mut module = Pd3120::default();
    for amperes in [0.0, -0.0, 1.5, f32::MIN_POSITIVE / 2.0, -f32::MAX] {
        module.sample(3, false, amperes).expect("finite");
        assert_eq!(word(&mut module, 0x33), amperes.to_be_bytes());
    }
}

#[test]
fn a_current_above_two_amperes_trips_the_output() {
    let mut module = used();
    assert!(module.output(4));
    module.sample(4, true, 2.0).expect("finite");
    assert!(module.output(4));
    let above = f32::from_bits(2.0_f32.to_bits() + 1);
    module.sample(4, true, above).expect("finite");
    assert!(!module.output(4));
    assert_eq!(word(&mut module, 0x4F)[2] & 0x40, 0x40);
}

#[test]
fn a_sample_that_trips_counts_its_rise() {
    let mut module = used();
    let counter = i32::from_be_bytes(word(&mut module, 0x42));
    module.sample(4, false, 0.5).expect("finite");
    module.sample(4, true, 2.5).expect("finite");
    assert!(!module.output(4));
    assert_eq!(word(&mut module, 0x42), (counter + 1).to_be_bytes());
    assert_eq!(word(&mut module, 0x43), 2.5_f32.to_be_bytes());
}

#[test]
fn a_refused_sample_takes_neither_its_level_nor_its_current() {
    let mut module = used();
    let before = shown(&module);
    for amperes in [f32::NAN, f32::INFINITY, f32::NEG_INFINITY] {
        module.sample(4, false, amperes).expect_err("not finite");
        module.sample(1, true, amperes).expect_err("not finite");
    }
    assert_eq!(shown(&module), before);
}

#[test]
fn a_channel_that_is_none_has_no_output() {
    let module = used();
    for channel in [0, 17, 20, 255] {
        assert!(!module.output(channel));
    }
}

#[test]
fn a_stored_image_powers_up_and_is_stored_again_as_the_same_bytes() {
    let image = used().image();
    assert_eq!(image[10 + 3 * 44..][..4], [0, 0x10, 5, 0]);
    let mut again = Pd3120::power_up(&image).expect("stored by a box");
    assert_eq!(again.image(), image);
    let mut longer = [0xA5; IMAGE_LENGTH + 3];
    assert_eq!(again.store(&mut longer), Ok(IMAGE_LENGTH));
    assert_eq!(longer[..IMAGE_LENGTH], image);
    assert_eq!(longer[IMAGE_LENGTH..], [0xA5; 3]);
    again.tick();
    again.power_up_again(&image).expect("stored by a box");
    let first = Pd3120::power_up(&image).expect("stored by a box");
    assert_eq!(shown(&again), shown(&first));
}

#[test]
fn an_older_image_powers_up_and_is_stored_with_zeros_for_the_data_channel() {
    let image = used().image();
    let mut older = image[..OLDER_IMAGE_LENGTH].to_vec();
    let (before, place) = older.split_at_mut(OLDER_IMAGE_LENGTH - 2);
    let sum: u16 = before.iter().map(|&byte| u16::from(byte)).sum();
    place.copy_from_slice(&sum.to_be_bytes());
    let module = Pd3120::power_up(&older).expect("an older image");
    assert_eq!(module.image(), image);
}

/// A float of a tank: X volts at Y litres.
fn with_tank() -> Pd3120 {
    const LITRES: [f32; PAIRS] = [
        80.0, 610.0, 1650.0, 2920.0, 4290.0, 5710.0, 7080.0, 8350.0, 9390.0, 10000.0,
    ];
    let pairs = std::array::from_fn(|k| Pair {
        x: (k + 1) as f32 / 2.0,
        y: LITRES[k],
    });
    let mut module = used();
    module.write(0x0D, &[1]).expect("WriteEnable");
    let bytes = table::to_bytes(&pairs);
    module.write(0x13C, &bytes).expect("LookUp1");
    module
}

#[test]
fn a_table_is_read_back_and_looked_up() {
    let mut module = with_tank();
    let mut bytes = [0; table::LENGTH];
    module.read(0x13C, &mut bytes).expect("LookUp1");
    let pairs = table::from_bytes(&bytes);
    for Pair { x, y } in pairs {
        assert_eq!(module.look_up(1, x), Ok(y));
        assert_eq!(module.look_up(2, x), Ok(0.0));
    }
    assert_eq!(module.look_up(1, 2.25), Ok(3605.0));
    assert_eq!(module.look_up(1, -1.0), Ok(80.0));
    assert_eq!(module.look_up(1, f32::MAX), Ok(10000.0));
}

#[test]
fn a_nan_is_answered_with_its_one_pattern() {
    let mut pairs = [f32::MAX; PAIRS].map(|most| Pair { x: most, y: most });
    pairs[0] = Pair {
        x: f32::MIN,
        y: f32::MIN,
    };
    let mut module = with_tank();
    let bytes = table::to_bytes(&pairs);
    module.write(0x13D, &bytes).expect("LookUp2");
    let level = module.look_up(2, 0.0).expect("a finite X");
    assert_eq!(level.to_bits(), 0x7FC0_0000);
}

#[test]
fn a_lookup_changes_nothing() {
    let module = with_tank();
    let before = shown(&module);
    for table in [0, 1, 2, 3] {
        let _ = module.look_up(table, 2.25);
    }
    assert_eq!(shown(&module), before);
}

#[test]
fn real_a_is_kept_where_write_enable_is_on() {
    let mut module = with_tank();
    module.write(0x130, &1.5_f32.to_be_bytes()).expect("RealA");
    module.write(0x0D, &[0]).expect("WriteEnable");
    module.write(0x130, &2.5_f32.to_be_bytes()).expect("RealA");
    assert_eq!(word(&mut module, 0x130), 2.5_f32.to_be_bytes());
    assert_eq!(module.image()[715..719], 1.5_f32.to_be_bytes());
}

#[test]
fn a_tick_advances_free_run_timer_by_8() {
    let mut module = Pd3120::default();
    module.tick();
    module.tick();
    assert_eq!(word(&mut module, 0x07), [0, 0, 0, 16]);
}

#[test]
fn a_clone_goes_its_own_way() {
    let module = used();
    let mut other = module.clone();
    assert_eq!(shown(&other), shown(&module));
    other.sample(4, false, 0.0).expect("channel 4");
    assert_ne!(shown(&other), shown(&module));
    assert_eq!(shown(&module), shown(&used()));
}

#[test]
fn a_box_can_be_sent_to_another_thread() {
    let mut module = used();
    let there = thread::spawn(move || {
        module.tick();
        module
    });
    let mut here = used();
    here.tick();
    assert_eq!(shown(&there.join().expect("no panic")), shown(&here));
}

#[test]
fn debug_shows_no_internals() {
    assert_eq!(format!("{:?}", used()), "Pd3120 { .. }");
}
