//! Power-up, storing, reset and kept values.

use super::*;

fn stored(device: &ChannelBox) -> [u8; image::LENGTH] {
    let mut buffer = [0; image::LENGTH];
    assert_eq!(device.store(&mut buffer), (0, image::LENGTH));
    buffer
}

#[test]
fn power_up_restores_and_presets() {
    let mut settings = Settings {
        wd_preset: 99,
        ..Settings::default()
    };
    settings.channels[6] = Kept {
        user_bytes: [1, 2, 3, 4],
        counter: -5,
        operating: 6,
        ..Kept::default()
    };
    settings.data.real_a = reals::ONE;
    settings.data.real_b = reals::TWO;
    settings.data.tables[1].0[9].y = 3;
    let bench = Bench::with(settings);
    assert_eq!(bench.device.wd_timer, 99);
    assert_eq!((bench.device.his, bench.device.act), (INTERNAL_RESET, 0));
    let channel = &bench.device.channels[6];
    assert_eq!((channel.counter, channel.operating), (-5, 6));
    assert_eq!(channel.user_bytes, [1, 2, 3, 4]);
    let data = &bench.device.data;
    assert_eq!((data.real_a, data.real_b), (reals::ONE, reals::TWO));
    assert_eq!((data.timer_a, data.timer_b), (0, 0));
    assert_eq!(bench.device.kept(), settings);
}

#[test]
fn a_refused_power_up_gives_the_box_of_zero_settings() {
    let mut expected = ChannelBox::default();
    assert_eq!(expected.power_up(&Settings::default().encode()), 0);
    assert_eq!(expected, ChannelBox::default());
    let mut bench = busy();
    assert_eq!(bench.device.power_up(&[]), 10);
    assert_eq!(bench.device, expected);
    assert_eq!(bench.device.his, INTERNAL_RESET);
}

#[test]
fn reset_restores_kept_values() {
    let mut bench = Bench::watchdog_off();
    bench.write_word(0x12, 5);
    bench.write(0x0D, &[1]);
    bench.write_word(0x22, 7);
    bench.write_word(0x24, reals::ONE);
    bench.write(0x25, &[1; 4]);
    bench.write(0x0D, &[0]);
    bench.write_word(0x22, 8);
    bench.write(0x25, &[2; 4]);
    bench.ticks(3);
    let kept = bench.device.kept();
    bench.write(0x0D, &[1]);
    let answer = bench.device.write(0x03, &[0xFF]);
    assert_eq!(answer.number, 0);
    assert!(!answer.data_error && answer.general_error);
    assert_eq!(bench.device, ChannelBox::restored(kept, EXTERNAL_RESET));
    assert_eq!((bench.device.his, bench.device.act), (0x40, 0));
    assert_eq!(bench.read_word(0x12), 0);
    assert_eq!(bench.read_word(0x22), 7);
    assert_eq!(bench.read_word(0x24), reals::ONE);
    assert_eq!(bench.read(0x25, 4), [1; 4]);
}

#[test]
fn a_stored_image_powers_up_to_the_kept_values() {
    let bench = busy();
    let image = stored(&bench.device);
    let mut second = ChannelBox::default();
    assert_eq!(second.power_up(&image), 0);
    assert_eq!(second.kept(), bench.device.kept());
    assert_eq!(stored(&second), image);
}

/// Change 1: "Images of 717 bytes load with zeros there, and storing writes
/// the long one [...]; only an image of that length comes back as the same
/// bytes."
#[test]
fn an_old_image_is_stored_as_a_long_one() {
    let old = busy().device.kept().encode_old();
    let mut device = ChannelBox::default();
    assert_eq!(device.power_up(&old), 0);
    assert_eq!(device.data, DataChannel::default());
    let long = stored(&device);
    assert_eq!(long[..714], old[..714]);
    assert_eq!(
        long[714..],
        [&[1][..], &[0; 168], &[1], &long[884..]].concat()
    );
    let mut again = ChannelBox::default();
    assert_eq!(again.power_up(&long), 0);
    assert_eq!(again, device);
    assert_eq!(stored(&again), long);
}

#[test]
fn registers_2_4_and_5_are_kept_while_write_enable_is_true() {
    let mut bench = Bench::watchdog_off();
    let before = bench.device.kept();
    bench.write_word(0x12, 1);
    bench.write_word(0x14, reals::ONE);
    bench.write(0x15, &[1; 4]);
    assert_eq!(bench.device.kept(), before);
    bench.write(0x0D, &[1]);
    bench.write_word(0x12, 1);
    bench.write_word(0x14, reals::ONE);
    bench.write(0x15, &[1; 4]);
    let kept = bench.device.channels[0].kept;
    assert_eq!((kept.counter, kept.operating), (1, 8));
    assert_eq!(kept.user_bytes, [1; 4]);
    bench.device.sample(1, true, 0);
    assert_eq!(bench.device.channels[0].kept.counter, 1);
}
