//! Questions answered with no.

use super::*;

#[test]
fn a_refused_read_leaves_buffer_and_box() {
    let mut bench = busy();
    for (swno, length, number) in [
        (0x140, 12, 1),
        (0xFFFF, 0, 1),
        (0x120, 12, 2),
        (0x12F, 0, 2),
        (0x132, 80, 2),
        (0x13F, 4, 2),
        (0x130, 3, 5),
        (0x13D, 79, 5),
        (0x01, 12, 2),
        (0x0E, 0, 2),
        (0x1E, 12, 2),
        (0x113, 4, 2),
        (0x00, 1, 5),
        (0x0F, 11, 5),
        (0x1F, 3, 5),
        (0x10, 0, 5),
    ] {
        let mut expected = bench.device.clone();
        expected.act &= !RUN_OUT;
        expected.wd_timer = expected.wd_preset;
        let (answer, buffer) = read_into(&mut bench, swno, length);
        assert_eq!((answer.number, answer.length), (number, 0), "{swno:x}");
        assert_eq!(buffer, vec![LENT; length]);
        assert_eq!(bench.device, expected);
    }
}

#[test]
fn a_refused_write_leaves_the_box() {
    let mut bench = busy();
    bench.write(0x0D, &[0]);
    let refusals: [(u16, &[u8], u8); 22] = [
        (0x140, &[], 1),
        (0x120, &[], 2),
        (0x12D, &[1], 2),
        (0x139, &[0; 4], 2),
        (0x13E, &[0; 4], 2),
        (0x130, &[0; 3], 4),
        (0x13C, &[0xFF; 79], 4),
        (0x13C, &[0xFF; 80], 6),
        (0x131, &[0xFF; 4], 7),
        (0x0B, &[0], 2),
        (0x00, &[], 3),
        (0x07, &[0; 4], 3),
        (0x1F, &[0; 4], 3),
        (0x112, &[0; 9], 3),
        (0x19, &[0; 3], 4),
        (0x10, &[0; 2], 4),
        (0x0F, &[0; 11], 4),
        (0x19, &[0, 0x99, 0, 0], 6),
        (0x09, &[0; 4], 6),
        (0x03, &[0xFE], 7),
        (0x0D, &[2], 7),
        (0x0F, &[0, 0, 0, 0, 0, 0, 0, 0, 0, 0, 0, 1], 7),
    ];
    for (swno, bytes, number) in refusals {
        let mut expected = bench.device.clone();
        expected.act &= !RUN_OUT;
        expected.wd_timer = expected.wd_preset;
        assert_eq!(bench.write(swno, bytes), number, "{swno:x}");
        assert_eq!(bench.device, expected);
    }
}

#[test]
fn values_that_do_not_suit_get_7() {
    let mut bench = Bench::watchdog_off();
    bench.write(0x0D, &[1]);
    for (swno, word) in [
        (0x0A, 0x8000_0001),
        (0x09, 0x0020_0000),
        (0x11, 0x4B00_0000),
        (0x13, 0x7F80_0000),
        (0x13, 0x7FC0_0000),
        (0x14, 0x4E00_0000),
        (0x14, 0x8000_0001),
        (0x16, 0xCB00_0001),
        (0x17, 0x8000_0001),
        (0x18, 0x4B00_0000),
        (0x19, 0x0040_0000),
        (0x19, 0x0010_1100),
        (0x19, 0x0010_0011),
        (0x1A, 0x3F80_0001),
        (0x1B, 0x8000_0001),
    ] {
        assert_eq!(bench.write_word(swno, word), 7, "{swno:x} {word:08x}");
    }
}

#[test]
fn samples_have_their_own_numbers() {
    let mut bench = Bench::watchdog_off();
    let before = bench.device.clone();
    for channel in [0, 17, 255] {
        assert_eq!(bench.device.sample(channel, true, 0), 8);
        assert_eq!(bench.device.sample(channel, true, 0x7FC0_0000), 8);
    }
    for amperes in [0x7F80_0000, 0xFF80_0000, 0x7FC0_0000, 0xFFFF_FFFF] {
        assert_eq!(bench.device.sample(1, true, amperes), 9);
    }
    assert_eq!(bench.device, before);
    assert_eq!(bench.device.sample(16, false, 0xFF7F_FFFF), 0);
    assert_eq!(bench.device.sample(16, true, 0), 0);
    assert_eq!(bench.device.channels[15].counter, 1);
}

/// Change 1: "storing writes the long one and needs its length".
#[test]
fn storing_wants_886_bytes() {
    let bench = busy();
    for length in [0, 717, 885] {
        let mut short = vec![LENT; length];
        assert_eq!(bench.device.store(&mut short), (14, 0));
        assert_eq!(short, vec![LENT; length]);
    }
    let mut long = [LENT; 889];
    assert_eq!(bench.device.store(&mut long), (0, 886));
    assert_eq!(long[886..], [LENT; 3]);
}

#[test]
fn bytes_past_an_answer_are_unchanged() {
    let mut bench = Bench::watchdog_off();
    let (answer, buffer) = read_into(&mut bench, 0x00, 5);
    assert_eq!(answer.length, 2);
    assert_eq!(buffer, [0x01, 0x3F, LENT, LENT, LENT]);
}
