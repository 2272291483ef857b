//! Change 2: what loses the left-over quarters of an operating count, and what
//! does not.

use super::*;

/// The operating count that the channel of these tests has.
const COUNT: u32 = 80;

/// Channel 1 has run for `quarters` ticks more than its count shows; InFlag is
/// TRUE. It simulates input or is wired.
fn with_quarters(quarters: u8, simulated: bool) -> Bench {
    let mut bench = with_watchdog(2560);
    bench.configure(1, [u8::from(simulated), 0x20, 0, 0]);
    bench.write_word(0x14, reals::from_operating_count(COUNT));
    bench.device.sample(1, true, 0);
    bench.write(0x10, &[flag::IN]);
    bench.ticks(u32::from(quarters));
    let channel = &bench.device.channels[0];
    assert_eq!((channel.operating, channel.quarters), (COUNT, quarters));
    bench
}

/// How many quarters channel 1 has left over, as further ticks show it: its
/// count goes on when four are there.
fn shown(bench: &mut Bench) -> u32 {
    let before = bench.read_word(0x14);
    bench.device.sample(1, true, 0);
    bench.write(0x111, &[0xFF, 0xFF]);
    for ticks in 1..=4 {
        bench.ticks(1);
        if bench.read_word(0x14) != before {
            return 4 - ticks;
        }
    }
    panic!("four ticks add one");
}

/// Does something to a channel of each number of quarters, wired and
/// simulated, and answers for each what further ticks show.
fn shown_after(act: impl Fn(&mut Bench)) -> Vec<u32> {
    let mut shown_after = Vec::new();
    for simulated in [false, true] {
        for quarters in 0..4 {
            let mut bench = with_quarters(quarters, simulated);
            act(&mut bench);
            shown_after.push(shown(&mut bench));
        }
    }
    shown_after
}

const KEPT: [u32; 8] = [0, 1, 2, 3, 0, 1, 2, 3];
const LOST: [u32; 8] = [0; 8];

#[test]
fn left_alone_they_stay() {
    assert_eq!(shown_after(|_| {}), KEPT);
}

/// "lost [...] when OperatingTime is written", also with the time that stands
/// there.
#[test]
fn a_write_of_operating_time_loses_them_with_write_enable_and_without() {
    for enable in [0, 1] {
        for time in [0, 0x8000_0000, reals::ONE, 0x4120_0000, 0x3DFF_FFFF] {
            let shown = shown_after(|bench| {
                bench.write(0x0D, &[enable]);
                assert_eq!(bench.write_word(0x14, time), 0);
                let kept = bench.device.channels[0].kept.operating;
                let count = reals::to_operating_count(time);
                assert_eq!(kept, count * u32::from(enable));
            });
            assert_eq!(shown, LOST, "{enable} {time:08x}");
        }
    }
}

#[test]
fn a_refused_write_of_operating_time_keeps_them() {
    for enable in [0, 1] {
        for length in [0, 1, 3, 5, 8] {
            let shown = shown_after(|bench| {
                bench.write(0x0D, &[enable]);
                assert_eq!(bench.write(0x14, &[0; 8][..length]), 4);
            });
            assert_eq!(shown, KEPT, "{enable} {length}");
        }
        for time in [
            reals::OPERATING_END,
            0x7F7F_FFFF,
            0x8000_0001,
            0xBE00_0000,
            0x7F80_0000,
            0xFF80_0000,
            reals::NAN,
        ] {
            let shown = shown_after(|bench| {
                bench.write(0x0D, &[enable]);
                assert_eq!(bench.write_word(0x14, time), 7);
            });
            assert_eq!(shown, KEPT, "{enable} {time:08x}");
        }
    }
}

#[test]
fn reset_and_power_up_lose_them() {
    let reset = |bench: &mut Bench| assert_eq!(bench.write(0x03, &[0xFF]), 0);
    assert_eq!(shown_after(reset), LOST);
    let power_up = |bench: &mut Bench| {
        let image = bench.device.kept().encode();
        assert_eq!(bench.device.power_up(&image), 0);
    };
    assert_eq!(shown_after(power_up), LOST);
    let old = |bench: &mut Bench| {
        let image = bench.device.kept().encode_old();
        assert_eq!(bench.device.power_up(&image), 0);
    };
    assert_eq!(shown_after(old), LOST);
    let refused = |bench: &mut Bench| assert_eq!(bench.device.power_up(&[]), 10);
    assert_eq!(shown_after(refused), LOST);
}

#[test]
fn a_refused_reset_keeps_them() {
    let refused = |bench: &mut Bench| {
        assert_eq!(bench.write(0x03, &[0xFE]), 7);
        assert_eq!(bench.write(0x03, &[0xFF, 0xFF]), 4);
    };
    assert_eq!(shown_after(refused), KEPT);
}

#[test]
fn ch_config_keeps_them() {
    for config in [[0; 4], [0, 0x30, 1, 2], [1, 0x20, 0, 0], [5, 0x10, 2, 0]] {
        let shown = shown_after(|bench| bench.configure(1, config));
        assert_eq!(shown, KEPT, "{config:?}");
    }
}

/// Every other write, accepted or refused, with WriteEnable and without; of
/// this channel, of the others and of the box.
#[test]
fn every_other_write_keeps_them() {
    for enable in [0, 1] {
        let writable = (0x00..=0x13F).filter(|swno| ![0x03, 0x0D, 0x14].contains(swno));
        let mut tried = 0;
        for swno in writable {
            let Ok(register) = Register::find(swno) else {
                continue;
            };
            let bytes = vec![0; register.length()];
            let shown = shown_after(|bench| {
                bench.write(0x0D, &[enable]);
                bench.write(swno, &bytes);
                bench.device.sample(1, true, 0);
                bench.write(0x111, &[0xFF, 0xFF]);
            });
            assert_eq!(shown, KEPT, "{enable} {swno:x}");
            tried += 1;
        }
        assert_eq!(tried, 8 + 4 + 6 + 15 * 16 - 3);
    }
}

#[test]
fn flag_reg_and_counter_keep_them_whatever_they_carry() {
    for byte in 0..=255 {
        let shown = shown_after(|bench| assert_eq!(bench.write(0x10, &[byte]), 0));
        assert_eq!(shown, KEPT, "{byte:02x}");
    }
    for count in [0, 1, 0x7FFF_FFFF, 0xFFFF_FFFF] {
        let shown = shown_after(|bench| assert_eq!(bench.write_word(0x12, count), 0));
        assert_eq!(shown, KEPT, "{count:08x}");
    }
}

#[test]
fn reads_keep_them() {
    for swno in 0x00..=0x13F {
        let read = |bench: &mut Bench| {
            for length in [0, 80] {
                read_into(bench, swno, length);
            }
        };
        assert_eq!(shown_after(read), KEPT, "{swno:x}");
    }
}

#[test]
fn samples_lookups_and_stores_keep_them() {
    let samples = |bench: &mut Bench| {
        for amperes in [0, reals::ONE, reals::TWO + 1, 0] {
            for on in [true, false, true, false] {
                assert_eq!(bench.device.sample(1, on, amperes), 0);
            }
        }
        assert_eq!(bench.device.sample(1, true, reals::NAN), 9);
        assert_eq!(bench.device.sample(17, true, 0), 8);
        bench.device.lookup(1, 0);
        assert_eq!(bench.device.store(&mut [0; image::LENGTH]).0, 0);
    };
    assert_eq!(shown_after(samples), KEPT);
}

/// Ticks with InFlag FALSE, trips in them and the watchdog's run-out too.
#[test]
fn idle_ticks_keep_them() {
    let idle = |bench: &mut Bench| {
        bench.device.sample(1, false, 0x4040_0000);
        bench.write(0x111, &[0, 0]);
        bench.ticks(333);
        assert_eq!(bench.device.act & RUN_OUT, RUN_OUT);
    };
    assert_eq!(shown_after(idle), KEPT);
}

/// A save keeps the count; a reset after it shows that, and no quarter.
#[test]
fn a_save_keeps_them() {
    let save = |bench: &mut Bench| {
        bench.device.sample(1, false, 0);
        bench.write(0x111, &[0, 0]);
        bench.device.save_count = crate::tick::LAST_OF_SAVE;
        bench.ticks(1);
        assert_eq!(bench.device.channels[0].kept.operating, COUNT);
    };
    assert_eq!(shown_after(save), KEPT);
    let save_and_reset = |bench: &mut Bench| {
        save(bench);
        bench.write(0x03, &[0xFF]);
        assert_eq!(bench.device.channels[0].operating, COUNT);
    };
    assert_eq!(shown_after(save_and_reset), LOST);
}

/// The quarters stand in no image.
#[test]
fn an_image_holds_no_quarters() {
    let stored = |quarters| {
        let mut bench = busy();
        bench.device.channels[1].quarters = quarters;
        let mut image = [LENT; image::LENGTH];
        assert_eq!(bench.device.store(&mut image), (0, image::LENGTH));
        image
    };
    for quarters in [1, 2, 3, 7, 255] {
        assert_eq!(stored(quarters), stored(0), "{quarters}");
    }
    let mut device = ChannelBox::default();
    assert_eq!(device.power_up(&stored(3)), 0);
    assert_eq!(device.channels.map(|channel| channel.quarters), [0; 16]);
}
