//! Change 2: the operating count in step 5 of every tick.

use super::*;

/// The operating count of channel 1 after each tick of a pattern: '1' is a
/// tick with InFlag TRUE.
fn counts(bench: &mut Bench, pattern: &str) -> Vec<u32> {
    let mut after_tick = |level: char| {
        bench.device.sample(1, level == '1', 0);
        bench.ticks(1);
        bench.device.channels[0].operating
    };
    pattern.chars().map(&mut after_tick).collect()
}

/// The same after the last of them, from power-up.
fn count(pattern: &str) -> u32 {
    let counts = counts(&mut Bench::watchdog_off(), pattern);
    counts.last().copied().expect("a tick")
}

#[test]
fn a_run_on_end_adds_one_every_fourth_tick_wherever_it_begins() {
    for idle in 0..9 {
        let mut bench = Bench::watchdog_off();
        bench.ticks(idle);
        assert_eq!(
            counts(&mut bench, "111111111"),
            [0, 0, 0, 1, 1, 1, 1, 2, 2],
            "{idle}"
        );
    }
}

/// "A pump that runs for a tenth of a second between two looks shows no
/// operating time", in document 01. Looks come with ticks 4, 8, 12 and so on.
#[test]
fn short_runs_between_looks_add_up() {
    assert_eq!(count("1000100010001"), 1);
    assert_eq!(count("0100010001000"), 0);
    assert_eq!(count("01000100010001"), 1);
    assert_eq!(count("01100110"), 1);
    assert_eq!(count("1110111011101110"), 3);
    assert_eq!(count("1110111011101110".repeat(3).as_str()), 9);
}

#[test]
fn ticks_that_never_fall_on_a_look_add_up() {
    let pattern = "111010100100".repeat(2);
    let looks: String = pattern.chars().skip(3).step_by(4).collect();
    assert_eq!(looks, "000000");
    let expected = [
        0, 0, 0, 0, 1, 1, 1, 1, 1, 1, 1, 1, //
        1, 2, 2, 2, 2, 2, 2, 2, 2, 3, 3, 3,
    ];
    assert_eq!(counts(&mut Bench::watchdog_off(), &pattern), expected);
    assert_eq!(count("1010001010100010"), 1);
    assert_eq!(count("1100101010001110"), 2);
}

/// Ticks that are looks, alone, count as the others do: by quarters.
#[test]
fn a_look_adds_a_quarter_and_no_more() {
    assert_eq!(count("000100010001"), 0);
    assert_eq!(count("0001000100010001"), 1);
}

#[test]
fn in_flag_is_that_of_the_tick() {
    let mut bench = Bench::watchdog_off();
    for _ in 0..20 {
        bench.device.sample(1, true, 0);
        bench.device.sample(1, false, 0);
        bench.ticks(1);
        bench.device.sample(1, true, 0);
        bench.device.sample(1, false, 0);
    }
    let channel = &bench.device.channels[0];
    assert_eq!((channel.operating, channel.quarters), (0, 0));
    assert_eq!(channel.counter, 40);
    for _ in 0..4 {
        bench.device.sample(1, true, 0);
        bench.ticks(1);
        bench.device.sample(1, false, 0);
    }
    assert_eq!(bench.device.channels[0].operating, 1);
}

#[test]
fn a_simulated_in_flag_counts_too() {
    let mut bench = Bench::watchdog_off();
    bench.configure(1, [1, 0, 0, 0]);
    bench.device.sample(1, true, 0);
    bench.ticks(4);
    assert_eq!(bench.device.channels[0].operating, 0);
    bench.write(0x10, &[flag::IN]);
    bench.ticks(1);
    bench.write(0x10, &[0]);
    bench.ticks(2);
    bench.write(0x111, &[0, 1]);
    bench.ticks(3);
    let channel = &bench.device.channels[0];
    assert_eq!((channel.operating, channel.quarters), (1, 0));
}

#[test]
fn each_channel_has_its_own_quarters() {
    let mut bench = Bench::watchdog_off();
    for channel in 1..=16 {
        bench.device.sample(channel, true, 0);
        bench.ticks(1);
    }
    let quarters = bench.device.channels.map(|channel| channel.quarters);
    let counts = bench.device.channels.map(|channel| channel.operating);
    assert_eq!(quarters, [0, 3, 2, 1].repeat(4)[..]);
    let expected = [4, 3, 3, 3, 3, 2, 2, 2, 2, 1, 1, 1, 1, 0, 0, 0];
    assert_eq!(counts, expected);
}

#[test]
fn quarters_do_not_show_in_operating_time() {
    let mut bench = Bench::watchdog_off();
    bench.device.sample(1, true, 0);
    for expected in [0, 0, 0, 0x3E00_0000, 0x3E00_0000] {
        bench.ticks(1);
        assert_eq!(bench.read_word(0x14), expected);
    }
}

/// A box whose next tick but `before` is the save's, and whose channel 1 has
/// some quarters, with InFlag TRUE.
fn near_save(before: u32, quarters: u8) -> Bench {
    let mut bench = Bench::watchdog_off();
    bench.device.sample(1, true, 0);
    bench.device.save_count = LAST_OF_SAVE - before;
    bench.device.channels[0].quarters = quarters;
    bench
}

/// Step 5 is before step 7: the save's tick keeps the count that it moves.
#[test]
fn the_saves_tick_keeps_what_it_adds() {
    for (quarters, kept) in [(0, 0), (1, 0), (2, 0), (3, 1)] {
        let mut bench = near_save(0, quarters);
        bench.ticks(1);
        assert_eq!(bench.device.save_count, 0);
        let channel = &bench.device.channels[0];
        assert_eq!((channel.kept.operating, channel.operating), (kept, kept));
        assert_eq!(channel.quarters, (quarters + 1) % 4);
    }
}

#[test]
fn a_save_leaves_the_quarters() {
    for quarters in 0..4 {
        for before in 0..4 {
            let mut bench = near_save(before, quarters);
            bench.ticks(8);
            let channel = &bench.device.channels[0];
            assert_eq!((channel.operating, channel.quarters), (2, quarters));
            let at_save = (u32::from(quarters) + before + 1) / 4;
            assert_eq!(channel.kept.operating, at_save);
        }
    }
}
