use super::*;
use crate::bench::with_channel;

/// A channel whose InFlag is TRUE.
fn running(operating: u32, quarters: u8) -> Channel {
    let mut channel = with_channel([0; 4]);
    channel.operating = operating;
    channel.quarters = quarters;
    channel.in_flag = true;
    channel
}

/// The count and the quarters after each of some steps.
fn after_each(mut channel: Channel, steps: usize) -> Vec<(u32, u8)> {
    let step = || {
        channel.count_operating();
        (channel.operating, channel.quarters)
    };
    std::iter::repeat_with(step).take(steps).collect()
}

#[test]
fn four_quarters_add_one() {
    let expected = [(7, 1), (7, 2), (7, 3), (8, 0), (8, 1), (8, 2), (8, 3)];
    assert_eq!(after_each(running(7, 0), 7), expected);
}

#[test]
fn without_in_flag_nothing_is_added() {
    for quarters in 0..4 {
        let mut channel = running(5, quarters);
        channel.in_flag = false;
        assert_eq!(after_each(channel, 3), [(5, quarters); 3]);
    }
}

/// "stopping at 4294967295": the quarters go on 0 1 2 3 0, the count stays.
#[test]
fn the_count_stops_at_its_end_and_the_quarters_go_on() {
    let last = u32::MAX;
    let expected = [
        (last - 1, 3),
        (last, 0),
        (last, 1),
        (last, 2),
        (last, 3),
        (last, 0),
        (last, 1),
    ];
    assert_eq!(after_each(running(last - 1, 2), 7), expected);
}

/// "a number that a change adds to the box acts, where it is out of its range
/// [...], as it stands after a refused power-up".
#[test]
fn quarters_out_of_range_act_as_0() {
    let expected = [(5, 1), (5, 2), (5, 3), (6, 0), (6, 1)];
    assert_eq!(after_each(running(5, 0), 5), expected);
    for quarters in 4..=u8::MAX {
        let channel = running(5, quarters);
        assert_eq!(channel.left_over(), 0, "{quarters}");
        assert_eq!(after_each(channel, 5), expected, "{quarters}");
    }
    for quarters in 0..4 {
        assert_eq!(running(5, quarters).left_over(), quarters);
    }
}

#[test]
fn a_written_count_has_no_quarters() {
    for quarters in [1, 2, 3, 7] {
        let mut channel = running(5, quarters);
        channel.write_operating(5);
        assert_eq!(channel, running(5, 0));
    }
}
