//! Change 6: boxes in which a stranger's windows reach c. Each is found.

use super::leaky::{files, Leak, Leaky};
use super::*;

/// c's own windows are compared, by the number.
#[test]
fn a_planted_number_of_own_windows_is_found() {
    let mut files = Files::made(20);
    let calls: Vec<&str> = files.second_calls.lines().collect();
    let own = |pair: usize| files.second_lines(pair, |pair| &pair.own);
    let is_windows = |line: &usize| calls[line - 1].starts_with("windows ");
    let (pair, line) = (1..=20)
        .find_map(|pair| Some((pair, own(pair).into_iter().find(is_windows)?)))
        .expect("own windows");
    let call = in_words(calls[line - 1]);
    assert!(call.starts_with("the windows of channel "), "{call}");
    files.plant(line, 1, |number| match number {
        "18" => "0".to_string(),
        _ => "18".to_string(),
    });
    files.assert_found(&[&format!("pair {pair}, "), "own call ", &call, "number 18"]);
}

#[test]
fn a_planted_flag_is_found_after_the_end() {
    let mut files = Files::made(3);
    let calls: Vec<&str> = files.second_calls.lines().collect();
    let lines = files.second_lines(2, |pair| &pair.hours);
    let is_read = |line: &usize| calls[line - 1].starts_with("read ");
    let reads: Vec<usize> = lines.into_iter().filter(is_read).collect();
    assert!(reads.len() >= 3);
    for line in reads {
        let mut files = Files::made(3);
        files.plant(line, 5, |buffer| other_digit(buffer, 0));
        files.assert_found(&["seed 77, pair 2", "opening hours", "FlagReg"]);
    }
    let line = files.second_lines(2, |pair| &pair.hours)[0];
    files.plant(line, 1, |_| "6".to_string());
    files.assert_found(&["seed 77, pair 2", "opening hours", "number 6"]);
}

#[test]
fn in_many_pairs_windows_close_c_after_the_end() {
    let done = Files::made(100).check().expect("all the same");
    let (_, end) = done.rsplit_once("; in ").expect("the last part");
    let (count, rest) = end.split_once(' ').expect("a number");
    assert_eq!(rest, "its windows closed it, at the same ticks, after them");
    let count: u32 = count.parse().expect("a number");
    assert!((50..=100).contains(&count), "{done}");
}

/// A box without opening hours shows nothing of them.
#[test]
fn a_box_whose_windows_never_close_shows_nothing() {
    let files = Files::of(made(20), || Leaky::new(Leak::NoHours));
    files.assert_found(&["seed 77: nothing is shown", "windows never closed"]);
}

#[test]
fn each_leak_of_windows_is_found() {
    for leak in [
        Leak::Windows,
        Leak::WindowsForAll,
        Leak::RefusedWindows,
        Leak::MinuteTicks,
        Leak::MinuteUnset,
        Leak::WindowsWire,
        Leak::Closing,
    ] {
        let files = Files::of(made(200), || Leaky::new(leak));
        let why = files.check().expect_err("a leak");
        assert!(why.starts_with("seed 77, pair "), "{leak:?}: {why}");
    }
}

/// A stranger's windows as one call, and nothing of it in the other list. c has
/// no call after it, so that only the calls after the end show it. Channel 16
/// is the one before channel 1.
#[test]
fn a_leak_that_no_register_shows_is_found_after_the_end() {
    let own = "minute 600, windows 1 500 700, tick 100";
    for (leak, stranger) in [
        (Leak::Windows, "windows 16 5 5"),
        (Leak::WindowsForAll, "windows 9 5 5"),
        (Leak::Closing, "windows 16 5 5"),
    ] {
        let lists = [own.to_string(), format!("{own}, {stranger}")];
        let files = files(leak, &lists[0], &lists[1]);
        files.assert_found(&["opening hours, the read of SWNo $10, FlagReg"]);
    }
}
