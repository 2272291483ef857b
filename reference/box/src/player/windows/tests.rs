//! Lines of minutes and windows, as they are played.

use crate::player::play;
use crate::ChannelBox;

fn played(script: &str) -> Vec<String> {
    let mut output = Vec::new();
    let mut device = ChannelBox::default();
    play(&mut device, script.as_bytes(), &mut output).expect("no failure in memory");
    let output = String::from_utf8(output).expect("plain characters");
    output.lines().map(str::to_string).collect()
}

/// So many windows, as words.
fn pairs(count: usize) -> String {
    " 7 8".repeat(count)
}

#[test]
fn a_minute_answers_its_number() {
    for (line, answer) in [
        ("minute 0", "minute 0"),
        ("minute 10079", "minute 0"),
        ("minute 00010079", "minute 0"),
        ("minute 10080", "minute 18"),
        ("minute 65535", "minute 18"),
        ("\tminute  600 # ten o'clock", "minute 0"),
    ] {
        assert_eq!(played(line), [answer], "{line}");
    }
}

#[test]
fn windows_answer_their_number() {
    for (line, answer) in [
        ("windows 1", "windows 0"),
        ("windows 0016 000 10079", "windows 0"),
        ("windows 1 10079 0 5 5", "windows 0"),
        ("windows 0", "windows 8"),
        ("windows 17", "windows 8"),
        ("windows 255 65535 65535", "windows 8"),
        ("windows 1 10080 0", "windows 18"),
        ("windows 1 0 10080", "windows 18"),
        ("windows 1 65535 65535", "windows 18"),
    ] {
        assert_eq!(played(line), [answer], "{line}");
    }
    for (count, number) in [(0, 0), (1, 0), (8, 0), (9, 19), (15, 19), (16, 19)] {
        let line = format!("windows 1{}", pairs(count));
        assert_eq!(played(&line), [format!("windows {number}")], "{line}");
        let line = format!("windows 0{}", pairs(count));
        assert_eq!(played(&line), ["windows 8"], "{line}");
    }
}

/// A wrong line gets its sentence, and the line after it is played.
fn assert_wrong(line: &str, why: &str) {
    let expected = [format!("error 2: {why}"), "tick 0".to_string()];
    assert_eq!(played(&format!("\n{line}\ntick\n")), expected, "{line}");
}

#[test]
fn wrong_minutes_get_their_sentence() {
    for (line, why) in [
        ("Minute 1", "unknown call"),
        ("minutes 1", "unknown call"),
        ("minute", "wrong number of words"),
        ("minute 1 2", "wrong number of words"),
        ("minute x y", "wrong number of words"),
        ("minute 65536", "number too large"),
        ("minute 4294967296", "number too large"),
        ("minute -", "not a decimal number"),
        ("minute -1", "not a decimal number"),
        ("minute +1", "not a decimal number"),
        ("minute 0a", "not a decimal number"),
        ("minute 1.5", "not a decimal number"),
    ] {
        assert_wrong(line, why);
    }
}

/// The number of words is asked before any word is read.
#[test]
fn a_wrong_number_of_words_comes_first() {
    for (line, why) in [
        ("Windows 1", "unknown call"),
        ("window 1", "unknown call"),
        ("windows", "wrong number of words"),
        ("windows 1 2", "wrong number of words"),
        ("windows x x", "wrong number of words"),
        ("windows 256 1 2 3", "wrong number of words"),
    ] {
        assert_wrong(line, why);
    }
    assert_wrong(&format!("windows 1{}", pairs(17)), "wrong number of words");
    assert_wrong(&format!("windows x{}", pairs(17)), "wrong number of words");
    assert_wrong(
        &format!("windows 1{} 9", pairs(16)),
        "wrong number of words",
    );
    assert_wrong(&format!("windows 1{} 9", pairs(8)), "wrong number of words");
}

/// Then the words from left to right.
#[test]
fn wrong_words_get_their_sentence() {
    for (line, why) in [
        ("windows 256", "number too large"),
        ("windows -", "not a decimal number"),
        ("windows a", "not a decimal number"),
        ("windows 256 x x", "number too large"),
        ("windows x 65536 1", "not a decimal number"),
        ("windows 0 65536 x", "number too large"),
        ("windows 0 x 65536", "not a decimal number"),
        ("windows 1 1 65536 x 1", "number too large"),
        ("windows 1 1 x 65536 1", "not a decimal number"),
        ("windows 1 1 -1", "not a decimal number"),
        ("windows 1 +1 1", "not a decimal number"),
    ] {
        assert_wrong(line, why);
    }
    assert_wrong(
        &format!("windows 1{} 65536 1", pairs(15)),
        "number too large",
    );
    assert_wrong(
        &format!("windows 1{} 1 x", pairs(15)),
        "not a decimal number",
    );
}

/// Neither is a wire call: WDTimer goes on, its run-out stands, no bit moves.
#[test]
fn minutes_and_windows_are_no_wire_calls() {
    let before = "write d 01\nwrite a 3e800000\ntick 3\n";
    let after = "tick 4\nread 8 00000000\ntick 9\nread f 000000000000000000000000\n";
    let calls = "minute 7\nwindows 1 7 8\nminute 10080\nwindows 0\nwindows 1 0 10080\n";
    let without = played(&format!("{before}{after}"));
    let with = played(&format!("{before}{calls}{after}"));
    let numbers = [
        "minute 0",
        "windows 0",
        "minute 18",
        "windows 8",
        "windows 18",
    ];
    assert_eq!(with[3..8], numbers);
    assert_eq!([&with[..3], &with[8..]].concat(), without);
}
