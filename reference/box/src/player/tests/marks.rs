//! Marks: the one before a file in UTF-8, and those before a SWNo.

use super::*;

/// The answers to a script after the mark.
fn played_after_mark(script: &str) -> Vec<String> {
    played([b"\xEF\xBB\xBF", script.as_bytes()].concat())
}

#[test]
fn a_mark_before_the_script_is_skipped() {
    assert_eq!(
        played_after_mark("tick\nstore 0"),
        ["tick 0", "store 14 0 -"]
    );
    assert_eq!(
        played_after_mark(" \tread 0 0000 # ends"),
        ["read 0 2 0 1 013f"]
    );
    assert_eq!(
        played_after_mark("tick x"),
        ["error 1: not a decimal number"]
    );
    for blank in ["", "\n", "\r\n", "# a comment\n", "  # another"] {
        let script = format!("{blank}\ntick");
        assert_eq!(played_after_mark(&script), ["tick 0"], "{blank:?}");
    }
    assert!(played_after_mark("").is_empty());
}

#[test]
fn elsewhere_the_same_bytes_are_part_of_a_word() {
    for (script, expected) in [
        (&b"\n\xEF\xBB\xBFtick\n"[..], "error 2: unknown call"),
        (b" \xEF\xBB\xBFtick\n", "error 1: unknown call"),
        (b"\xEF\xBB\xBF\xEF\xBB\xBFtick\n", "error 1: unknown call"),
        (b"\xEF\xBB\xBF \xEF\xBB\xBF\n", "error 1: unknown call"),
        (b"\xEF\xBBtick\n", "error 1: unknown call"),
        (b"\xEF\xBB\n", "error 1: unknown call"),
        (b"tick\xEF\xBB\xBF\n", "error 1: unknown call"),
        (b"tick \xEF\xBB\xBF\n", "error 1: not a decimal number"),
        (
            b"read \xEF\xBB\xBF0 00\n",
            "error 1: not a hexadecimal string",
        ),
    ] {
        assert_eq!(played(script), [expected], "{script:?}");
    }
    assert_eq!(played(b"tick # \xEF\xBB\xBF\n"), ["tick 0"]);
}

/// The longest line has 16384 bytes, three of them the mark's.
#[test]
fn the_marks_bytes_count_to_the_lines_length() {
    let line = |blanks: usize| format!("tick{}\ntick 2", " ".repeat(blanks));
    assert_eq!(played_after_mark(&line(16_377)), ["tick 0", "tick 0"]);
    let too_long = ["error 1: line too long", "tick 0"];
    assert_eq!(played_after_mark(&line(16_378)), too_long);
    assert_eq!(played(line(16_380)), ["tick 0", "tick 0"]);
}

#[test]
fn a_swno_may_begin_with_a_mark() {
    for word in [
        "42",
        "$42",
        "0x42",
        "0X42",
        "$042",
        "0x00000042",
        "$0000000000000000042",
    ] {
        let script = format!("write {word} 0000002a\nread 42 00000000\nread {word} 00000000");
        let expected = [
            "write 0 0 0 1",
            "read 0 4 0 1 0000002a",
            "read 0 4 0 1 0000002a",
        ];
        assert_eq!(played(script), expected, "{word}");
    }
    for word in ["0", "$0", "0x0", "0X0", "00", "0x00"] {
        let script = format!("read {word} 0000");
        assert_eq!(played(script), ["read 0 2 0 1 013f"], "{word}");
    }
    for word in ["$11F", "0x11f", "0X11f", "$13c", "0xffff", "$FFFF", "$d"] {
        let marked = played(format!("read {word} -"));
        let digits = word.trim_start_matches("0x").trim_start_matches("0X");
        let plain = played(format!("read {} -", digits.trim_start_matches('$')));
        assert_eq!(marked, plain, "{word}");
    }
}

#[test]
fn a_mark_alone_and_two_marks_are_no_swno() {
    for word in [
        "$", "0x", "0X", "$$42", "$0x42", "$0X42", "0x$42", "0x0x42", "0X0x42", "x42", "00x42",
        "42$", "4$2", "-$42", "$-", "0x-", "$+1", "$g", "0xg", "&42", "42h",
    ] {
        for call in ["read", "write"] {
            assert_wrong(&format!("{call} {word} 00"), "not a hexadecimal string");
        }
    }
    for word in [
        "10000",
        "$10000",
        "0x10000",
        "0X00010000",
        "$fffffffffffffffffffff",
    ] {
        assert_wrong(&format!("read {word} 00"), "number too large");
    }
    // Words are looked at from left to right, after their number.
    assert_wrong("read $ 0", "not a hexadecimal string");
    assert_wrong("read $10000 0", "number too large");
    assert_wrong("read $42 0", "odd number of hexadecimal digits");
    assert_wrong("read $42", "wrong number of words");
}

#[test]
fn no_other_word_takes_a_mark() {
    let hexadecimal = "not a hexadecimal string";
    for mark in ["$", "0x", "0X"] {
        for line in [
            format!("read 42 {mark}00000000"),
            format!("write 42 {mark}00000000"),
            format!("power {mark}00"),
            format!("sample 1 1 {mark}00000000"),
            format!("lookup 1 {mark}000000"),
            format!("charge {mark}00000000 00000000 1 1"),
            format!("charge 00000000 {mark}00000000 1 1"),
        ] {
            assert_wrong(&line, hexadecimal);
        }
        for line in [
            format!("sample {mark}1 1 00000000"),
            format!("lookup {mark}1 00000000"),
            format!("tick {mark}1"),
            format!("store {mark}1"),
            format!("minute {mark}1"),
            format!("windows {mark}1"),
            format!("windows 1 {mark}1 2"),
            format!("charge 00000000 00000000 {mark}1 1"),
        ] {
            assert_wrong(&line, "not a decimal number");
        }
    }
    assert_wrong("sample 1 $1 00000000", "not 0 or 1");
}
