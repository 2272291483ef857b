mod marks;
mod outputs;

use super::*;
use crate::ChannelBox;

fn played(script: impl AsRef<[u8]>) -> Vec<String> {
    let mut output = Vec::new();
    let mut device = ChannelBox::default();
    play(&mut device, script.as_ref(), &mut output).expect("no failure in memory");
    let output = String::from_utf8(output).expect("plain characters");
    output.lines().map(str::to_string).collect()
}

#[test]
fn each_call_answers_its_line() {
    let script = "power -\nread 0 a5A5a5\nwrite d 01\nsample 1 1 3f800000\n\
                  sample 17 0 7f800000\ntick\ntick 3\nstore 2\nread 12 00000000\n\
                  lookup 2 3F800000\n";
    let expected = [
        "power 10",
        "read 0 2 0 1 013fa5",
        "write 0 0 0 1",
        "sample 0",
        "sample 8",
        "tick 0",
        "tick 0",
        "store 14 0 a5a5",
        "read 0 4 1 1 00000001",
        "lookup 0 00000000",
    ];
    assert_eq!(played(script), expected);
}

/// Change 1: a refused lookup gives 0, and a Real has lowercase digits.
#[test]
fn a_lookup_answers_its_number_and_a_real() {
    let table = format!("00000000ABCDEF01{}", "00".repeat(72));
    let script = format!(
        "write d 01\nwrite 13d {table}\nlookup 2 80000000\nlookup 1 00000000\n\
         lookup 0 7f800000\nlookup 3 00000000\nlookup 255 00000000\n\
         lookup 002 7FC00000\nlookup 1 ff800000\n"
    );
    let expected = [
        "lookup 0 abcdef01",
        "lookup 0 00000000",
        "lookup 15 00000000",
        "lookup 15 00000000",
        "lookup 15 00000000",
        "lookup 7 00000000",
        "lookup 7 00000000",
    ];
    assert_eq!(played(script)[2..], expected);
}

#[test]
fn before_the_first_power_the_box_is_that_of_a_refused_one() {
    let rest = "read f 000000000000000000000000\ntick\nread f 000000000000000000000000\n";
    let powered = played(format!("power -\n{rest}"));
    assert_eq!(played(rest), powered[1..]);
}

#[test]
fn comments_and_blank_lines_pass() {
    let script = "# a comment\n\n  \t\n  tick  # one\r\ntick 2# two\n#tick";
    assert_eq!(played(script), ["tick 0", "tick 0"]);
}

#[test]
fn an_empty_buffer_is_a_dash() {
    assert_eq!(
        played("read 0 -\nstore 0\n"),
        ["read 5 0 0 1 -", "store 14 0 -"]
    );
}

#[test]
fn store_lends_up_to_4096_bytes_of_a5() {
    let answers = played("store 4096\nstore 885\nstore 4097\n");
    let rest = "a5".repeat(4096 - 886);
    assert!(answers[0].starts_with("store 0 886 01") && answers[0].ends_with(&rest));
    assert_eq!(answers[0].len(), "store 0 886 ".len() + 2 * 4096);
    assert_eq!(answers[1], format!("store 14 0 {}", "a5".repeat(885)));
    assert_eq!(answers[2], "error 3: number too large");
}

/// A wrong line gets its sentence, and the line after it is played.
fn assert_wrong(line: &str, why: &str) {
    let script = format!("\n{line}\ntick\n");
    let expected = [format!("error 2: {why}"), "tick 0".to_string()];
    assert_eq!(played(script), expected, "{line}");
}

#[test]
fn wrong_lines_get_their_sentence() {
    for (line, why) in [
        ("jump", "unknown call"),
        ("Tick", "unknown call"),
        ("0 1", "unknown call"),
        ("power", "wrong number of words"),
        ("power 00 00", "wrong number of words"),
        ("tick 1 2", "wrong number of words"),
        ("power 0g", "not a hexadecimal string"),
        ("power 0x00", "not a hexadecimal string"),
        ("power 0", "odd number of hexadecimal digits"),
        ("read - 00", "not a hexadecimal string"),
        ("read 10000 00", "number too large"),
        ("read 0 000", "odd number of hexadecimal digits"),
        ("write zz 000", "not a hexadecimal string"),
        ("store 4097", "number too large"),
        ("store +5", "not a decimal number"),
        ("tick 4294967296", "number too large"),
        ("tick 99999999999999999999999999", "number too large"),
        ("tick one", "not a decimal number"),
        ("Lookup 1 00000000", "unknown call"),
        ("lookup", "wrong number of words"),
        ("lookup 1", "wrong number of words"),
        ("lookup 1 00000000 0", "wrong number of words"),
        ("lookup 256 0", "number too large"),
        ("lookup -1 0", "not a decimal number"),
        ("lookup a 0", "not a decimal number"),
        ("lookup 1 0000000", "not a hexadecimal string"),
        ("lookup 1 000000000", "not a hexadecimal string"),
        ("lookup 1 -", "not a hexadecimal string"),
    ] {
        assert_wrong(line, why);
    }
}

/// Change 3: the words of a sample, from left to right.
#[test]
fn wrong_samples_get_their_sentence() {
    for (line, why) in [
        ("sample", "wrong number of words"),
        ("sample 1", "wrong number of words"),
        ("sample 1 1", "wrong number of words"),
        ("sample 1 00000000", "wrong number of words"),
        ("sample 1 1 00000000 0", "wrong number of words"),
        ("Sample 1 1 00000000", "unknown call"),
        ("sample 256 1 00000000", "number too large"),
        ("sample -1 1 00000000", "not a decimal number"),
        ("sample a 1 00000000", "not a decimal number"),
        ("sample 1 2 00000000", "not 0 or 1"),
        ("sample 1 01 00000000", "not 0 or 1"),
        ("sample 1 00000000 1", "not 0 or 1"),
        ("sample 1 1 3f80000", "not a hexadecimal string"),
        ("sample 1 1 3f8000000", "not a hexadecimal string"),
        ("sample 1 1 -", "not a hexadecimal string"),
        ("sample 300 2 x", "number too large"),
        ("sample x 2 x", "not a decimal number"),
        ("sample 1 2 x", "not 0 or 1"),
    ] {
        assert_wrong(line, why);
    }
}

/// Change 3: "The two calls become one". Of the two, no name is known.
#[test]
fn a_level_alone_and_a_current_alone_are_unknown_calls() {
    for line in [
        "level 1 1",
        "level",
        "level x",
        "level 1 1 00000000",
        "current 1 3f800000",
        "current",
        "current 300 x",
        "current 1 1 3f800000",
    ] {
        let script = format!("{line}\nread 10 00\nread 13 00000000\n");
        let expected = [
            "error 1: unknown call",
            "read 0 1 0 1 00",
            "read 0 4 0 1 00000000",
        ];
        assert_eq!(played(script), expected, "{line}");
    }
}

#[test]
fn a_wrong_line_changes_nothing() {
    let reads = "read f 000000000000000000000000\n";
    let wrong = format!("read f 00 00\nread f 0\n{reads}");
    assert_eq!(played(wrong)[2], played(reads)[0]);
}

#[test]
fn long_numbers_with_leading_zeros_stand() {
    assert_eq!(
        played("read 0000000 0000\nsample 0001 1 00000000\ntick 0000\n"),
        ["read 0 2 0 1 013f", "sample 0", "tick 0"]
    );
}

#[test]
fn a_line_may_have_16384_bytes() {
    assert_eq!(LONGEST_LINE, 16_384);
    let longest = format!("tick{}", " ".repeat(LONGEST_LINE - 4));
    assert_eq!(played(&longest), ["tick 0"]);
    let longer = format!("{longest} \n#{}\ntick", "x".repeat(100_000));
    let expected = ["error 1: line too long", "error 2: line too long", "tick 0"];
    assert_eq!(played(longer), expected);
}

#[test]
fn bytes_that_are_no_characters_do_no_harm() {
    assert_eq!(
        played(b"\xFF\ntick # \xFF\npower \xFF\xFF\n"),
        [
            "error 1: unknown call",
            "tick 0",
            "error 3: not a hexadecimal string"
        ]
    );
}
