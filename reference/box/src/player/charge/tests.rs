//! Lines of charges, as they are played.

use crate::player::play;
use crate::ChannelBox;

fn played(script: &str) -> Vec<String> {
    let mut output = Vec::new();
    let mut device = ChannelBox::default();
    play(&mut device, script.as_bytes(), &mut output).expect("no failure in memory");
    let output = String::from_utf8(output).expect("plain characters");
    output.lines().map(str::to_string).collect()
}

#[test]
fn a_charge_answers_its_number_and_cents() {
    for (line, answer) in [
        ("charge 00000000 00000001 1 100", "charge 0 1"),
        ("charge 7fffffff 80000000 10 49", "charge 0 5"),
        ("charge 7FFFFFFF 80000000 10 44", "charge 0 4"),
        ("charge ffffFFFF 00000000 0001 000100", "charge 0 1"),
        ("charge 00000005 00000004 1 100", "charge 0 4294967295"),
        (
            "charge 00000000 00000019 1 10 100 20 200 300",
            "charge 0 45",
        ),
        (
            "charge 00000001 00000000 10000 18446744073709551615 100000 0",
            "charge 0 42949672950000000",
        ),
        ("charge 00000000 00000001 0 100", "charge 16 0"),
        ("charge 00000000 00000001 4294967295", "charge 16 0"),
        ("charge 00000000 00000001 1", "charge 17 0"),
        ("charge 00000000 00000001 1 100001", "charge 17 0"),
        ("charge 00000000 00000001 1 4294967295", "charge 17 0"),
        ("charge 00000000 00000001 1 1 1 1 1 1", "charge 17 0"),
        ("charge 00000000 00000001 1 1 1 2 1 3 1 4", "charge 0 0"),
        (
            "charge 00000000 00000001 1 1 1 2 1 3 1 4 1 5",
            "charge 17 0",
        ),
        (
            "charge\t00000000 00000001 1 1 1 2 1 3 1 4 1 5 1 6 1 7 1 8 # eight",
            "charge 17 0",
        ),
    ] {
        assert_eq!(played(line), [answer], "{line}");
    }
}

/// A wrong line gets its sentence, and the line after it is played.
fn assert_wrong(rows: &[(&str, &str)]) {
    for (line, why) in rows {
        let expected = [format!("error 2: {why}"), "tick 0".to_string()];
        assert_eq!(played(&format!("\n{line}\ntick\n")), expected, "{line}");
    }
}

/// The number of words is asked before the words themselves.
#[test]
fn a_wrong_number_of_words_comes_first() {
    assert_wrong(&[
        ("Charge 00000000 00000001 1 1", "unknown call"),
        ("charges 00000000 00000001 1 1", "unknown call"),
        ("charge", "wrong number of words"),
        ("charge 00000000", "wrong number of words"),
        ("charge x 00000001", "wrong number of words"),
        ("charge x x x x x", "wrong number of words"),
        ("charge 00000000 00000001 1 1 1", "wrong number of words"),
        (
            "charge 00000000 00000001 1 1 1 2 1 3 1 4 1 5 1 6 1 7 1 8 8",
            "wrong number of words",
        ),
        (
            "charge 00000000 00000001 1 1 1 2 1 3 1 4 1 5 1 6 1 7 1 8 8 8",
            "wrong number of words",
        ),
    ]);
}

/// Then the words from left to right.
#[test]
fn wrong_words_get_their_sentence() {
    assert_wrong(&[
        ("charge 0 00000001 1 1", "not a hexadecimal string"),
        ("charge - 00000001 1 1", "not a hexadecimal string"),
        ("charge 000000000 00000001 1 1", "not a hexadecimal string"),
        ("charge 00000000 1 1 1", "not a hexadecimal string"),
        ("charge 00000000 0x000001 1 1", "not a hexadecimal string"),
        ("charge 00000000 0000000g x x", "not a hexadecimal string"),
        ("charge 00000000 00000001 a 1", "not a decimal number"),
        ("charge 00000000 00000001 - 1", "not a decimal number"),
        ("charge 00000000 00000001 +1 1", "not a decimal number"),
        ("charge 00000000 00000001 4294967296 x", "number too large"),
        ("charge 00000000 00000001 1 4294967296", "number too large"),
        ("charge 00000000 00000001 1 -", "not a decimal number"),
        ("charge 00000000 00000001 1 1.5", "not a decimal number"),
        (
            "charge 00000000 00000001 1 x 4294967296 1",
            "not a decimal number",
        ),
        (
            "charge 00000000 00000001 1 1 4294967296 x",
            "number too large",
        ),
        (
            "charge 00000000 00000001 1 1 x 4294967296",
            "not a decimal number",
        ),
        (
            "charge 00000000 00000001 1 18446744073709551616 x 1",
            "number too large",
        ),
        (
            "charge 00000000 00000001 1 184467440737095516150 1 1",
            "number too large",
        ),
        (
            "charge 00000000 00000001 1 18446744073709551615 1 x",
            "not a decimal number",
        ),
    ]);
}

/// A charge changes nothing: the watchdog runs on, and no bit moves.
#[test]
fn a_charge_is_no_call_on_the_box() {
    let before = "write d 01\nwrite a 3e800000\ntick 3\n";
    let after = "tick 4\nread 8 00000000\nread f 000000000000000000000000\n";
    let charges = "charge 00000000 00000001 1 100\ncharge 00000000 00000001 0\n";
    let without = played(&format!("{before}{after}"));
    let with = played(&format!("{before}{charges}{after}"));
    assert_eq!(with[3..5], ["charge 0 1", "charge 16 0"]);
    assert_eq!([&with[..3], &with[5..]].concat(), without);
}
