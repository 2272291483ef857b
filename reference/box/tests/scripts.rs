//! The two programs together: generated scripts play, and reach every answer.

use std::collections::BTreeSet;
use std::io::Write;
use std::process::{Command, Stdio};

const KINDS: &[&str] = &[
    "registers",
    "ticks",
    "watchdog",
    "feedback",
    "currents",
    "errors",
    "images",
    "refusals",
    "reset",
    "ends",
    "save",
    "tables",
    "runs",
    "samples",
    "charges",
    "hours",
    "mixed",
];

fn generated(seed: u32, calls: u32, kind: &str) -> String {
    let output = Command::new(env!("CARGO_BIN_EXE_generate"))
        .args([&seed.to_string(), &calls.to_string(), kind])
        .output()
        .expect("generate runs");
    assert!(output.status.success());
    String::from_utf8(output.stdout).expect("plain characters")
}

fn played(script: &str) -> String {
    let mut play = Command::new(env!("CARGO_BIN_EXE_play"))
        .stdin(Stdio::piped())
        .stdout(Stdio::piped())
        .spawn()
        .expect("play runs");
    let mut input = play.stdin.take().expect("a pipe");
    let script = script.to_string();
    let writer = std::thread::spawn(move || input.write_all(script.as_bytes()));
    let output = play.wait_with_output().expect("play ends");
    writer.join().expect("no panic").expect("play reads all");
    assert!(output.status.success());
    String::from_utf8(output.stdout).expect("plain characters")
}

/// The name of a call and the number of its answer.
fn name_and_number(line: &str) -> (String, String) {
    let mut words = line.split(' ').map(str::to_string);
    let mut word = || words.next().expect("two words at least");
    (word(), word())
}

#[test]
fn every_kind_plays_line_for_line() {
    for kind in KINDS {
        let script = generated(1, 1000, kind);
        let answers = played(&script);
        assert_eq!(script.lines().count(), answers.lines().count(), "{kind}");
        for (call, answer) in script.lines().zip(answers.lines()) {
            let called = call.split(' ').next();
            assert_eq!(called, answer.split(' ').next(), "{kind}: {call}");
        }
    }
}

#[test]
fn the_scripts_reach_every_number_of_every_call() {
    let mut seen = BTreeSet::new();
    for seed in 1..=6 {
        let answers = played(&generated(seed, 3000, "refusals"));
        // The word of `outputs` is no number.
        let numbered = answers.lines().filter(|line| !line.starts_with("outputs "));
        seen.extend(numbered.map(name_and_number));
    }
    let expected: [(&str, &[u32]); 9] = [
        ("power", &[0, 10, 11, 12, 13]),
        ("store", &[0, 14]),
        ("read", &[0, 1, 2, 5]),
        ("write", &[0, 1, 2, 3, 4, 6, 7]),
        ("sample", &[0, 8, 9]),
        ("tick", &[0]),
        ("lookup", &[0, 7, 15]),
        ("minute", &[0, 18]),
        ("windows", &[0, 8, 18, 19]),
    ];
    let expected: BTreeSet<(String, String)> = expected
        .iter()
        .flat_map(|(name, numbers)| numbers.iter().map(move |number| (name, number)))
        .map(|(name, number)| (name.to_string(), number.to_string()))
        .collect();
    assert_eq!(seen, expected);
}

#[test]
fn the_scripts_of_errors_reach_every_error_bit() {
    let mut his = 0;
    for (seed, kind) in [(1, "errors"), (2, "currents"), (3, "feedback")] {
        let script = generated(seed, 4000, kind);
        let answers = played(&script);
        for (call, answer) in script.lines().zip(answers.lines()) {
            his |= his_of_ch_error(call, answer).unwrap_or(0);
        }
    }
    assert_eq!(his, 0x7F);
}

/// His, where the call is an accepted read of a digital ChError.
fn his_of_ch_error(call: &str, answer: &str) -> Option<u8> {
    let swno = call.strip_prefix("read ")?.split(' ').next()?;
    let digital = swno.len() >= 2 && swno.ends_with('f') && swno != "11f";
    let buffer = answer.strip_prefix("read 0 4 ")?.split(' ').nth(2)?;
    digital.then(|| u8::from_str_radix(&buffer[..2], 16).ok())?
}

#[test]
fn a_store_that_is_powered_up_again_is_stored_as_the_same_bytes() {
    for kind in ["images", "tables"] {
        let script = generated(9, 600, kind) + "store 886\n";
        let answers = played(&script);
        let stored = answers.lines().last().expect("a last line");
        let image = stored.strip_prefix("store 0 886 ").expect("done");
        let again = played(&format!("power {image}\nstore 886\n"));
        assert_eq!(again, format!("power 0\n{stored}\n"));
    }
}

/// A line for each that is no comment and not blank.
#[test]
fn the_scripts_of_the_format_are_answered_line_for_line() {
    let script = include_str!("../scripts/format.calls");
    let calls = script.lines().map(|line| line.split('#').next());
    let calls = calls.filter(|line| line.is_some_and(|line| !line.trim().is_empty()));
    let answers = played(script);
    assert_eq!(calls.count(), answers.lines().count());
    for answer in [
        "charge 0 0",
        "charge 16 0",
        "charge 17 0",
        "minute 0",
        "minute 18",
        "windows 0",
        "windows 8",
        "windows 18",
        "windows 19",
        "outputs 0000",
        "outputs 0001",
        "outputs 8103",
        "outputs 8102",
        "outputs 8100",
        "outputs 0100",
    ] {
        assert!(answers.lines().any(|line| line == answer), "{answer}");
    }
}

/// Change 6: every number of minutes and windows within one script.
#[test]
fn the_scripts_of_hours_reach_every_number_of_theirs() {
    for seed in 1..=3 {
        let answers = played(&generated(seed, 1700, "hours"));
        let seen: BTreeSet<_> = answers.lines().map(name_and_number).collect();
        let minutes = ["0", "18"].map(|number| ("minute", number));
        let windows = ["0", "8", "18", "19"].map(|number| ("windows", number));
        for (name, number) in minutes.into_iter().chain(windows) {
            let what = (name.to_string(), number.to_string());
            assert!(seen.contains(&what), "seed {seed}: {name} {number}");
        }
    }
}

/// Change 4: every number of a charge within one script.
#[test]
fn the_scripts_of_charges_reach_every_number_of_theirs() {
    for seed in 1..=3 {
        let answers = played(&generated(seed, 600, "charges"));
        let seen: BTreeSet<_> = answers.lines().map(name_and_number).collect();
        for number in ["0", "16", "17"] {
            let what = ("charge".to_string(), number.to_string());
            assert!(seen.contains(&what), "seed {seed}: {number}");
        }
    }
}

/// Change 1: within a script or two, the data channel's corners are reached.
#[test]
fn the_scripts_of_tables_reach_every_number_of_theirs() {
    let mut seen = BTreeSet::new();
    for seed in 1..=3 {
        let script = generated(seed, 1700, "tables");
        let answers = played(&script);
        for (call, answer) in script.lines().zip(answers.lines()) {
            let number = answer.split(' ').nth(1).expect("a number");
            seen.insert(format!("{} {number}", subject(call)));
            seen.extend(answer.strip_prefix("lookup 0 ").map(str::to_string));
        }
    }
    let expected: [(&str, &[u32]); 14] = [
        ("power 717", &[0, 11, 12, 13]),
        ("power 886", &[0, 11, 12, 13]),
        ("power 0", &[10]),
        ("power 716", &[10]),
        ("power 718", &[10]),
        ("power 885", &[10]),
        ("power 887", &[10]),
        ("store 885", &[14]),
        ("store 886", &[0]),
        ("store 887", &[0]),
        ("read 13", &[0, 2, 5]),
        ("write 13", &[0, 2, 4, 6, 7]),
        ("write 12", &[2]),
        ("lookup", &[0, 7, 15]),
    ];
    for (subject, numbers) in expected {
        for number in numbers {
            let what = format!("{subject} {number}");
            assert!(seen.contains(&what), "{what}");
        }
    }
    for real in ["7fc00000", "7f800000", "ff800000", "80000000"] {
        assert!(seen.contains(real), "{real}");
    }
}

/// A call's name, with what it is asked first by.
fn subject(call: &str) -> String {
    let words: Vec<&str> = call.split(' ').collect();
    match words[..] {
        ["power", "-"] => "power 0".to_string(),
        ["power", image] => format!("power {}", image.len() / 2),
        ["store", length] => format!("store {length}"),
        [name @ ("read" | "write"), swno, _] => format!("{name} {}", &swno[..swno.len() - 1]),
        [name, ..] => name.to_string(),
        [] => String::new(),
    }
}
