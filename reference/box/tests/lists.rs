//! The program `lists` with the model's player.

use std::fs::{self, File};
use std::path::{Path, PathBuf};
use std::process::{Command, Output};

/// A directory of its own for a test.
fn directory(name: &str) -> PathBuf {
    let directory = Path::new(env!("CARGO_TARGET_TMPDIR")).join(name);
    let _ = fs::remove_dir_all(&directory);
    directory
}

fn lists(arguments: &[&str]) -> Output {
    let mut lists = Command::new(env!("CARGO_BIN_EXE_lists"));
    lists.args(arguments).output().expect("lists runs")
}

fn play(directory: &Path, list: &str) {
    let open = |end: &str| directory.join(format!("{list}.{end}"));
    let status = Command::new(env!("CARGO_BIN_EXE_play"))
        .stdin(File::open(open("calls")).expect("made"))
        .stdout(File::create(open("answers")).expect("a new file"))
        .status()
        .expect("play runs");
    assert!(status.success());
}

fn text(bytes: &[u8]) -> String {
    String::from_utf8(bytes.to_vec()).expect("plain characters")
}

#[test]
fn the_models_player_passes_and_a_planted_difference_does_not() {
    let directory = directory("lists");
    let path = directory.to_str().expect("plain characters");
    assert!(lists(&["make", "31", "300", path]).status.success());
    play(&directory, "first");
    play(&directory, "second");
    let done = lists(&["check", path]);
    assert!(done.status.success(), "{}", text(&done.stderr));
    let line = text(&done.stdout);
    assert!(
        line.starts_with("two lists: 300 pairs (seed 31): "),
        "{line}"
    );
    assert_eq!(line.lines().count(), 1);

    let answers = directory.join("second.answers");
    let whole = fs::read_to_string(&answers).expect("played");
    fs::write(&answers, whole.replacen("power 0", "power 13", 1)).expect("written");
    let failed = lists(&["check", path]);
    assert_eq!(failed.status.code(), Some(1));
    let why = text(&failed.stderr);
    assert!(why.contains("seed 31, pair 1, channel "), "{why}");
}

#[test]
fn missing_answers_fail_and_wrong_words_get_the_usage() {
    let directory = directory("unplayed");
    let path = directory.to_str().expect("plain characters");
    assert!(lists(&["make", "1", "1", path]).status.success());
    assert_eq!(lists(&["check", path]).status.code(), Some(1));
    assert_eq!(lists(&["check"]).status.code(), Some(2));
    assert_eq!(lists(&["make", "x", "1", path]).status.code(), Some(2));
}
