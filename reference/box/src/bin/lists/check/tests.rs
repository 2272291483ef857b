mod hours;
mod leaks;
mod leaky;
mod outputs;
mod samples;

use super::*;
use crate::pair::Pair;
use crate::record::Record;
use reference_box::player::{self, Device};
use reference_box::ChannelBox;

const SEED: u64 = 77;

/// The files of some pairs, with the answers of the model or of another box.
struct Files {
    own: String,
    first_calls: String,
    second_calls: String,
    first_answers: String,
    second_answers: String,
}

fn text(bytes: Vec<u8>) -> String {
    String::from_utf8(bytes).expect("plain characters")
}

fn played(mut device: impl Device, script: &str) -> String {
    let mut answers = Vec::new();
    player::play(&mut device, script.as_bytes(), &mut answers).expect("no failure in memory");
    text(answers)
}

/// Some pairs, written.
fn made(pairs: u64) -> Record<Vec<u8>> {
    let record = Record::new(Vec::new(), Vec::new(), Vec::new());
    record.make(SEED, pairs).expect("the hypotheses hold")
}

impl Files {
    /// Each list is played on a box of its own.
    fn of<D: Device>(record: Record<Vec<u8>>, device: impl Fn() -> D) -> Files {
        let [first_calls, second_calls, own] = record.into_files().map(text);
        Files {
            own,
            first_answers: played(device(), &first_calls),
            second_answers: played(device(), &second_calls),
            first_calls,
            second_calls,
        }
    }

    /// One pair, whether or not `make` would draw it.
    fn of_pair<D: Device>(pair: &Pair, device: impl Fn() -> D) -> Files {
        let mut record = Record::new(Vec::new(), Vec::new(), Vec::new());
        record.write(1, pair).expect("no failure in memory");
        let mut files = Files::of(record, device);
        files.own.insert_str(0, "seed 77 pairs 1\n");
        files
    }

    fn made(pairs: u64) -> Files {
        Files::of(made(pairs), ChannelBox::default)
    }

    fn check(&self) -> Result<String, String> {
        let played = Played {
            first: List::new("first", &self.first_calls, &self.first_answers)?,
            second: List::new("second", &self.second_calls, &self.second_answers)?,
        };
        played.check(&Own::read(&self.own)?)
    }

    /// The second list's lines that `own` has for a pair under a word.
    fn second_lines(&self, pair: usize, lines: fn(&Matched) -> &Vec<Match>) -> Vec<usize> {
        let own = Own::read(&self.own).expect("well formed");
        let matches = lines(&own.pairs[pair - 1]).iter();
        matches.map(|(_, second)| *second).collect()
    }

    /// Changes the word at some place of an answer to the second list.
    fn plant(&mut self, line: usize, place: usize, change: impl Fn(&str) -> String) {
        let mut lines: Vec<String> = self.second_answers.lines().map(str::to_string).collect();
        let mut words: Vec<String> = lines[line - 1].split(' ').map(str::to_string).collect();
        words[place] = change(&words[place]);
        lines[line - 1] = words.join(" ");
        self.second_answers = lines.join("\n");
    }

    /// Whether a planted change is found, and named by all these words.
    fn assert_found(&self, words: &[&str]) {
        let why = self.check().expect_err("a difference is there");
        for word in words {
            assert!(why.contains(word), "{word}: {why}");
        }
    }
}

/// Another hexadecimal digit at some place.
fn other_digit(word: &str, place: usize) -> String {
    let mut digits: Vec<char> = word.chars().collect();
    digits[place] = if digits[place] == '7' { '8' } else { '7' };
    digits.into_iter().collect()
}

#[test]
fn the_model_passes() {
    let done = Files::made(300).check().expect("all the same");
    assert!(done.starts_with("300 pairs (seed 77): "), "{done}");
    assert!(done.contains(" and 4500 end registers the same"), "{done}");
}

#[test]
fn a_planted_buffer_is_found_and_named() {
    let mut files = Files::made(10);
    let lines = files.second_lines(4, |pair| &pair.own);
    let calls: Vec<&str> = files.second_calls.lines().collect();
    let is_read = |line: &usize| calls[line - 1].starts_with("read ") && calls[line - 1].len() > 9;
    let (number, line) = (1..)
        .zip(lines)
        .find(|(_, line)| is_read(line))
        .expect("an own read");
    let call = in_words(calls[line - 1]);
    let channel = Own::read(&files.own).expect("well formed").pairs[3].channel;
    files.plant(line, 5, |buffer| other_digit(buffer, 1));
    files.assert_found(&[
        &format!("seed 77, pair 4, channel {channel}: own call {number}, {call}"),
        &format!("{line} of second.calls"),
    ]);
}

#[test]
fn a_planted_number_or_length_is_found() {
    for place in [1, 2] {
        let mut files = Files::made(3);
        let line = files.second_lines(2, |pair| &pair.end)[3];
        files.plant(line, place, |_| "9".to_string());
        files.assert_found(&["seed 77, pair 2", "register at the end", "OutCurrent"]);
    }
}

#[test]
fn a_planted_kept_value_is_found_in_the_channels_entry_alone() {
    let mut files = Files::made(10);
    let line = files.second_lines(3, |pair| &pair.kept)[0];
    let channel = Own::read(&files.own).expect("well formed").pairs[2].channel;
    let entry = |channel: usize| 2 * (10 + 44 * (channel - 1));
    files.plant(line, 3, |image| other_digit(image, entry(channel % 16 + 1)));
    assert!(files.check().is_ok());
    files.plant(line, 3, |image| other_digit(image, entry(channel) + 72));
    files.assert_found(&["pair 3", "kept values, the store", "Counter: "]);
}

#[test]
fn the_two_error_bits_and_strangers_registers_are_free() {
    let mut files = Files::made(10);
    let own = files.second_lines(1, |pair| &pair.end)[0];
    files.plant(own, 3, |bit| other_digit(bit, 0));
    files.plant(own, 4, |bit| other_digit(bit, 0));
    let other = files.second_lines(1, |pair| &pair.other)[0];
    files.plant(other, 5, |buffer| other_digit(buffer, 0));
    assert!(files.check().is_ok());
}

#[test]
fn a_refused_power_up_is_found() {
    let mut files = Files::made(2);
    let line = files.second_lines(2, |pair| &pair.power)[0];
    files.plant(line, 1, |_| "13".to_string());
    files.assert_found(&["seed 77, pair 2", "the power-up", "number 13"]);
}

#[test]
fn a_register_refused_in_both_lists_shows_nothing() {
    let mut files = Files::made(1);
    let line = files.second_lines(1, |pair| &pair.end)[0];
    files.plant(line, 1, |_| "5".to_string());
    std::mem::swap(&mut files.first_answers, &mut files.second_answers);
    std::mem::swap(&mut files.first_calls, &mut files.second_calls);
    files.own = swapped(&files.own);
    let line = files.second_lines(1, |pair| &pair.end)[0];
    files.plant(line, 1, |_| "5".to_string());
    files.assert_found(&["pair 1", "FlagReg", "where 0 is due"]);
}

/// Change 2: the further ticks show c's quarters.
#[test]
fn a_planted_quarter_is_found() {
    for place in [2, 4, 6, 8, 10] {
        let mut files = Files::made(3);
        let line = files.second_lines(2, |pair| &pair.quarters)[place];
        files.plant(line, 5, |buffer| other_digit(buffer, 1));
        files.assert_found(&["seed 77, pair 2", "left-over quarters", "OperatingTime"]);
    }
}

#[test]
fn in_most_pairs_the_further_ticks_move_operating_time() {
    let done = Files::made(100).check().expect("all the same");
    let (before, _) = done.rsplit_once("; in ").expect("the last part");
    let (_, end) = before.rsplit_once("; in ").expect("the part before");
    let (count, rest) = end.split_once(' ').expect("a number");
    assert_eq!(
        rest,
        "the channel's OperatingTime moved, by the same, in four ticks after the end"
    );
    let count: u32 = count.parse().expect("a number");
    assert!((60..=100).contains(&count), "{done}");
}

/// A box whose OperatingTime stands still shows no quarters.
#[test]
fn operating_times_that_stand_still_show_nothing() {
    let mut files = Files::made(2);
    let pairs = Own::read(&files.own).expect("well formed").pairs;
    for pair in pairs {
        for place in [2, 4, 6, 8, 10] {
            let (first, second) = pair.quarters[place];
            files.plant(second, 5, |buffer| format!("00000000{}", &buffer[8..]));
            let answers = std::mem::take(&mut files.second_answers);
            files.second_answers = std::mem::take(&mut files.first_answers);
            files.plant(first, 5, |buffer| format!("00000000{}", &buffer[8..]));
            files.first_answers = std::mem::replace(&mut files.second_answers, answers);
        }
    }
    files.assert_found(&["seed 77: nothing is shown", "never moved"]);
}

/// `own` with the lists changing places.
fn swapped(own: &str) -> String {
    let swap = |line: &str| {
        let words: Vec<&str> = line.split(' ').collect();
        match words[..] {
            ["pair" | "seed", ..] => line.to_string(),
            [what, first, second, count] => format!("{what} {second} {first} {count}"),
            _ => String::new(),
        }
    };
    let lines = own.lines().map(swap).filter(|line| !line.is_empty());
    lines.collect::<Vec<String>>().join("\n")
}

#[test]
fn answers_must_be_as_many_as_calls_and_of_their_kind() {
    let mut files = Files::made(2);
    let whole = files.second_answers.clone();
    let end = whole.trim_end().rfind('\n').expect("many lines");
    files.second_answers = whole[..end].to_string();
    files.assert_found(&["answers to", "calls of the second list"]);
    files.second_answers = whole.clone() + "tick 0\n";
    files.assert_found(&["answers to", "calls of the second list"]);
    files.second_answers = whole.replacen("power 0", "error 1: unknown call", 1);
    files.assert_found(&["line 1 of the second list", "the power-up", "error 1"]);
    files.second_answers = String::new();
    files.first_answers = String::new();
    files.assert_found(&["0 answers to"]);
}

#[test]
fn a_run_in_which_no_stranger_differs_fails() {
    let mut pair = Pair::draw(SEED, false);
    pair.second = pair.first.clone();
    let files = Files::of_pair(&pair, ChannelBox::default);
    files.assert_found(&["seed 77: nothing is shown"]);
    Files::made(0).assert_found(&["nothing is shown"]);
}

#[test]
fn a_cut_or_strange_own_file_fails() {
    let mut files = Files::made(3);
    let whole = files.own.clone();
    files.own = whole[..whole.rfind("pair ").expect("three pairs")].to_string();
    files.assert_found(&["own: 3 whole pairs are not there"]);
    files.own = whole.replacen("\nown ", "\nowns ", 1);
    files.assert_found(&["not understood"]);
    files.own = whole.replacen("\nend ", "\nend 9", 1);
    files.assert_found(&["pair 1"]);
}
