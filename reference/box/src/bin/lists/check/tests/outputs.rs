//! "Both lists end with the same [...] output for c."

use super::leaky::{files, Leak, Leaky};
use super::*;

/// The bit of channel 1 to 16 in a word of outputs, made another.
fn with_other_bit(word: &str, channel: usize) -> String {
    let bits = u16::from_str_radix(word, 16).expect("four digits");
    format!("{:04x}", bits ^ 1 << (channel - 1))
}

#[test]
fn a_planted_output_is_found_in_the_channels_bit_alone() {
    let mut files = Files::made(10);
    let line = files.second_lines(3, |pair| &pair.outputs)[0];
    let channel = Own::read(&files.own).expect("well formed").pairs[2].channel;
    for other in (1..=16).filter(|&other| other != channel) {
        files.plant(line, 1, |word| with_other_bit(word, other));
    }
    assert!(files.check().is_ok());
    files.plant(line, 1, |word| with_other_bit(word, channel));
    files.assert_found(&[
        "seed 77, pair 3",
        "output at the end, the outputs (",
        "outputs ",
    ]);
}

#[test]
fn what_is_no_word_is_found() {
    for wrong in ["0", "00000", "000g", "000A", "+000"] {
        let mut files = Files::made(2);
        let line = files.second_lines(2, |pair| &pair.outputs)[0];
        files.plant(line, 1, |_| wrong.to_string());
        files.assert_found(&["seed 77, pair 2", "output at the end", "which is no word"]);
    }
}

/// The outputs stand after the reads of c's registers, beside the store.
#[test]
fn the_outputs_come_after_the_last_read_of_c() {
    let files = Files::made(5);
    for pair in 1..=5 {
        let after = files.second_lines(pair, |pair| &pair.end).into_iter().max();
        let outputs = files.second_lines(pair, |pair| &pair.outputs);
        assert_eq!(Some(outputs[0]), after.map(|line| line + 2));
    }
}

/// Every register of c is the same in both lists, and only its Output is not.
#[test]
fn a_leak_that_only_the_output_shows_is_found() {
    for (leak, stranger) in [(Leak::Output, 0x20), (Leak::OutputMirrored, 0x100)] {
        let config = format!(
            "write d 01, write 9 00100000, write {:x} 00100000",
            stranger + 9
        );
        let lists = [0x80, 0x00].map(|byte| format!("{config}, write {stranger:x} {byte:02x}"));
        let files = files(leak, &lists[0], &lists[1]);
        files.assert_found(&["output at the end, the outputs ("]);
    }
}

#[test]
fn each_leak_of_outputs_is_found_in_drawn_pairs() {
    for leak in [Leak::Output, Leak::OutputMirrored] {
        let files = Files::of(made(50), || Leaky::new(leak));
        files.assert_found(&["seed 77, pair ", "output at the end, the outputs ("]);
    }
}

/// A box that never has an output on shows nothing of it.
#[test]
fn outputs_that_are_never_on_show_nothing() {
    let mut files = Files::made(20);
    let off = |answers: &str| {
        let lines = answers
            .lines()
            .map(|line| match line.starts_with("outputs ") {
                true => "outputs 0000",
                false => line,
            });
        lines.collect::<Vec<&str>>().join("\n")
    };
    files.first_answers = off(&files.first_answers);
    files.second_answers = off(&files.second_answers);
    files.assert_found(&["seed 77: nothing is shown", "output was never on"]);
}

#[test]
fn in_many_pairs_c_ends_with_its_output_on() {
    let done = Files::made(100).check().expect("all the same");
    let (_, after) = done.split_once("which was on in ").expect("the part");
    let (count, _) = after.split_once(';').expect("its end");
    let count: u32 = count.parse().expect("a number");
    assert!((10..=70).contains(&count), "{done}");
}
