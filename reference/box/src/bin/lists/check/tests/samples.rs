//! Change 3: boxes in which a stranger's sample reaches c. Each is found.

use super::leaky::{files, Leak, Leaky};
use super::*;

/// c's own samples are compared, by the number.
#[test]
fn a_planted_number_of_an_own_sample_is_found() {
    let mut files = Files::made(10);
    let calls: Vec<&str> = files.second_calls.lines().collect();
    let own = |pair: usize| files.second_lines(pair, |pair| &pair.own);
    let is_sample = |line: &usize| calls[line - 1].starts_with("sample ");
    let (pair, line) = (1..=10)
        .find_map(|pair| Some((pair, own(pair).into_iter().find(is_sample)?)))
        .expect("an own sample");
    let call = in_words(calls[line - 1]);
    assert!(call.starts_with("the sample for channel "), "{call}");
    files.plant(line, 1, |number| match number {
        "9" => "0".to_string(),
        _ => "9".to_string(),
    });
    files.assert_found(&[&format!("pair {pair}, "), "own call ", &call, "number 9"]);
}

#[test]
fn each_leak_of_a_sample_is_found() {
    for leak in [
        Leak::Level,
        Leak::Current,
        Leak::Trip,
        Leak::RefusedLevel,
        Leak::RefusedNext,
        Leak::Late,
        Leak::Wire,
    ] {
        let files = Files::of(made(200), || Leaky::new(leak));
        let why = files.check().expect_err("a leak");
        assert!(why.starts_with("seed 77, pair "), "{leak:?}: {why}");
        if leak == Leak::RefusedNext {
            assert!(why.contains(", the sample for channel "), "{why}");
        }
    }
}

/// A stranger's sample as one call, and nothing of it in the other list.
/// Channel 16 is the one before channel 1.
#[test]
fn a_leak_of_one_sample_is_found_where_it_shows() {
    let (own, read) = ("sample 1 0 3f000000", "read 0 0000");
    for (leak, stranger, after, register) in [
        (Leak::Level, "sample 16 1 00000000", own, "Counter"),
        (Leak::Current, "sample 16 0 3f800000", read, "OutCurrent"),
        (Leak::RefusedLevel, "sample 16 1 7fc00000", own, "Counter"),
        (Leak::Late, "sample 5 0 00000000", read, "OutCurrent"),
    ] {
        let lists = [
            format!("{own}, {stranger}, {after}"),
            format!("{own}, {after}"),
        ];
        let files = files(leak, &lists[0], &lists[1]);
        files.assert_found(&["register at the end", register]);
    }
    let files = files(
        Leak::RefusedNext,
        "sample 9 1 ff800000, sample 1 1 00000000",
        "sample 9 1 00000000, sample 1 1 00000000",
    );
    files.assert_found(&["own call 1, the sample for channel 1", "number 9"]);
}
