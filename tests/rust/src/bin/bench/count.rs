//! Instructions a call, which other programs on the machine do not change. valgrind runs this
//! program again and counts its instructions, once with few calls and once with more. All
//! else is the same in both runs, so the difference is that of the calls.

use crate::cases::{prepared, repeat, Start, CASES};
use crate::day::{day, play};
use crate::measure::Pair;
use crate::sides::{Library, Model, Side};
use std::env::current_exe;
use std::hint::black_box;
use std::process::Command;

/// The calls of the shorter run.
const FEW: u32 = 100;
/// How many more the longer one makes: of a single call, and of a mixed day.
pub const SINGLE: u32 = 1000;
pub const DAY: u32 = 20_000;

/// The option by which this program is asked for one of those runs.
pub const OPTION: &str = "--calls";

/// Makes the calls of a row of the table: a case by its number, or the mixed day
/// that follows them. None where an argument is no such thing.
pub fn run(side: &str, row: &str, times: &str) -> Option<()> {
    let (row, times) = (row.parse().ok()?, times.parse().ok()?);
    match side {
        "library" => make::<Library>(row, times),
        "model" => make::<Model>(row, times),
        _ => return None,
    }
    Some(())
}

fn make<S: Side>(row: usize, times: u32) {
    match CASES.get(row) {
        Some(&(_, start, work)) => {
            repeat(black_box(&mut prepared::<S>(start)), work, times);
        }
        None => {
            // The whole list in both runs, so that drawing it costs the same.
            let calls = day((FEW + DAY) as usize);
            let mut side = prepared::<S>(Start::Busy);
            play(black_box(&mut side), &calls[..times as usize]);
        }
    }
}

/// Whether there is a valgrind.
pub fn possible() -> bool {
    Command::new("valgrind").arg("--version").output().is_ok()
}

/// Instructions a call of a row on each side. None where valgrind fails.
pub fn instructions(row: usize) -> Option<Pair> {
    Some(Pair {
        library: per_call("library", row)?,
        model: per_call("model", row)?,
    })
}

fn per_call(side: &str, row: usize) -> Option<f64> {
    let more = if row < CASES.len() { SINGLE } else { DAY };
    let short = counted(side, row, FEW)?;
    let added = counted(side, row, FEW + more)?.checked_sub(short)?;
    Some(added as f64 / f64::from(more))
}

/// All instructions of one run.
fn counted(side: &str, row: usize, times: u32) -> Option<u64> {
    let output = Command::new("valgrind")
        .args(["--tool=callgrind", "--callgrind-out-file=/dev/null"])
        .arg(current_exe().ok()?)
        .args([OPTION, side, &row.to_string(), &times.to_string()])
        .output()
        .ok()?;
    collected(&String::from_utf8_lossy(&output.stderr))
}

fn collected(report: &str) -> Option<u64> {
    let (_, count) = report.split_once("Collected :")?;
    count.lines().next()?.trim().parse().ok()
}

#[cfg(test)]
mod tests {
    use super::*;

    #[test]
    fn the_count_is_found_in_the_report() {
        let report = "==7== Events    : Ir\n==7== Collected : 123456\n==7== \n";
        assert_eq!(collected(report), Some(123_456));
        assert_eq!(collected("==7== no counts\n"), None);
    }

    #[test]
    fn every_row_of_the_table_can_be_run() {
        for row in 0..=CASES.len() {
            for side in ["library", "model"] {
                assert_eq!(run(side, &row.to_string(), "100"), Some(()));
            }
        }
        assert_eq!(run("neither", "0", "100"), None);
        assert_eq!(run("model", "one", "100"), None);
    }
}
