//! `compare SEED CALLS [KEPT]`: plays about CALLS random calls of every kind
//! through the Rust wrapper of the proved library and on the independent model,
//! in one process, and compares after each call. Where one differs, the script up
//! to it goes to the file KEPT.
//!
//! `compare --script FILE`: plays a script through both.

use pd3120_tests::{compare, compare_script, Library};
use std::fs;
use std::process::ExitCode;

const USAGE: &str = "usage: compare SEED CALLS [KEPT]
       compare --script FILE";

/// What the arguments ask for, done: what to say, or what differs.
fn run(arguments: &[&str]) -> Option<Result<String, String>> {
    match arguments {
        ["--script", file] => Some(script(file)),
        [seed, calls] => Some(random(seed.parse().ok()?, calls.parse().ok()?, None)),
        [seed, calls, kept] => Some(random(seed.parse().ok()?, calls.parse().ok()?, Some(kept))),
        _ => None,
    }
}

fn random(seed: u64, calls: usize, kept: Option<&str>) -> Result<String, String> {
    let through = "calls through the Rust wrapper: no difference";
    compare::<Library>(seed, calls)
        .map(|played| format!("seed {seed}, {played} {through}"))
        .map_err(|found| match kept.map(|file| fs::write(file, found.script())) {
            Some(Err(error)) => format!("{found}\nits script could not be kept: {error}"),
            _ => found.to_string(),
        })
}

fn script(file: &str) -> Result<String, String> {
    let script = fs::read(file).map_err(|error| format!("{file}: {error}"))?;
    let answers = compare_script::<Library>(&script)?;
    Ok(format!("{answers} answers through the Rust wrapper: no difference"))
}

fn main() -> ExitCode {
    let arguments: Vec<String> = std::env::args().skip(1).collect();
    let words: Vec<&str> = arguments.iter().map(String::as_str).collect();
    match run(&words) {
        Some(Ok(done)) => {
            println!("compare: {done}");
            ExitCode::SUCCESS
        }
        Some(Err(difference)) => {
            eprintln!("compare: {difference}");
            ExitCode::FAILURE
        }
        None => {
            eprintln!("{USAGE}");
            ExitCode::from(2)
        }
    }
}
