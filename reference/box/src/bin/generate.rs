//! `generate SEED CALLS [KIND]`: prints a random script of about CALLS calls
//! for `play`. The same seed, number and kind always give the same script.
//! `generate --kinds` prints the names of the kinds.
//!
//! Each kind aims at a section of the paper: registers, ticks, watchdog,
//! feedback, currents, errors, images, refusals, reset, ends (of ranges), save
//! (the ten-hour save), tables (the data channel and its lookups), runs (pump
//! runs and their quarters), samples (level and current together), charges (the
//! water charge), hours (opening hours), and mixed, which is all of them and the
//! default.

use reference_box::generator::kinds::{self, Kind, KINDS};
use std::io::{self, Write};
use std::process::ExitCode;

const USAGE: &str = "usage: generate SEED CALLS [KIND]
       generate --kinds
SEED and CALLS are decimal numbers; KIND is one of those that --kinds prints.";

/// Every kind's name, one a line.
fn names() -> String {
    KINDS.iter().map(|(name, _)| format!("{name}\n")).collect()
}

/// What the arguments ask for.
fn made(arguments: &[String]) -> Option<String> {
    let (seed, calls, kind) = match arguments {
        [option] if option == "--kinds" => return Some(names()),
        [seed, calls] => (seed, calls, Kind::Mixed),
        [seed, calls, name] => (seed, calls, Kind::named(name)?),
        _ => return None,
    };
    Some(kinds::generate(seed.parse().ok()?, calls.parse().ok()?, kind))
}

fn main() -> ExitCode {
    let arguments: Vec<String> = std::env::args().skip(1).collect();
    let Some(text) = made(&arguments) else {
        eprintln!("{USAGE}");
        return ExitCode::from(2);
    };
    match io::stdout().write_all(text.as_bytes()) {
        Err(error) if error.kind() != io::ErrorKind::BrokenPipe => {
            eprintln!("generate: {error}");
            ExitCode::FAILURE
        }
        _ => ExitCode::SUCCESS,
    }
}
