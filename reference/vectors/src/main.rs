//! Test vectors for the conversions between 32-bit Reals and counts, worked
//! out in whole numbers, apart from any code that is to be tested with them.
//!
//! `vectors OUTDIR` writes OUTDIR/stdin with lines `KK WWWWWWWW` (a kind and a
//! word) and OUTDIR/stdout with the same lines and the expected result after
//! each: eight hex digits, or `--------` where the value is refused.

mod kinds;
mod random;
mod real;
mod results;
#[cfg(test)]
mod tests;
mod words;

use std::ffi::OsString;
use std::io::Write;
use std::path::Path;
use std::process::ExitCode;
use std::{env, fs, io};

use kinds::{Kind, KINDS};

/// Any fixed number will do; each kind adds its own place to it.
const SEED: u64 = 3120;

/// The kind's words, with its own run of random ones.
fn words_of(place: usize, kind: &Kind) -> Vec<u32> {
    words::words(&kind.inputs, SEED + place as u64)
}

fn input_line(kind: &Kind, word: u32) -> String {
    format!("{} {word:08x}", kind.name)
}

fn output_line(kind: &Kind, word: u32) -> String {
    let input = input_line(kind, word);
    match (kind.result)(word) {
        Some(result) => format!("{input} {result:08x}"),
        None => format!("{input} --------"),
    }
}

fn write_vectors(directory: &Path) -> io::Result<()> {
    let (mut input, mut output) = (String::new(), String::new());
    let (mut summary, mut total) = (String::new(), 0);
    for (place, kind) in KINDS.iter().enumerate() {
        let words = words_of(place, kind);
        for &word in &words {
            input += &(input_line(kind, word) + "\n");
            output += &(output_line(kind, word) + "\n");
        }
        summary += &format!("{} {}, ", kind.name, words.len());
        total += words.len();
    }
    fs::create_dir_all(directory)?;
    fs::write(directory.join("stdin"), input)?;
    fs::write(directory.join("stdout"), output)?;
    writeln!(io::stdout(), "{summary}in all {total}")
}

fn main() -> ExitCode {
    let arguments: Vec<OsString> = env::args_os().skip(1).collect();
    let directory = match arguments.as_slice() {
        [directory] => directory,
        _ => {
            eprintln!("usage: vectors OUTDIR");
            return ExitCode::from(2);
        }
    };
    match write_vectors(Path::new(directory)) {
        Ok(()) => ExitCode::SUCCESS,
        Err(error) => {
            eprintln!("vectors: {}: {error}", directory.to_string_lossy());
            ExitCode::from(1)
        }
    }
}
