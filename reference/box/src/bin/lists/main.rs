//! `lists`: demand 3 ("Two lists"), asked of any player of scripts.
//!
//! `lists make SEED PAIRS DIR` writes pairs of lists for which the hypotheses
//! of the demand hold: the scripts DIR/first.calls and DIR/second.calls, with
//! each pair after a `power` of the same accepted image, and DIR/own, which
//! says what of them belongs together (its form stands in `record.rs`). The
//! same seed and number always give the same files.
//!
//! The player under test then plays both scripts, line for line, into
//! DIR/first.answers and DIR/second.answers.
//!
//! `lists check DIR` compares these: c's own calls have the same answers apart
//! from the two box-wide error bits, and at the end c has the same registers,
//! kept values and Output, of which the line `outputs` has c's own bit. Counts
//! are compared as far as a read or an image shows them; of the quarters of c's
//! operating count, which neither does, what four further ticks show, and of the
//! minute and c's windows, what ticks show with c switched on before them. It
//! prints one line, or says on standard error what the first difference is and
//! ends with status 1. It fails as well where nothing would be shown: where calls
//! or answers are missing, where no stranger's register differs between the lists
//! in any pair, or where in none c's Output is on, c's OperatingTime goes on with
//! those ticks, or c's windows close it.

mod answers;
mod check;
mod counts;
mod hours;
mod hypotheses;
mod own;
mod pair;
mod record;
mod runs;
mod second;
mod source;

use check::{List, Played};
use own::Own;
use record::Record;
use std::fs::{self, File};
use std::io::{self, BufWriter};
use std::path::Path;
use std::process::ExitCode;

const USAGE: &str = "usage: lists make SEED PAIRS DIR
       lists check DIR";

fn make(seed: u64, pairs: u64, directory: &Path) -> io::Result<()> {
    fs::create_dir_all(directory)?;
    let create = |name: &str| File::create(directory.join(name)).map(BufWriter::new);
    let record = Record::new(
        create("first.calls")?,
        create("second.calls")?,
        create("own")?,
    );
    record.make(seed, pairs)?;
    Ok(())
}

fn check(directory: &Path) -> Result<String, String> {
    let read = |name: &str| {
        let path = directory.join(name);
        fs::read_to_string(&path).map_err(|error| format!("{}: {error}", path.display()))
    };
    let own = Own::read(&read("own")?)?;
    let [first_calls, first_answers] = [read("first.calls")?, read("first.answers")?];
    let [second_calls, second_answers] = [read("second.calls")?, read("second.answers")?];
    let played = Played {
        first: List::new("first", &first_calls, &first_answers)?,
        second: List::new("second", &second_calls, &second_answers)?,
    };
    played.check(&own)
}

fn run(arguments: &[&str]) -> Option<Result<String, String>> {
    match arguments {
        ["make", seed, pairs, directory] => {
            let (seed, pairs) = (seed.parse().ok()?, pairs.parse().ok()?);
            let made = make(seed, pairs, Path::new(directory));
            let made = made.map(|()| format!("{pairs} pairs (seed {seed}) made"));
            Some(made.map_err(|error| error.to_string()))
        }
        ["check", directory] => Some(check(Path::new(directory))),
        _ => None,
    }
}

fn main() -> ExitCode {
    let arguments: Vec<String> = std::env::args().skip(1).collect();
    let words: Vec<&str> = arguments.iter().map(String::as_str).collect();
    match run(&words) {
        Some(Ok(done)) => {
            println!("two lists: {done}");
            ExitCode::SUCCESS
        }
        Some(Err(why)) => {
            eprintln!("two lists: {why}");
            ExitCode::FAILURE
        }
        None => {
            eprintln!("{USAGE}");
            ExitCode::from(2)
        }
    }
}
