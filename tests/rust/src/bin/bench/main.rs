//! `bench [--quick]`: ns and instructions a call of the proved library, through
//! its C boundary, beside those of the independent model, on the same calls in
//! one run. Then whether a call's cost stays the same over ten million calls.
//! `--quick` counts no instructions.

#[macro_use]
mod say;
mod cases;
mod count;
mod day;
mod measure;
mod sides;

use cases::CASES;
use day::day;
use measure::{Effort, Pair};
use pd3120::Pd3120;
use reference_box::ChannelBox;
use std::mem::{align_of, size_of};
use std::process::ExitCode;
use std::time::Duration;

/// The rounds are short, so that many fit between the turns of other programs.
const FULL: Effort = Effort {
    round: Duration::from_micros(500),
    rounds: 400,
    day: 1_000_000,
    day_rounds: 7,
    days: 10,
    counted: true,
};

/// Only to see that it runs.
const QUICK: Effort = Effort {
    round: Duration::from_micros(500),
    rounds: 10,
    day: 100_000,
    day_rounds: 3,
    days: 10,
    counted: false,
};

/// The three columns of a pair.
fn columns(pair: &Pair, digits: usize) -> String {
    let Pair { library, model } = pair;
    let ratio = library / model;
    format!("{library:>9.digits$} {model:>8.digits$} {ratio:>6.2}")
}

fn row(name: &str, ns: &Pair, instructions: Option<Pair>) {
    let counts = instructions.map_or(String::new(), |pair| format!("   {}", columns(&pair, 0)));
    say!("{name:<25} {}{counts}", columns(ns, 1));
}

fn heads(counted: bool) {
    let three = format!("{:>9} {:>8} {:>6}", "library", "model", "ratio");
    if counted {
        say!("{:<25} {:>25}   {:>25}", "", "ns", "instructions");
        say!("{:<25} {three}   {three}", "a call");
    } else {
        say!("{:<25} {:>25}", "", "ns");
        say!("{:<25} {three}", "a call");
    }
}

fn table(effort: Effort, counted: bool) {
    let instructions = |row| counted.then(|| count::instructions(row)).flatten();
    heads(counted);
    let singles = measure::singles(effort);
    for (index, ((name, ..), ns)) in CASES.iter().zip(&singles).enumerate() {
        row(name, ns, instructions(index));
    }
    let ns = measure::mixed(&day(effort.day), effort);
    let name = format!("mixed day, {} calls", effort.day);
    row(&name, &ns, instructions(CASES.len()));
}

fn ageing(effort: Effort) {
    let ageing = measure::ageing(&day(effort.day), effort);
    say!("\n{} mixed calls on one box of the library:", effort.day);
    let after = format!("after {} calls", effort.day * effort.days);
    say!("  {:<22} {:>6.1} ns a call", "at the start", ageing.new);
    say!("  {after:<22} {:>6.1} ns a call", ageing.old);
    say!("  {:<22} {:>7.2}", "ratio", ageing.old / ageing.new);
}

fn sizes() {
    say!(
        "a module has {} bytes, aligned to {}; the model's box has {}\n",
        size_of::<Pd3120>(),
        align_of::<Pd3120>(),
        size_of::<ChannelBox>()
    );
}

fn main() -> ExitCode {
    let arguments: Vec<String> = std::env::args().skip(1).collect();
    let effort = match arguments.iter().map(String::as_str).collect::<Vec<_>>()[..] {
        [] => FULL,
        ["--quick"] => QUICK,
        [count::OPTION, side, row, times] if count::run(side, row, times).is_some() => {
            return ExitCode::SUCCESS;
        }
        _ => {
            eprintln!("usage: bench [--quick]");
            return ExitCode::from(2);
        }
    };
    let counted = effort.counted && count::possible();
    say!(
        "Times: the least of {} rounds in turn; of the mixed day, of {}.",
        effort.rounds, effort.day_rounds
    );
    if counted {
        say!(
            "Instructions: by valgrind, of {} calls; of the mixed day, of {}.",
            count::SINGLE,
            count::DAY
        );
    }
    sizes();
    table(effort, counted);
    ageing(effort);
    ExitCode::SUCCESS
}
