//! Standard output whose reader may go away: the program then ends, quietly.

use std::fmt::Arguments;
use std::io::{stdout, Write};
use std::process::exit;

/// The status that a shell gives a program whose reader has gone.
const READER_GONE: i32 = 141;

pub fn line(text: Arguments) {
    if writeln!(stdout(), "{text}").is_err() {
        exit(READER_GONE);
    }
}

/// `println!` that does not panic.
macro_rules! say {
    ($($text:tt)*) => {
        crate::say::line(format_args!($($text)*))
    };
}
