//! Playing a script of calls: a line in, a line out. The format is written at
//! the top of `src/bin/play.rs`.

mod call;
mod charge;
mod device;
mod reply;
mod windows;
mod words;

pub use call::Call;
pub use charge::Charge;
pub use device::Device;
pub use reply::Reply;
pub use words::Why;

use std::io::{self, BufRead, Write};

const LONGEST_LINE: usize = 16 * 1024;
/// Some editors put these bytes before the text of a file in UTF-8.
const UTF_8_MARK: &[u8] = b"\xEF\xBB\xBF";

/// Reads a line without its line feed. Of a line that is too long, one byte
/// past the longest is held and the rest is passed over. FALSE at the end.
fn next_line(input: &mut impl BufRead, line: &mut Vec<u8>) -> io::Result<bool> {
    line.clear();
    let mut any = false;
    loop {
        let chunk = input.fill_buf()?;
        if chunk.is_empty() {
            return Ok(any);
        }
        any = true;
        let feed = chunk.iter().position(|&byte| byte == b'\n');
        let part = &chunk[..feed.unwrap_or(chunk.len())];
        let room = (LONGEST_LINE + 1).saturating_sub(line.len());
        line.extend_from_slice(&part[..part.len().min(room)]);
        let used = part.len() + usize::from(feed.is_some());
        input.consume(used);
        if feed.is_some() {
            return Ok(true);
        }
    }
}

/// The call of a line, if any. A mark before the whole script is skipped, but
/// counts to its line's length.
fn call_of(line: &[u8], line_number: u64) -> Result<Option<Call>, Why> {
    if line.len() > LONGEST_LINE {
        return Err(Why::LineTooLong);
    }
    match line.strip_prefix(UTF_8_MARK) {
        Some(rest) if line_number == 1 => Call::parse(rest),
        _ => Call::parse(line),
    }
}

/// The line to print for a line of the script, if any.
fn answer(device: &mut impl Device, line: &[u8], line_number: u64) -> Option<String> {
    let parsed = call_of(line, line_number);
    match parsed {
        Ok(call) => call.map(|call| call.make(device).to_string()),
        Err(why) => Some(format!("error {line_number}: {why}")),
    }
}

/// Plays a script on a box and writes a line a call.
pub fn play(
    device: &mut impl Device,
    mut input: impl BufRead,
    mut output: impl Write,
) -> io::Result<()> {
    let mut line = Vec::new();
    let mut line_number = 0;
    while next_line(&mut input, &mut line)? {
        line_number += 1;
        if let Some(answer) = answer(device, &line, line_number) {
            writeln!(output, "{answer}")?;
        }
    }
    output.flush()
}

#[cfg(test)]
mod tests;
