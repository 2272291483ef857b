//! Change 6: the line `windows CH [START END]...`.

use super::call::Call;
use super::words::{minute_of, small, Why};

/// "up to sixteen pairs are taken in": the channel and two words a pair.
const MOST_WORDS: usize = 1 + 2 * 16;

/// The call of the words after its name.
pub(super) fn windows_of(words: &[&[u8]]) -> Result<Call, Why> {
    match words {
        [channel, ends @ ..] if words.len() % 2 == 1 && words.len() <= MOST_WORDS => {
            let channel = small(channel)?;
            let ends: Vec<u16> = ends
                .iter()
                .map(|word| minute_of(word))
                .collect::<Result<_, _>>()?;
            let pairs = ends.chunks_exact(2);
            let windows = pairs.map(|pair| (pair[0], pair[1])).collect();
            Ok(Call::Windows(channel, windows))
        }
        _ => Err(Why::WrongNumberOfWords),
    }
}

/// The line of a script.
pub(super) fn windows_line(channel: u8, windows: &[(u16, u16)]) -> String {
    let pairs = windows
        .iter()
        .map(|(start, end)| format!(" {start} {end}"))
        .collect::<String>();
    format!("windows {channel}{pairs}")
}

#[cfg(test)]
mod tests;
