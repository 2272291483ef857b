//! What a call answers, as a line of the player's output.

use crate::reals::Real;
use crate::Answer;
use std::fmt;

/// What a call answers, with the whole buffer afterwards where one was lent.
#[derive(Clone, Debug, PartialEq, Eq)]
pub enum Reply {
    Power(u8),
    Store(u8, usize, Vec<u8>),
    Read(Answer, Vec<u8>),
    Write(Answer),
    Sample(u8),
    Tick,
    Lookup(u8, Real),
    /// Change 4: the number and the cents.
    Charge(u8, u64),
    Minute(u8),
    Windows(u8),
    /// Output of channel k at bit k−1.
    Outputs(u16),
}

impl fmt::Display for Reply {
    fn fmt(&self, formatter: &mut fmt::Formatter) -> fmt::Result {
        match self {
            Reply::Power(number) => write!(formatter, "power {number}"),
            Reply::Store(number, length, buffer) => {
                let buffer = hexadecimal(buffer);
                write!(formatter, "store {number} {length} {buffer}")
            }
            Reply::Read(answer, buffer) => {
                write!(
                    formatter,
                    "read {} {}",
                    numbers(*answer),
                    hexadecimal(buffer)
                )
            }
            Reply::Write(answer) => write!(formatter, "write {}", numbers(*answer)),
            Reply::Sample(number) => write!(formatter, "sample {number}"),
            Reply::Tick => write!(formatter, "tick 0"),
            Reply::Lookup(number, real) => write!(formatter, "lookup {number} {real:08x}"),
            Reply::Charge(number, cents) => write!(formatter, "charge {number} {cents}"),
            Reply::Minute(number) => write!(formatter, "minute {number}"),
            Reply::Windows(number) => write!(formatter, "windows {number}"),
            Reply::Outputs(word) => write!(formatter, "outputs {word:04x}"),
        }
    }
}

/// Bytes as a script and its answers have them.
pub fn hexadecimal(bytes: &[u8]) -> String {
    if bytes.is_empty() {
        return "-".to_string();
    }
    bytes.iter().map(|byte| format!("{byte:02x}")).collect()
}

fn numbers(answer: Answer) -> String {
    let data_error = u8::from(answer.data_error);
    let general_error = u8::from(answer.general_error);
    format!(
        "{} {} {data_error} {general_error}",
        answer.number, answer.length
    )
}
