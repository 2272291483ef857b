//! The words of a line, and the numbers that they stand for.

use std::fmt;

/// Why a line is no call.
#[derive(Clone, Copy, Debug, PartialEq, Eq)]
pub enum Why {
    LineTooLong,
    UnknownCall,
    WrongNumberOfWords,
    NotHexadecimal,
    OddNumberOfDigits,
    NotDecimal,
    NumberTooLarge,
    NotZeroOrOne,
}

impl fmt::Display for Why {
    fn fmt(&self, formatter: &mut fmt::Formatter) -> fmt::Result {
        formatter.write_str(match self {
            Why::LineTooLong => "line too long",
            Why::UnknownCall => "unknown call",
            Why::WrongNumberOfWords => "wrong number of words",
            Why::NotHexadecimal => "not a hexadecimal string",
            Why::OddNumberOfDigits => "odd number of hexadecimal digits",
            Why::NotDecimal => "not a decimal number",
            Why::NumberTooLarge => "number too large",
            Why::NotZeroOrOne => "not 0 or 1",
        })
    }
}

/// The words of a line before its comment.
pub(super) fn words_of(line: &[u8]) -> Vec<&[u8]> {
    let end = line.iter().position(|&byte| byte == b'#');
    line[..end.unwrap_or(line.len())]
        .split(|byte| matches!(byte, b' ' | b'\t' | b'\r'))
        .filter(|word| !word.is_empty())
        .collect()
}

fn digit(byte: u8) -> Option<u8> {
    char::from(byte).to_digit(16).map(|digit| digit as u8)
}

/// The digits of a word, which has at least one and nothing else.
fn digits(word: &[u8]) -> Result<Vec<u8>, Why> {
    let digits: Option<Vec<u8>> = word.iter().map(|&byte| digit(byte)).collect();
    digits
        .filter(|digits| !digits.is_empty())
        .ok_or(Why::NotHexadecimal)
}

pub(super) fn bytes(word: &[u8]) -> Result<Vec<u8>, Why> {
    if word == b"-" {
        return Ok(Vec::new());
    }
    let digits = digits(word)?;
    if digits.len() % 2 == 1 {
        return Err(Why::OddNumberOfDigits);
    }
    let pairs = digits.chunks_exact(2);
    Ok(pairs.map(|pair| pair[0] << 4 | pair[1]).collect())
}

/// A number of digits of a base, at most `highest`. A digit past the highest
/// number of 64 bits still has room in 128.
fn number(digits: &[u8], base: u8, highest: u64) -> Result<u64, Why> {
    digits.iter().try_fold(0, |number, &digit| {
        let next = u128::from(number) * u128::from(base) + u128::from(digit);
        u64::try_from(next)
            .ok()
            .filter(|&next| next <= highest)
            .ok_or(Why::NumberTooLarge)
    })
}

/// The marks that a hexadecimal number may begin with: the papers' and the one
/// of programs.
const MARKS: [&[u8]; 3] = [b"$", b"0x", b"0X"];

/// A SWNo, with or without a mark before its digits.
pub(super) fn swno_of(word: &[u8]) -> Result<u16, Why> {
    let marked = MARKS.iter().find_map(|mark| word.strip_prefix(*mark));
    let swno = number(&digits(marked.unwrap_or(word))?, 16, u64::from(u16::MAX))?;
    Ok(swno as u16)
}

/// A Real's eight digits.
pub(super) fn real_of(word: &[u8]) -> Result<u32, Why> {
    let digits = digits(word)?;
    if digits.len() != 8 {
        return Err(Why::NotHexadecimal);
    }
    Ok(number(&digits, 16, u64::from(u32::MAX))? as u32)
}

/// Change 4: a Counter value "as read (eight hexadecimal digits each)". Counter
/// is "signed 32 bits", "the high byte first".
pub(super) fn counter_of(word: &[u8]) -> Result<i32, Why> {
    Ok(real_of(word)? as i32)
}

pub(super) fn decimal(word: &[u8], highest: u64) -> Result<u64, Why> {
    if word.is_empty() || !word.iter().all(u8::is_ascii_digit) {
        return Err(Why::NotDecimal);
    }
    number(&digits(word)?, 10, highest)
}

/// A channel or a table.
pub(super) fn small(word: &[u8]) -> Result<u8, Why> {
    Ok(decimal(word, u64::from(u8::MAX))? as u8)
}

/// Change 6: a minute, a start or an end.
pub(super) fn minute_of(word: &[u8]) -> Result<u16, Why> {
    Ok(decimal(word, u64::from(u16::MAX))? as u16)
}

/// A decimal number of 32 bits.
pub(super) fn decimal_word(word: &[u8]) -> Result<u32, Why> {
    Ok(decimal(word, u64::from(u32::MAX))? as u32)
}

pub(super) fn bit(word: &[u8]) -> Result<bool, Why> {
    match word {
        b"0" => Ok(false),
        b"1" => Ok(true),
        _ => Err(Why::NotZeroOrOne),
    }
}

#[cfg(test)]
mod tests {
    use super::*;

    #[test]
    fn a_decimal_number_may_have_64_bits() {
        let all = |word: &str| decimal(word.as_bytes(), u64::MAX);
        assert_eq!(all("18446744073709551615"), Ok(u64::MAX));
        assert_eq!(all("00018446744073709551615"), Ok(u64::MAX));
        for word in [
            "18446744073709551616",
            "18446744073709551619",
            "18446744073709551620",
            "36893488147419103232",
            "99999999999999999999999999999999999999999999999999",
        ] {
            assert_eq!(all(word), Err(Why::NumberTooLarge), "{word}");
        }
        assert_eq!(all("1844674407370955161a"), Err(Why::NotDecimal));
    }

    #[test]
    fn a_counter_is_read_as_it_stands_on_the_wire() {
        assert_eq!(counter_of(b"00000001"), Ok(1));
        assert_eq!(counter_of(b"7fffffff"), Ok(i32::MAX));
        assert_eq!(counter_of(b"80000000"), Ok(i32::MIN));
        assert_eq!(counter_of(b"FfFfFfFf"), Ok(-1));
        for word in ["0", "0000001", "000000001", "-1", "0000000g"] {
            assert_eq!(counter_of(word.as_bytes()), Err(Why::NotHexadecimal));
        }
    }
}
