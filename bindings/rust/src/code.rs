//! The code of an answer, as `crates/pd3120_c/specs/Codes.antt` packs it: bits 0
//! to 7 the number, bits 8 to 23 the length, bit 24 DataError, bit 25
//! GeneralError. A lookup's: bits 0 to 31 the Real, bits 32 to 39 the number.

use crate::{Answer, Error, ErrorBits, Refusal};

/// Why the call is refused, where it is.
#[inline]
fn refusal(code: u32) -> Option<Refusal> {
    let number = code & 0xFF;
    if number == 0 {
        return None;
    }
    let refusal = Refusal::numbered(number as u8);
    Some(refusal.expect("the library is proved to answer the papers' numbers"))
}

#[inline]
fn length(code: u32) -> usize {
    (code >> 8 & 0xFFFF) as usize
}

#[inline]
fn bits(code: u32) -> ErrorBits {
    ErrorBits {
        data_error: code >> 24 & 1 == 1,
        general_error: code >> 25 & 1 == 1,
    }
}

/// The answer of a wire call on a SWNo.
#[inline]
pub fn wire(swno: u16, code: u32) -> Result<Answer, Error> {
    let bits = bits(code);
    match refusal(code) {
        None => Ok(Answer {
            length: length(code),
            bits,
        }),
        Some(refusal) => Err(Error {
            refusal,
            bits: Some(bits),
            swno: Some(swno),
        }),
    }
}

/// The length that a call other than a wire call answers.
#[inline]
pub fn plain(code: u32) -> Result<usize, Error> {
    match refusal(code) {
        None => Ok(length(code)),
        Some(refusal) => Err(Error {
            refusal,
            bits: None,
            swno: None,
        }),
    }
}

/// The Real that a lookup answers.
#[inline]
pub fn looked_up(code: u64) -> Result<f32, Error> {
    plain((code >> 32) as u32)?;
    Ok(f32::from_bits(code as u32))
}

#[cfg(test)]
mod tests {
    use super::*;

    #[test]
    fn a_code_is_taken_apart_where_the_library_packs_it() {
        let both = ErrorBits {
            data_error: true,
            general_error: true,
        };
        let done = Answer {
            length: 0xABCD,
            bits: both,
        };
        assert_eq!(wire(0x42, 0x03AB_CD00), Ok(done));
        let refused = Error {
            refusal: Refusal::NotAllowed,
            bits: Some(ErrorBits {
                data_error: false,
                general_error: true,
            }),
            swno: Some(0x13C),
        };
        assert_eq!(wire(0x13C, 0x0200_0007), Err(refused));
        assert_eq!(plain(886 << 8), Ok(886));
        for number in [14, 18, 19] {
            let refused = plain(u32::from(number)).map_err(|error| error.number());
            assert_eq!(refused, Err(number));
        }
        let nan = looked_up(0x7FC0_0000).map(f32::to_bits);
        assert_eq!(nan, Ok(0x7FC0_0000));
        let refused = looked_up(15 << 32).map_err(|error| error.number());
        assert_eq!(refused, Err(15));
    }
}
