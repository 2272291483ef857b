//! Why a call is refused.

use crate::ErrorBits;
use core::fmt;

/// The reasons to refuse a call, with the numbers of document 01, "Questions in
/// order", and of document 02. A call is refused for the first that applies.
#[derive(Clone, Copy, Debug, PartialEq, Eq, Hash)]
#[repr(u8)]
pub enum Refusal {
    /// A wire call: the SWNo is above $13F.
    Beyond = 1,
    /// A wire call: no register is listed for the SWNo.
    Unlisted = 2,
    /// A write: the register is read only.
    NotWritable = 3,
    /// A write: the register has another length.
    WrongLength = 4,
    /// A read: the buffer is shorter than the register.
    BufferTooShort = 5,
    /// A write: the register is protected and WriteEnable is FALSE.
    NotEnabled = 6,
    /// A write: the register does not allow the value. A lookup: X is no finite
    /// Real.
    NotAllowed = 7,
    /// A sample, or windows: the channel is not from 1 to 16.
    NoChannel = 8,
    /// A sample: the current is no finite Real. This is asked after the channel.
    NotFinite = 9,
    /// Power-up: the image has neither 717 nor 886 bytes.
    ImageLength = 10,
    /// Power-up: a section's count byte is wrong.
    ImageCounts = 11,
    /// Power-up: the image's sum is wrong.
    ImageSum = 12,
    /// Power-up: a value in the image is not allowed.
    ImageValues = 13,
    /// Storing: the buffer is shorter than 886 bytes.
    NoRoom = 14,
    /// A lookup: the table is not 1 or 2. This is asked before its X.
    NoTable = 15,
    /// The minute of the week, or a start or end of windows, is above 10079.
    NotMinute = 18,
    /// Windows: there are more than eight. This is asked after the channel, and
    /// before the starts and ends.
    TooManyWindows = 19,
}

impl Refusal {
    /// Every refusal, in the order of the numbers.
    pub const ALL: [Refusal; 17] = [
        Refusal::Beyond,
        Refusal::Unlisted,
        Refusal::NotWritable,
        Refusal::WrongLength,
        Refusal::BufferTooShort,
        Refusal::NotEnabled,
        Refusal::NotAllowed,
        Refusal::NoChannel,
        Refusal::NotFinite,
        Refusal::ImageLength,
        Refusal::ImageCounts,
        Refusal::ImageSum,
        Refusal::ImageValues,
        Refusal::NoRoom,
        Refusal::NoTable,
        Refusal::NotMinute,
        Refusal::TooManyWindows,
    ];

    /// The refusal of a number, which is from 1 to 15, 18 or 19. 16 and 17 are
    /// those of a [charge](crate::ChargeRefusal).
    #[inline]
    pub fn numbered(number: u8) -> Option<Refusal> {
        let index = match number {
            1..=15 => number - 1,
            18..=19 => number - 3,
            _ => return None,
        };
        Refusal::ALL.get(usize::from(index)).copied()
    }

    /// The papers' number: 1 to 15, 18 or 19.
    #[inline]
    pub fn number(self) -> u8 {
        self as u8
    }

    /// A plain sentence.
    pub fn sentence(self) -> &'static str {
        match self {
            Refusal::Beyond => "the SWNo is above $13F",
            Refusal::Unlisted => "there is no register with this SWNo",
            Refusal::NotWritable => "the register can only be read",
            Refusal::WrongLength => "the register has not as many bytes as were written",
            Refusal::BufferTooShort => "the buffer is too short for the register",
            Refusal::NotEnabled => "the register is protected, and WriteEnable is off",
            Refusal::NotAllowed => "the register does not allow this value, or X is not finite",
            Refusal::NoChannel => "there is no such channel; they are numbered 1 to 16",
            Refusal::NotFinite => "the current is not a finite number",
            Refusal::ImageLength => "the setup image has neither 717 nor 886 bytes",
            Refusal::ImageCounts => "a count byte of the setup image is wrong",
            Refusal::ImageSum => "the sum of the setup image is wrong",
            Refusal::ImageValues => "the setup image holds a value that is not allowed",
            Refusal::NoRoom => "the buffer is too short for a setup image of 886 bytes",
            Refusal::NoTable => "there is no such table; they are numbered 1 and 2",
            Refusal::NotMinute => "a minute of the week is above 10079",
            Refusal::TooManyWindows => "there are more than eight windows",
        }
    }
}

impl fmt::Display for Refusal {
    fn fmt(&self, formatter: &mut fmt::Formatter) -> fmt::Result {
        formatter.write_str(self.sentence())
    }
}

/// A refused call. Its buffer is untouched, and so is the box, but for what
/// every wire call does (see [`Pd3120::read`](crate::Pd3120::read)) and for a
/// refused power-up.
///
/// ```
/// use pd3120::{Pd3120, Refusal};
///
/// // ChConfig of channel 4 is protected.
/// let mut module = Pd3120::default();
/// let error = module.write(0x49, &[0, 0x10, 0, 0]).unwrap_err();
/// assert_eq!((error.swno, error.refusal), (Some(0x49), Refusal::NotEnabled));
/// assert_eq!(
///     error.to_string(),
///     "SWNo $49: refused by 6: the register is protected, and WriteEnable is off"
/// );
///
/// // A sample is no wire call.
/// let error = module.sample(17, true, 0.0).unwrap_err();
/// assert_eq!((error.swno, error.number()), (None, 8));
/// ```
#[derive(Clone, Copy, Debug, PartialEq, Eq)]
pub struct Error {
    /// Why the call is refused.
    pub refusal: Refusal,
    /// The two bits that a wire call answers even then; none for other calls.
    pub bits: Option<ErrorBits>,
    /// The SWNo of a wire call; none for other calls.
    pub swno: Option<u16>,
}

impl Error {
    /// The papers' number: 1 to 15, 18 or 19.
    #[inline]
    pub fn number(&self) -> u8 {
        self.refusal.number()
    }
}

impl fmt::Display for Error {
    fn fmt(&self, formatter: &mut fmt::Formatter) -> fmt::Result {
        if let Some(swno) = self.swno {
            write!(formatter, "SWNo ${swno:X}: ")?;
        }
        write!(formatter, "refused by {}: {}", self.number(), self.refusal)
    }
}

#[cfg(feature = "std")]
impl std::error::Error for Error {}

#[cfg(test)]
mod tests {
    use super::*;
    use core::mem::size_of;
    use std::collections::BTreeSet;
    use std::string::ToString;

    #[test]
    fn each_number_of_the_box_has_a_refusal_and_a_sentence_of_its_own() {
        let mut sentences = BTreeSet::new();
        for number in 0..=255 {
            let refusal = Refusal::numbered(number);
            let listed = matches!(number, 1..=15 | 18 | 19);
            assert_eq!(refusal.map(Refusal::number), listed.then_some(number));
            sentences.extend(refusal.map(Refusal::sentence));
        }
        assert_eq!(sentences.len(), Refusal::ALL.len());
    }

    #[test]
    fn an_error_shows_its_number_and_sentence() {
        let error = Error {
            refusal: Refusal::ImageLength,
            bits: None,
            swno: None,
        };
        let shown = "refused by 10: the setup image has neither 717 nor 886 bytes";
        assert_eq!(error.to_string(), shown);
    }

    #[test]
    fn an_error_of_a_wire_call_shows_its_swno_before_that() {
        let error = Error {
            refusal: Refusal::ImageLength,
            bits: None,
            swno: None,
        };
        let shown = "refused by 10: the setup image has neither 717 nor 886 bytes";
        for (swno, start) in [(0x0D, "SWNo $D: "), (0xFFFF, "SWNo $FFFF: ")] {
            let wire = Error {
                swno: Some(swno),
                ..error
            };
            assert_eq!(wire.to_string(), [start, shown].concat());
        }
    }

    /// An answer is as large as without the SWNo: it fits beside the bits.
    #[test]
    fn an_error_makes_no_answer_larger() {
        assert_eq!(size_of::<Error>(), 8);
        let answer = size_of::<crate::Answer>();
        assert_eq!(size_of::<Result<crate::Answer, Error>>(), answer);
    }
}
