use std::fmt;

use crate::lend::{granted, text_in};
use crate::raw::{BlockRead, BlocksWritten, NetworkHost, NetworkRead, Written};
use crate::{exact, room};

/// Why a call says no.
///
/// Its text comes from the library:
///
/// ```
/// use nibharrow::{read_address, Refusal};
///
/// let refusal = read_address("010.0.0.12").unwrap_err();
/// assert_eq!(refusal, Refusal::Malformed);
/// assert_eq!(refusal.number(), 2);
/// assert_eq!(refusal.to_string(), "the text or the bytes are not of the form asked for");
/// ```
#[non_exhaustive]
#[derive(Clone, Copy, Debug, PartialEq, Eq, Hash)]
pub enum Refusal {
    /// The text is longer than 64 bytes, or the sheet longer than 65,536,
    /// [`LONGEST_SHEET`](crate::LONGEST_SHEET).
    TextTooLong = 1,
    /// The text, or a line of a sheet, is not of the form asked for, or the bytes are no whole number
    /// of records. The empty text is of no form, but for the empty sheet.
    Malformed = 2,
    /// The buffer is shorter than the answer.
    NoRoom = 3,
    /// A length or size is above 32 for IPv4, or above 128 for IPv6.
    LengthTooLarge = 4,
    /// A block's address has a one bit beyond its length.
    BitsBeyondLength = 5,
    /// An address to be split begins with bits 111, or a network number is of no class.
    NoClass = 6,
    /// The host number is too large for the class of its network number.
    HostTooLarge = 7,
    /// The first address of a range is above the last.
    FirstAboveLast = 8,
    /// The ends of a range differ in family, or a block of a list is not of the list's, or that is
    /// [`Family::Either`](crate::Family::Either). The other wrong families of the C interface, a
    /// family number that is not 4, 6 or 0 and an IPv6 address where only IPv4 is meant, cannot be
    /// handed to the calls of this crate.
    WrongFamily = 9,
    /// A list has more than 512 blocks, [`MOST_RECORDS`](crate::MOST_RECORDS), or a sheet more than
    /// 1,024 lines, [`MOST_LINES`](crate::MOST_LINES).
    TooMany = 10,
}

impl Refusal {
    /// The number of this refusal in the rules and in the C interface, 1 to 10.
    pub const fn number(self) -> u32 {
        self as u32
    }

    /// The refusal that has this number, if one has.
    pub const fn from_number(number: u32) -> Option<Self> {
        Some(match number {
            1 => Self::TextTooLong,
            2 => Self::Malformed,
            3 => Self::NoRoom,
            4 => Self::LengthTooLarge,
            5 => Self::BitsBeyondLength,
            6 => Self::NoClass,
            7 => Self::HostTooLarge,
            8 => Self::FirstAboveLast,
            9 => Self::WrongFamily,
            10 => Self::TooMany,
            _ => return None,
        })
    }
}

/// Writes the refusal in words, in English.
impl fmt::Display for Refusal {
    fn fmt(&self, f: &mut fmt::Formatter<'_>) -> fmt::Result {
        let mut out = [0; room::REFUSAL_TEXT];
        let text = text_in(&mut out, |out| {
            checked(exact::refusal_text(self.number(), out))
        });
        f.pad(granted(
            text,
            "each of the ten has a text of at most 54 bytes",
        ))
    }
}

impl std::error::Error for Refusal {}

/// An answer of the C interface, which begins with the number of its refusal.
pub(crate) trait Answer {
    /// The number, 0 for none.
    fn refusal(&self) -> u32;
}

macro_rules! answers {
    ($($answer:ident)*) => {$(
        impl Answer for $answer {
            fn refusal(&self) -> u32 {
                self.refusal
            }
        }
    )*};
}

answers! { Written NetworkRead NetworkHost BlockRead BlocksWritten }

/// The answer, or its refusal.
pub(crate) fn checked<A: Answer>(answer: A) -> Result<A, Refusal> {
    match answer.refusal() {
        0 => Ok(answer),
        // The header promises one of its ten numbers.
        number => Err(Refusal::from_number(number).unwrap_or_else(|| unreachable!("{number}"))),
    }
}
