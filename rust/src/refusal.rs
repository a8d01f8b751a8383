//! Why a call did not answer.

use core::error::Error;
use core::fmt::{self, Display, Formatter};

/// A refusal: its number, where it is, and why. What was lent is as it was.
#[derive(Clone, Copy, Debug, Eq, PartialEq)]
pub struct Refusal {
    number: u8,
    detail: u64,
}

impl Refusal {
    /// 10, with no line.
    #[cfg(feature = "alloc")]
    pub(crate) const UNUSABLE: Refusal = Refusal { number: number::UNUSABLE, detail: 0 };

    /// The answer that a call gave, where it was not accepted.
    pub(crate) fn of(result: u64) -> Result<(), Refusal> {
        if result == 0 {
            Ok(())
        } else {
            Err(Refusal { number: (result & 0xff) as u8, detail: result >> 8 })
        }
    }

    /// The number, from 1 to 19, 25 or 29; the module `number` names them.
    pub fn number(self) -> u8 {
        self.number
    }

    /// The line of the text where there is one, counted from 1; for number 2 which required line is missing; else 0.
    pub fn detail(self) -> u64 {
        self.detail
    }

    /// The line that is at fault, where a line is.
    pub fn line(self) -> Option<u64> {
        (self.detail != 0 && self.number != number::LINE_MISSING).then_some(self.detail)
    }

    /// A sentence for the number.
    pub fn reason(self) -> &'static str {
        reason(self.number)
    }
}

/// The numbers by name, as the header for C has them.
pub mod number {
    /// A line is not UTF-8; the detail is the line.
    pub const NOT_UTF8: u8 = 1;
    /// A required line is missing; the detail says which, counted from 1.
    pub const LINE_MISSING: u8 = 2;
    /// Not an integer of its type; the detail is the line.
    pub const INT_VALUE: u8 = 3;
    /// Not a cents value; the detail is the line.
    pub const CENTS_VALUE: u8 = 4;
    /// Not a numerator; the detail is the line.
    pub const NUMER: u8 = 5;
    /// Not a denominator; the detail is the line.
    pub const DENOM: u8 = 6;
    /// Not a decimal; the detail is the line.
    pub const FLOAT_VALUE: u8 = 7;
    /// Not a mapping entry; the detail is the line.
    pub const KEYBOARD_MAPPING: u8 = 8;
    /// A numeral with an exponent, a word, or over 18 digits; the detail is the line.
    pub const UNSUPPORTED_NUMERAL: u8 = 9;
    /// A value, a state or a lent table that cannot be used; the detail is the line, or 0 outside a text.
    pub const UNUSABLE: u8 = 10;
    /// A number leaves its type; the detail is the line, or 0.
    pub const OVERFLOW: u8 = 11;
    /// What was lent is too small; the detail is the line, or 0.
    pub const NO_ROOM: u8 = 12;
    /// Over 65,535 entries.
    pub const TOO_LARGE: u8 = 13;
    /// The text has another count of notes or entries than it says.
    pub const INCONSISTENT_COUNT: u8 = 14;
    /// A builder with entries and no formal octave.
    pub const FORMAL_OCTAVE_MISSING: u8 = 15;
    /// The key is outside the range.
    pub const KEY_OUT_OF_RANGE: u8 = 16;
    /// The key is unmapped.
    pub const UNMAPPED_KEY: u8 = 17;
    /// Beyond reach: a period of 1.0, 0 divisions, or a computed pitch or ratio outside its range.
    pub const BEYOND_REACH: u8 = 18;
    /// The reference key is unmapped, counted from the middle key; said of pitches alone.
    pub const REFERENCE_UNMAPPED: u8 = 19;
    /// The last key is below the first; the detail is the last key's line, or 0.
    pub const BACKWARDS_RANGE: u8 = 25;
    /// No fraction: the odd limit is 0.
    pub const NO_FRACTION: u8 = 29;
}

/// A sentence for each number.
pub fn reason(number: u8) -> &'static str {
    match number {
        number::NOT_UTF8 => "a line is not UTF-8",
        number::LINE_MISSING => "a required line is missing",
        number::INT_VALUE => "not an integer of its type",
        number::CENTS_VALUE => "not a cents value",
        number::NUMER => "not a numerator",
        number::DENOM => "not a denominator",
        number::FLOAT_VALUE => "not a decimal",
        number::KEYBOARD_MAPPING => "not a mapping entry",
        number::UNSUPPORTED_NUMERAL => "a numeral with an exponent, a word, or over 18 digits",
        number::UNUSABLE => "a value, a state or a lent table that cannot be used",
        number::OVERFLOW => "a number leaves its type",
        number::NO_ROOM => "what was lent is too small",
        number::TOO_LARGE => "over 65,535 entries",
        number::INCONSISTENT_COUNT => "the text has another count of notes or entries than it says",
        number::FORMAL_OCTAVE_MISSING => "a builder with entries and no formal octave",
        number::KEY_OUT_OF_RANGE => "the key is outside the range",
        number::UNMAPPED_KEY => "the key is unmapped",
        number::BEYOND_REACH => "beyond reach: a period of 1.0, 0 divisions, or a computed pitch or ratio outside its range",
        number::REFERENCE_UNMAPPED => "the reference key is unmapped, counted from the middle key",
        number::BACKWARDS_RANGE => "the last key is below the first",
        number::NO_FRACTION => "no fraction: the odd limit is 0",
        _ => "no number of this library",
    }
}

impl Display for Refusal {
    fn fmt(&self, f: &mut Formatter<'_>) -> fmt::Result {
        match (self.number, self.line()) {
            (number::LINE_MISSING, _) => write!(f, "required line {}: {}", self.detail, self.reason()),
            (_, Some(line)) => write!(f, "line {line}: {}", self.reason()),
            _ => f.write_str(self.reason()),
        }
    }
}

impl Error for Refusal {}
