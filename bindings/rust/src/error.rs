//! Refusals, by document 01's numbers.
use crate::ffi;
use crate::{Code, Inserted};
use std::fmt;

/// A refusal of document 01, number 1 to 23, or of document 02, number 24 to 27. A place is a byte's place in the line,
/// name or text that was given. Requests of the customers bring further numbers, so that a `match` has to have an arm for those.
///
/// ```
/// use raspteal::{Error, Mapping};
///
/// let line = "00000000000000000000000000000000,T,a:b65536,";
/// let refused = Mapping::parse_sdl_mapping(line, &[], &[]).unwrap_err();
/// assert_eq!(refused, Error::InvalidValue { place: 35 });
/// assert_eq!((refused.number(), refused.place(), refused.code()), (4, Some(35), None));
/// let text = "refused 4: a pair's value is none: aN, bN or hH.D with numbers up to 65535 (place 35)";
/// assert_eq!(refused.to_string(), text);
/// ```
#[derive(Clone, Copy, Debug, PartialEq, Eq, Hash)]
#[non_exhaustive]
pub enum Error {
    /// 1: the first field of a line is no UUID. The place is 0.
    InvalidGuid {
        /// 0.
        place: usize,
    },
    /// 2: no comma follows the UUID.
    UnexpectedEnd {
        /// 0.
        place: usize,
    },
    /// 3: a pair has not exactly one colon.
    InvalidKeyValPair {
        /// The pair's start.
        place: usize,
    },
    /// 4: a pair's value.
    InvalidValue {
        /// The pair's start, or further on for a hat.
        place: usize,
    },
    /// 5: a pair's key, before an axis value.
    UnknownAxis {
        /// The pair's start.
        place: usize,
    },
    /// 6: a pair's key, before another value.
    UnknownButton {
        /// The pair's start.
        place: usize,
    },
    /// 7: the direction of hat 0.
    UnknownHatDirection {
        /// 0.
        place: usize,
    },
    /// 8: an empty value; only the walker says so, a reading passes over it.
    EmptyValue {
        /// The pair's start.
        place: usize,
    },
    /// 9: a step of the walker after 1 or 2.
    InvalidParserState {
        /// 0.
        place: usize,
    },
    /// 10: not UTF-8.
    NotUtf8 {
        /// The length of the longest run of whole characters from the first byte on.
        place: usize,
    },
    /// 11: a 257th code in a map.
    TooManyCodes {
        /// The pair's start in a reading; a put has none.
        place: Option<usize>,
    },
    /// 12: a list of more than 1024 codes.
    ListTooLong,
    /// 13: a comma in the name.
    InvalidName,
    /// 14: the slot of an unknown element is filled.
    UnknownElement,
    /// 15: the code of a slot is not in its list.
    InvalidCode(Code),
    /// 16: axis slot 7 or 8 is filled.
    NotSdl2Compatible,
    /// 17: a name of more than 8192 bytes.
    NameTooLong,
    /// 18: an output shorter than the line.
    OutputTooShort,
    /// 19: the store is not sound, or its index has more than 1048576 bytes or its text more than 16777216.
    Unsound,
    /// 20: a wanted line of more than 16384 bytes.
    LineTooLong,
    /// 21: no room in the index.
    NoRoom,
    /// 22: a saved name with LF or `platform:`.
    UnsavedName,
    /// 23: a clear of an index with more than 1048576 bytes or a text with more than 16777216.
    BufferTooLarge,
    /// 24: an organiser's call with owner 0.
    NoOwner,
    /// 25: no room in the text: with the line the sum over all parties of the larger of use and share exceeds it.
    NoText,
    /// 26: with the share the same sum exceeds the text.
    ShareTooLarge,
    /// 27: a raw event for a 257th code of a pad.
    PadFull,
}

impl Error {
    /// What was refused, or that nothing was.
    pub(crate) fn check(r: ffi::Refusal) -> Result<(), Error> {
        let place = r.place;
        Err(match r.number {
            0 => return Ok(()),
            1 => Error::InvalidGuid { place },
            2 => Error::UnexpectedEnd { place },
            3 => Error::InvalidKeyValPair { place },
            4 => Error::InvalidValue { place },
            5 => Error::UnknownAxis { place },
            6 => Error::UnknownButton { place },
            7 => Error::UnknownHatDirection { place },
            8 => Error::EmptyValue { place },
            9 => Error::InvalidParserState { place },
            10 => Error::NotUtf8 { place },
            11 => Error::TooManyCodes { place: r.has_place.then_some(place) },
            12 => Error::ListTooLong,
            13 => Error::InvalidName,
            14 => Error::UnknownElement,
            15 => Error::InvalidCode(Code(r.code)),
            16 => Error::NotSdl2Compatible,
            17 => Error::NameTooLong,
            18 => Error::OutputTooShort,
            19 => Error::Unsound,
            20 => Error::LineTooLong,
            21 => Error::NoRoom,
            22 => Error::UnsavedName,
            23 => Error::BufferTooLarge,
            24 => Error::NoOwner,
            25 => Error::NoText,
            26 => Error::ShareTooLarge,
            27 => Error::PadFull,
            n => unreachable!("the library has no refusal {n}"),
        })
    }

    /// The number, document 01's or document 02's.
    pub fn number(&self) -> u8 {
        match self {
            Error::InvalidGuid { .. } => 1,
            Error::UnexpectedEnd { .. } => 2,
            Error::InvalidKeyValPair { .. } => 3,
            Error::InvalidValue { .. } => 4,
            Error::UnknownAxis { .. } => 5,
            Error::UnknownButton { .. } => 6,
            Error::UnknownHatDirection { .. } => 7,
            Error::EmptyValue { .. } => 8,
            Error::InvalidParserState { .. } => 9,
            Error::NotUtf8 { .. } => 10,
            Error::TooManyCodes { .. } => 11,
            Error::ListTooLong => 12,
            Error::InvalidName => 13,
            Error::UnknownElement => 14,
            Error::InvalidCode(_) => 15,
            Error::NotSdl2Compatible => 16,
            Error::NameTooLong => 17,
            Error::OutputTooShort => 18,
            Error::Unsound => 19,
            Error::LineTooLong => 20,
            Error::NoRoom => 21,
            Error::UnsavedName => 22,
            Error::BufferTooLarge => 23,
            Error::NoOwner => 24,
            Error::NoText => 25,
            Error::ShareTooLarge => 26,
            Error::PadFull => 27,
        }
    }

    /// The byte's place that the refusal is about; 12 to 27 have none.
    pub fn place(&self) -> Option<usize> {
        match *self {
            Error::InvalidGuid { place }
            | Error::UnexpectedEnd { place }
            | Error::InvalidKeyValPair { place }
            | Error::InvalidValue { place }
            | Error::UnknownAxis { place }
            | Error::UnknownButton { place }
            | Error::UnknownHatDirection { place }
            | Error::EmptyValue { place }
            | Error::InvalidParserState { place }
            | Error::NotUtf8 { place } => Some(place),
            Error::TooManyCodes { place } => place,
            _ => None,
        }
    }

    /// The code that the refusal is about; only 15 has one.
    pub fn code(&self) -> Option<Code> {
        match *self {
            Error::InvalidCode(code) => Some(code),
            _ => None,
        }
    }

    /// What the number means, in the words of the header and of the hub.
    pub fn meaning(&self) -> &'static str {
        match self {
            Error::InvalidGuid { .. } => "the first field is no UUID",
            Error::UnexpectedEnd { .. } => "no comma follows the UUID",
            Error::InvalidKeyValPair { .. } => "a pair has not exactly one colon",
            Error::InvalidValue { .. } => "a pair's value is none: aN, bN or hH.D with numbers up to 65535",
            Error::UnknownAxis { .. } => "an axis value has an unknown key",
            Error::UnknownButton { .. } => "a button or hat value has an unknown key",
            Error::UnknownHatDirection { .. } => "hat 0 has no such direction: 0, 1, 2, 4 or 8",
            Error::EmptyValue { .. } => "a pair's value is empty",
            Error::InvalidParserState { .. } => "nothing follows a refused first field",
            Error::NotUtf8 { .. } => "not UTF-8",
            Error::TooManyCodes { .. } => "more than 256 codes in a map",
            Error::ListTooLong => "a list of more than 1024 codes",
            Error::InvalidName => "the name has a comma",
            Error::UnknownElement => "the element is Unknown",
            Error::InvalidCode(_) => "the code is not in its list",
            Error::NotSdl2Compatible => "no mapping line can name this axis",
            Error::NameTooLong => "the name has more than 8192 bytes",
            Error::OutputTooShort => "the output is too short",
            Error::Unsound => "not a sound store",
            Error::LineTooLong => "a wanted line of more than 16384 bytes",
            Error::NoRoom => "no room in the index",
            Error::UnsavedName => "the name has a line end or platform:",
            Error::BufferTooLarge => "an index of more than 1048576 bytes, or a text of more than 16777216",
            Error::NoOwner => "an organiser's owner is 1 to 255, not 0",
            Error::NoText => "no room in the text, the parties' shares counted",
            Error::ShareTooLarge => "the text is too small for that share",
            Error::PadFull => "more than 256 codes held by a pad",
        }
    }
}

/// Number and meaning, with the place or the code where there is one.
impl fmt::Display for Error {
    fn fmt(&self, f: &mut fmt::Formatter) -> fmt::Result {
        let mut text = format!("refused {}: {}", self.number(), self.meaning());
        if let Some(place) = self.place() {
            text += &format!(" (place {place})");
        }
        if let Some(code) = self.code() {
            text += &format!(" (code {code})");
        }
        f.pad(&text)
    }
}

impl std::error::Error for Error {}

/// An insert that stopped at a line, or was refused whole. The lines before it are filed.
#[derive(Clone, Copy, Debug, PartialEq, Eq, Hash)]
pub struct InsertError {
    /// What was refused: 24, 19 or 10 with nothing changed, 20, 21 or 25 at the line after those walked.
    pub error: Error,
    /// The lines walked before it.
    pub walked: Inserted,
}

impl fmt::Display for InsertError {
    fn fmt(&self, f: &mut fmt::Formatter) -> fmt::Result {
        f.pad(&format!("{}, after {} lines", self.error, self.walked.count))
    }
}

impl std::error::Error for InsertError {
    fn source(&self) -> Option<&(dyn std::error::Error + 'static)> {
        Some(&self.error)
    }
}

/// A text that is no UUID.
#[derive(Clone, Copy, Debug, PartialEq, Eq, Hash)]
pub struct ParseUuidError;

impl fmt::Display for ParseUuidError {
    fn fmt(&self, f: &mut fmt::Formatter) -> fmt::Result {
        f.pad("no UUID: neither 32 hexadecimal digits nor a form with hyphens")
    }
}

impl std::error::Error for ParseUuidError {}
