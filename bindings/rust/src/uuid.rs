//! UUIDs.
use crate::error::ParseUuidError;
use crate::ffi::{self, safe};
use std::fmt;
use std::str::FromStr;

/// How a UUID is spelled.
#[derive(Clone, Copy, Debug, PartialEq, Eq, Hash)]
pub enum Form {
    /// 32 digits.
    Simple,
    /// With hyphens, 36 characters.
    Hyphenated,
    /// That in braces.
    Braced,
    /// That after `urn:uuid:`.
    Urn,
    /// The word `xinput` in the first field of a line, which the walker takes for the UUID of zeros.
    Xinput,
}

impl Form {
    pub(crate) fn of_number(n: u8) -> Form {
        match n {
            1 => Form::Simple,
            2 => Form::Hyphenated,
            3 => Form::Braced,
            4 => Form::Urn,
            _ => Form::Xinput,
        }
    }
}

/// A UUID, under which a line is stored. It is read in four forms and written as 32 lower-case digits.
///
/// ```
/// use raspteal::Uuid;
///
/// let id: Uuid = "urn:uuid:F81D4FAE-7DEC-11D0-A765-00A0C91E6BF6".parse()?;
/// assert_eq!(id.to_string(), "f81d4fae7dec11d0a76500a0c91e6bf6");
/// assert_eq!(id, Uuid::from_u128(0xf81d4fae_7dec_11d0_a765_00a0c91e6bf6));
/// assert!("xinput".parse::<Uuid>().is_err());
/// # Ok::<(), raspteal::ParseUuidError>(())
/// ```
#[derive(Clone, Copy, Debug, PartialEq, Eq, PartialOrd, Ord, Hash)]
pub struct Uuid {
    /// The first eight bytes, high byte first.
    pub high: u64,
    /// The last eight bytes, high byte first.
    pub low: u64,
}

impl Uuid {
    /// All bits 0.
    pub const NIL: Uuid = Uuid { high: 0, low: 0 };

    /// The UUID that a text spells: 32 hexadecimal digits, the form with hyphens, that form in braces, or after
    /// `urn:uuid:`.
    pub fn parse_str(s: impl AsRef<[u8]>) -> Result<Uuid, ParseUuidError> {
        Uuid::parse_spelled(s).map(|(id, _)| id)
    }

    /// The same, with the form that was read; never [`Form::Xinput`].
    ///
    /// ```
    /// use raspteal::{Form, Uuid};
    ///
    /// let (id, form) = Uuid::parse_spelled("{F81D4FAE-7DEC-11D0-A765-00A0C91E6BF6}")?;
    /// assert_eq!((id, form), ("f81d4fae7dec11d0a76500a0c91e6bf6".parse()?, Form::Braced));
    /// # Ok::<(), raspteal::ParseUuidError>(())
    /// ```
    pub fn parse_spelled(s: impl AsRef<[u8]>) -> Result<(Uuid, Form), ParseUuidError> {
        let parsed = safe::uuid_parse_str(s.as_ref());
        if parsed.valid {
            Ok((parsed.id.into(), Form::of_number(parsed.form)))
        } else {
            Err(ParseUuidError)
        }
    }

    /// The same UUID with bytes 2 and 3, counted from 0, zero: recent SDL releases put a checksum there.
    ///
    /// ```
    /// let pad: raspteal::Uuid = "0300abcd5e0400008e02000014010000".parse()?;
    /// assert_eq!(pad.without_checksum().to_string(), "030000005e0400008e02000014010000");
    /// # Ok::<(), raspteal::ParseUuidError>(())
    /// ```
    pub fn without_checksum(self) -> Uuid {
        safe::uuid_without_checksum(self.into()).into()
    }

    /// Writes the 32 digits at place `at` of a buffer, and hands back the place after them; where they do not fit,
    /// nothing is written.
    ///
    /// ```
    /// let mut out = *b"....................................";
    /// assert_eq!(raspteal::Uuid::NIL.write_simple(&mut out, 2), Some(34));
    /// assert_eq!(&out, b"..00000000000000000000000000000000..");
    /// assert_eq!(raspteal::Uuid::NIL.write_simple(&mut out, 5), None);
    /// ```
    pub fn write_simple(self, out: &mut [u8], at: usize) -> Option<usize> {
        let w = safe::uuid_write_simple(self.into(), out, at);
        w.fits.then_some(w.next)
    }

    /// The UUID of a number, its highest byte first.
    pub fn from_u128(n: u128) -> Uuid {
        Uuid { high: (n >> 64) as u64, low: n as u64 }
    }

    /// The number of a UUID, its first byte highest.
    pub fn as_u128(self) -> u128 {
        u128::from(self.high) << 64 | u128::from(self.low)
    }
}

impl FromStr for Uuid {
    type Err = ParseUuidError;

    fn from_str(s: &str) -> Result<Uuid, ParseUuidError> {
        Uuid::parse_str(s)
    }
}

impl fmt::Display for Uuid {
    fn fmt(&self, f: &mut fmt::Formatter) -> fmt::Result {
        let mut digits = [0; 32];
        self.write_simple(&mut digits, 0);
        f.pad(std::str::from_utf8(&digits).unwrap_or_default())
    }
}

impl From<ffi::Uuid> for Uuid {
    fn from(id: ffi::Uuid) -> Uuid {
        Uuid { high: id.high, low: id.low }
    }
}

impl From<Uuid> for ffi::Uuid {
    fn from(id: Uuid) -> ffi::Uuid {
        ffi::Uuid { high: id.high, low: id.low }
    }
}
