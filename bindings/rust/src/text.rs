//! The calls on plain text that the others rest on.
use crate::ffi::safe;

/// Whether two byte strings are the same.
///
/// ```
/// assert!(raspteal::text::same_bytes(b"ab", b"ab") && !raspteal::text::same_bytes(b"ab", b"abc"));
/// ```
pub fn same_bytes(a: &[u8], b: &[u8]) -> bool {
    safe::same_bytes(a, b)
}

/// Writes `v` at place `at`, and hands back the place after its last byte; where it does not fit, nothing is written.
///
/// ```
/// let mut out = *b".....";
/// assert_eq!(raspteal::text::write_bytes(&mut out, 1, b"abc"), Some(4));
/// assert_eq!(raspteal::text::write_bytes(&mut out, 3, b"xyz"), None);
/// assert_eq!(&out, b".abc.");
/// ```
pub fn write_bytes(out: &mut [u8], at: usize, v: &[u8]) -> Option<usize> {
    let w = safe::write_bytes(out, at, v);
    w.fits.then_some(w.next)
}

/// The length of the longest run of whole UTF-8 characters from the first byte on.
///
/// ```
/// assert_eq!(raspteal::text::valid_up_to(b"T\xc3\xa9\xff"), 3);
/// ```
pub fn valid_up_to(s: &[u8]) -> usize {
    safe::valid_up_to(s)
}

/// Whether all of `s` is UTF-8.
///
/// ```
/// assert!(raspteal::text::is_utf8("é".as_bytes()) && !raspteal::text::is_utf8(b"\xc0\x80"));
/// ```
pub fn is_utf8(s: &[u8]) -> bool {
    safe::is_utf8(s)
}

/// The number that `s` spells in base ten, one `+` allowed before it.
///
/// ```
/// assert_eq!(raspteal::text::parse_u16(b"+007"), Some(7));
/// assert_eq!(raspteal::text::parse_u16(b"65536"), None);
/// ```
pub fn parse_u16(s: impl AsRef<[u8]>) -> Option<u16> {
    let parsed = safe::parse_u16(s.as_ref());
    parsed.valid.then_some(parsed.number)
}

/// How many digits [`write_index`] writes.
///
/// ```
/// assert_eq!(raspteal::text::index_len(1023), 4);
/// ```
pub fn index_len(n: usize) -> usize {
    safe::index_len(n)
}

/// Writes `n` in base ten at place `at`, and hands back the place after its last digit; where it does not fit,
/// nothing is written.
///
/// ```
/// let mut out = *b"....";
/// assert_eq!(raspteal::text::write_index(&mut out, 1, 42), Some(3));
/// assert_eq!(&out, b".42.");
/// ```
pub fn write_index(out: &mut [u8], at: usize, n: usize) -> Option<usize> {
    let w = safe::write_index(out, at, n);
    w.fits.then_some(w.next)
}

/// The lines of a text as an insert cuts them: at each LF, without a CR before it. A final bare CR stays, and nothing
/// after a final LF is no line.
///
/// ```
/// let lines: Vec<_> = raspteal::text::lines(b"a\r\n\nb\r").collect();
/// assert_eq!(lines, [&b"a"[..], b"", b"b\r"]);
/// ```
pub fn lines(text: &[u8]) -> Lines<'_> {
    Lines { text, at: 0 }
}

/// The lines of a text, by [`lines`].
#[derive(Clone, Debug)]
pub struct Lines<'a> {
    text: &'a [u8],
    at: usize,
}

impl<'a> Iterator for Lines<'a> {
    type Item = &'a [u8];

    fn next(&mut self) -> Option<&'a [u8]> {
        let cut = safe::next_line(self.text, self.at);
        if !cut.found {
            return None;
        }
        let line = &self.text[self.at..self.at + cut.len];
        self.at = cut.next;
        Some(line)
    }
}

impl std::iter::FusedIterator for Lines<'_> {}
