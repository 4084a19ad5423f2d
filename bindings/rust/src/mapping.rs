//! Maps from event codes to elements.
use crate::error::Error;
use crate::ffi::{self, safe};
use crate::parser::range;
use crate::{AxisOrBtn, AxisRange, Code};
use std::fmt;
use std::ops::Range;

/// A map from event codes to elements, at most 256 of them, ascending by code.
///
/// ```
/// use raspteal::{AxisOrBtn, Button, Code, Mapping};
///
/// let line = "03000000de280000ff11000001000000,Pad,a:b1,b:b0,dpup:h0.1,";
/// let map = Mapping::parse_sdl_mapping(line, &[Code(0x10130), Code(0x10131)], &[])?;
/// assert_eq!(map.map(Code(0x10131)), Some(AxisOrBtn::Btn(Button::South)));
/// assert_eq!(map.map_rev(Button::East), Some(Code(0x10130)));
/// assert_eq!(map.name_in(line), "Pad");
/// assert_eq!(map.hats_mapped(), 1);
/// # Ok::<(), raspteal::Error>(())
/// ```
#[derive(Clone, PartialEq, Eq)]
pub struct Mapping(ffi::Mapping);

/// An entry of a map: a code, its element, and which half of the axis it takes and gives.
#[derive(Clone, Copy, Debug, PartialEq, Eq, Hash)]
pub struct Entry {
    /// The event code.
    pub code: Code,
    /// The element.
    pub element: AxisOrBtn,
    /// The half of the axis that counts, as the value of the pair names it.
    pub input: AxisRange,
    /// The half of the element that it moves, as the key of the pair names it.
    pub output: AxisRange,
    /// Whether it counts the other way round.
    pub inverted: bool,
}

impl From<ffi::Entry> for Entry {
    fn from(e: ffi::Entry) -> Entry {
        Entry {
            code: Code(e.code),
            element: e.element.into(),
            input: range(e.input),
            output: range(e.output),
            inverted: e.inverted,
        }
    }
}

impl From<Entry> for ffi::Entry {
    fn from(e: Entry) -> ffi::Entry {
        safe::entry_ranged(e.code.0, e.element.into(), e.input as u8, e.output as u8, e.inverted)
    }
}

impl Entry {
    /// The entry as one number.
    pub fn number(self) -> u64 {
        safe::entry_number(self.into())
    }

    /// The entry of a number.
    pub fn of_number(x: u64) -> Entry {
        safe::entry_of_number(x).into()
    }
}

impl Mapping {
    /// The empty map.
    pub fn new() -> Mapping {
        Mapping(safe::mapping_new())
    }

    /// Reads a line by the lists of the pad's button and axis codes. Refusals: 10, 12, then 1 to 7 and 11 in the
    /// order of the line.
    pub fn parse_sdl_mapping(line: impl AsRef<[u8]>, buttons: &[Code], axes: &[Code]) -> Result<Mapping, Error> {
        Mapping::accepted(safe::parse_sdl_mapping(line.as_ref(), buttons, axes))
    }

    /// The map of a pad with these lists and no line of its own: of the 31 usual codes those that stand in their list,
    /// a button's among the buttons and an axis's among the axes. Refusal: 12.
    ///
    /// ```
    /// use raspteal::{Button, Code, Mapping};
    ///
    /// let map = Mapping::default_of(&[Code(0x10130)], &[Code(0x30000)])?;
    /// assert_eq!(map.map(Code(0x10130)), Some(Button::South.into()));
    /// assert!(map.is_default());
    /// # Ok::<(), raspteal::Error>(())
    /// ```
    pub fn default_of(buttons: &[Code], axes: &[Code]) -> Result<Mapping, Error> {
        Mapping::accepted(safe::default(buttons, axes))
    }

    /// Puts a code to an element, onto the entry of that code if there is one. Refusal: 11, the map as it was.
    pub fn put(&mut self, code: Code, element: impl Into<AxisOrBtn>) -> Result<(), Error> {
        let put = safe::mapping_put(self.0, safe::entry_new(code.0, element.into().into()));
        self.0 = put.map;
        Error::check(put.refusal)
    }

    /// The element of a code.
    pub fn map(&self, code: Code) -> Option<AxisOrBtn> {
        AxisOrBtn::found(safe::mapping_map(self.0, code.0))
    }

    /// The same look-up for a program that keeps a map and turns codes into elements all day.
    ///
    /// ```
    /// use raspteal::{AxisOrBtn, Button, Code, Mapping};
    ///
    /// let mut map = Mapping::new();
    /// map.put(Code(0x10130), Button::East).unwrap();
    /// let lookup = map.lookup();
    /// assert_eq!(lookup.map(Code(0x10130)), Some(AxisOrBtn::Btn(Button::East)));
    /// assert_eq!(lookup.map(Code(0x10131)), None);
    /// ```
    pub fn lookup(&self) -> Lookup {
        let entries = &self.0.entries[..self.len()];
        Lookup {
            codes: entries.iter().map(|e| e.code).collect(),
            elements: entries.iter().map(|e| e.element.number as u32 + 65536 * e.element.is_axis as u32).collect(),
        }
    }

    /// The least code of an element.
    pub fn map_rev(&self, element: impl Into<AxisOrBtn>) -> Option<Code> {
        Code::found(safe::mapping_map_rev(self.0, element.into().into()))
    }

    /// The entry of a code, with its ranges.
    pub fn entry(&self, code: Code) -> Option<Entry> {
        let e = safe::mapping_entry(self.0, code.0);
        e.found.then(|| e.entry.into())
    }

    /// Puts an entry with its ranges, onto the one of its code if there is one. Refusal: 11, the map as it was.
    pub fn put_entry(&mut self, entry: Entry) -> Result<(), Error> {
        let put = safe::mapping_put(self.0, entry.into());
        self.0 = put.map;
        Error::check(put.refusal)
    }

    /// The entries with their ranges, ascending by code.
    ///
    /// ```
    /// use raspteal::{AxisRange, Code, Mapping};
    ///
    /// let line = "03000000de280000ff11000001000000,Pedals,righttrigger:+a2~,";
    /// let axes = [Code(0x30000), Code(0x30001), Code(0x30002)];
    /// let map = Mapping::parse_sdl_mapping(line, &[], &axes)?;
    /// let pedal = map.entries().next().unwrap();
    /// assert_eq!((pedal.input, pedal.output, pedal.inverted), (AxisRange::UpperHalf, AxisRange::Full, true));
    /// # Ok::<(), raspteal::Error>(())
    /// ```
    pub fn entries(&self) -> impl ExactSizeIterator<Item = Entry> + '_ {
        self.0.entries[..self.len()].iter().map(|e| Entry::from(*e))
    }

    /// The entries without their ranges, ascending by code.
    pub fn iter(&self) -> Iter<'_> {
        Iter(self.0.entries[..self.len()].iter())
    }

    /// The number of codes.
    pub fn len(&self) -> usize {
        self.0.count
    }

    /// Whether there is no code.
    pub fn is_empty(&self) -> bool {
        self.len() == 0
    }

    /// Where the name stands in the line that the map was read or built from, in bytes.
    pub fn name_range(&self) -> Range<usize> {
        self.0.name_start..self.0.name_start + self.0.name_len
    }

    /// The name, in the line that the map was read or built from; empty where the place does not lie in that line.
    pub fn name_in<'a>(&self, line: &'a str) -> &'a str {
        line.get(self.name_range()).unwrap_or_default()
    }

    /// Whether it is a default map.
    pub fn is_default(&self) -> bool {
        self.0.is_default
    }

    /// The directions of hat 0 that the line names, or-ed: 1 up, 2 right, 4 down, 8 left.
    pub fn hats_mapped(&self) -> u8 {
        self.0.hats_mapped
    }

    pub(crate) fn accepted(a: ffi::Answer) -> Result<Mapping, Error> {
        Error::check(a.refusal)?;
        Ok(Mapping(a.map))
    }

    pub(crate) fn flat(&self) -> ffi::Mapping {
        self.0
    }

    pub(crate) fn of(map: ffi::Mapping) -> Mapping {
        Mapping(map)
    }
}

/// The entries of a map without their ranges, ascending by code; made by [`Mapping::iter`] and by a `for` over a map.
///
/// ```
/// use raspteal::{Button, Code, Mapping};
///
/// let mut map = Mapping::new();
/// map.put(Code(0x10130), Button::East).unwrap();
/// for (code, element) in &map {
///     println!("{code:>8}  {element:<12}|");
/// }
/// ```
#[derive(Clone, Debug)]
pub struct Iter<'a>(std::slice::Iter<'a, ffi::Entry>);

fn pair(e: &ffi::Entry) -> (Code, AxisOrBtn) {
    (Code(e.code), e.element.into())
}

impl Iterator for Iter<'_> {
    type Item = (Code, AxisOrBtn);

    fn next(&mut self) -> Option<(Code, AxisOrBtn)> {
        self.0.next().map(pair)
    }

    fn size_hint(&self) -> (usize, Option<usize>) {
        self.0.size_hint()
    }
}

impl DoubleEndedIterator for Iter<'_> {
    fn next_back(&mut self) -> Option<(Code, AxisOrBtn)> {
        self.0.next_back().map(pair)
    }
}

impl ExactSizeIterator for Iter<'_> {}

impl std::iter::FusedIterator for Iter<'_> {}

impl<'a> IntoIterator for &'a Mapping {
    type Item = (Code, AxisOrBtn);
    type IntoIter = Iter<'a>;

    fn into_iter(self) -> Iter<'a> {
        self.iter()
    }
}

/// A map kept as two lists, which a look-up reads in their place; made by [`Mapping::lookup`].
#[derive(Clone, Debug, PartialEq, Eq)]
pub struct Lookup {
    codes: Vec<u32>,
    elements: Vec<u32>,
}

impl Lookup {
    /// The element of a code.
    pub fn map(&self, code: Code) -> Option<AxisOrBtn> {
        AxisOrBtn::found(safe::lists_map(&self.codes, &self.elements, code.0))
    }
}

impl Default for Mapping {
    fn default() -> Mapping {
        Mapping::new()
    }
}

impl fmt::Debug for Mapping {
    fn fmt(&self, f: &mut fmt::Formatter) -> fmt::Result {
        f.debug_struct("Mapping")
            .field("entries", &self.iter().collect::<Vec<_>>())
            .field("name_range", &self.name_range())
            .field("is_default", &self.is_default())
            .field("hats_mapped", &self.hats_mapped())
            .finish()
    }
}
