//! What staff have bound, and the line that is built from it.
use crate::error::Error;
use crate::ffi::{self, safe};
use crate::{Axis, Button, Code, Mapping, Uuid};

/// The longest line that a build makes fits.
const BUILT_MAX: usize = 8544;

/// The bindings of a pad: for each button and axis the code of its slot, if it is filled.
///
/// ```
/// use raspteal::{Button, Code, MappingData};
///
/// let mut bound = MappingData::new();
/// assert_eq!(bound.insert_btn(Code(5), Button::South), None);
/// assert_eq!(bound.insert_btn(Code(6), Button::South), Some(Code(5)));
/// assert_eq!(bound.button(Button::South), Some(Code(6)));
/// assert_eq!(bound.remove_button(Button::South), Some(Code(6)));
/// ```
#[derive(Clone, Debug, PartialEq, Eq)]
pub struct MappingData(ffi::MappingData);

/// A built line and its map.
#[derive(Clone, Debug, PartialEq, Eq)]
pub struct Built {
    /// The line, as a store keeps it.
    pub line: String,
    /// The map that reading the line gives.
    pub map: Mapping,
}

impl MappingData {
    /// No slot is filled.
    pub fn new() -> MappingData {
        MappingData(safe::data_new())
    }

    /// The code of a button.
    pub fn button(&self, idx: Button) -> Option<Code> {
        Code::found(safe::data_button(self.0, idx.number()))
    }

    /// The code of an axis.
    pub fn axis(&self, idx: Axis) -> Option<Code> {
        Code::found(safe::data_axis(self.0, idx.number()))
    }

    /// Binds a code to a button, and hands back the former one.
    pub fn insert_btn(&mut self, from: Code, to: Button) -> Option<Code> {
        self.changed(safe::data_insert_btn(self.0, from.0, to.number()))
    }

    /// Binds a code to an axis, and hands back the former one.
    pub fn insert_axis(&mut self, from: Code, to: Axis) -> Option<Code> {
        self.changed(safe::data_insert_axis(self.0, from.0, to.number()))
    }

    /// Unbinds a button, and hands back its code.
    pub fn remove_button(&mut self, idx: Button) -> Option<Code> {
        self.changed(safe::data_remove_button(self.0, idx.number()))
    }

    /// Unbinds an axis, and hands back its code.
    pub fn remove_axis(&mut self, idx: Axis) -> Option<Code> {
        self.changed(safe::data_remove_axis(self.0, idx.number()))
    }

    /// Builds the line of the bindings (`from_data` in gilrs). Refusals: 10, 17, 12, 13, 14, 15, 16.
    ///
    /// ```
    /// use raspteal::{Button, Code, MappingData, Uuid};
    ///
    /// let mut bound = MappingData::new();
    /// bound.insert_btn(Code(0x10131), Button::South);
    /// let built = bound.build(&[Code(0x10130), Code(0x10131)], &[], "T", Uuid::NIL)?;
    /// assert_eq!(built.line, "00000000000000000000000000000000,T,a:b1,");
    /// # Ok::<(), raspteal::Error>(())
    /// ```
    pub fn build(&self, buttons: &[Code], axes: &[Code], name: impl AsRef<[u8]>, id: Uuid) -> Result<Built, Error> {
        let mut out = vec![0; BUILT_MAX];
        let (len, map) = self.build_into(buttons, axes, name, id, &mut out)?;
        out.truncate(len);
        let line = String::from_utf8(out).expect("a name that is UTF-8 makes a line that is");
        Ok(Built { line, map })
    }

    /// Builds the line at the start of a buffer, and hands back its length; later bytes stay as they are, and all do
    /// on a refusal. Refusals: those of [`MappingData::build`], then 18. 8544 bytes hold every line.
    pub fn build_into(
        &self,
        buttons: &[Code],
        axes: &[Code],
        name: impl AsRef<[u8]>,
        id: Uuid,
        out: &mut [u8],
    ) -> Result<(usize, Mapping), Error> {
        let built = safe::from_data(self.0, buttons, axes, name.as_ref(), id.into(), out);
        Error::check(built.refusal)?;
        Ok((built.len, Mapping::of(built.map)))
    }

    fn changed(&mut self, c: ffi::Changed) -> Option<Code> {
        self.0 = c.slots;
        Code::found(c.former)
    }

    pub(crate) fn slots(&self) -> ffi::MappingData {
        self.0
    }
}

impl Default for MappingData {
    fn default() -> MappingData {
        MappingData::new()
    }
}
