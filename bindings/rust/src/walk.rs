//! The lines that a store holds, one after the other.
use crate::error::Error;
use crate::ffi::safe;
use crate::{Party, Uuid};
use std::iter::FusedIterator;

/// A line that a store holds.
#[derive(Clone, Copy, Debug, PartialEq, Eq, Hash)]
pub struct HeldLine<'a> {
    /// Whose it is.
    pub party: Party,
    /// What it is held under.
    pub id: Uuid,
    /// The line, a part of the store's text.
    pub line: &'a [u8],
}

/// The lines of a store in list order, by [`Store::lines`](crate::Store::lines).
#[derive(Clone, Debug)]
pub struct HeldLines<'a> {
    index: &'a [u8],
    text: &'a [u8],
    at: usize,
}

impl<'a> HeldLines<'a> {
    /// Asks once whether the store is sound; the records of a sound one say where the lines lie.
    pub(crate) fn of(index: &'a [u8], text: &'a [u8]) -> Result<HeldLines<'a>, Error> {
        let told = crate::stack::on_stack_for(index.len(), || safe::store_share(index, text, 0));
        Error::check(told.refusal)?;
        Ok(HeldLines { index, text, at: 0 })
    }
}

impl<'a> Iterator for HeldLines<'a> {
    type Item = HeldLine<'a>;

    fn next(&mut self) -> Option<HeldLine<'a>> {
        loop {
            let record = safe::store_record_at(self.index, self.at);
            self.at += record.size;
            if !record.found {
                return None;
            }
            if !record.is_share {
                let line = self.text.get(record.offset..)?.get(..record.len)?;
                return Some(HeldLine { party: Party::of_owner(record.owner), id: record.id.into(), line });
            }
        }
    }
}

impl FusedIterator for HeldLines<'_> {}
