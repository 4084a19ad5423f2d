//! Who calls the store: the hall, or a league organiser.
use crate::error::{Error, InsertError};
use crate::ffi::{self, safe};
use crate::stack::on_stack_for;
use crate::{Code, Inserted, Mapping, MappingData, Match, Uuid, LINE_MAX};

/// The hall, or a league organiser by its owner byte, 1 to 255.
#[derive(Clone, Copy, Debug, PartialEq, Eq, Hash, PartialOrd, Ord)]
pub enum Party {
    /// The hall.
    Hall,
    /// The organiser with this owner. Each call with 0 is refused: 24.
    Organiser(u8),
}

impl Party {
    /// The party with an owner byte, 0 being the hall.
    pub(crate) fn of_owner(owner: u8) -> Party {
        match owner {
            0 => Party::Hall,
            _ => Party::Organiser(owner),
        }
    }
}

impl From<Party> for ffi::Party {
    fn from(party: Party) -> ffi::Party {
        match party {
            Party::Hall => ffi::Party { organiser: false, owner: 0 },
            Party::Organiser(owner) => ffi::Party { organiser: true, owner },
        }
    }
}

/// A store in a party's hands, by [`Store::by`](crate::Store::by), or as it sees it, by
/// [`Store::seen_by`](crate::Store::seen_by). The calls are those of the store: they file and find lines of this party
/// alone, beside those of the others, and are refused with 24, before any other refusal, where the party is
/// `Organiser(0)`.
///
/// ```
/// use raspteal::{Party, Store, Uuid};
///
/// let mut store = Store::new(43, 100);
/// let league = Party::Organiser(7);
/// store.insert("00000000000000000000000000000001,the hall's,a:b0,")?;
/// store.by(league).insert("00000000000000000000000000000001,the league's,a:b1,")?;
///
/// let pad = Uuid::from_u128(1);
/// assert_eq!(store.get(pad)?.unwrap(), b"00000000000000000000000000000001,the hall's,a:b0,");
/// let line = store.seen_by(league).get(pad)?.unwrap();
/// assert_eq!(line, b"00000000000000000000000000000001,the league's,a:b1,");
/// assert_eq!(store.seen_by(Party::Organiser(8)).get(pad)?, None);
/// # Ok::<(), Box<dyn std::error::Error>>(())
/// ```
#[derive(Debug)]
pub struct By<B> {
    index: B,
    text: B,
    party: ffi::Party,
}

impl<B> By<B> {
    pub(crate) fn new(index: B, text: B, party: Party) -> By<B> {
        By { index, text, party: party.into() }
    }
}

impl<B: AsRef<[u8]>> By<B> {
    /// Looks something up, on the stack that the index needs.
    fn look<T: Send>(&self, up: impl FnOnce(&[u8], &[u8], ffi::Party) -> T + Send) -> T {
        let (index, text, party) = (self.index.as_ref(), self.text.as_ref(), self.party);
        on_stack_for(index.len(), || up(index, text, party))
    }

    /// Whether the party holds a line under a UUID. Refusals: 24, 19.
    pub fn found(&self, id: Uuid) -> Result<bool, Error> {
        let look = self.look(|index, text, party| safe::store_found(index, text, party, id.into()));
        Error::check(look.refusal)?;
        Ok(look.found)
    }

    /// The party's line under a UUID. Refusals: 24, 19.
    pub fn get(&self, id: Uuid) -> Result<Option<Vec<u8>>, Error> {
        if !self.found(id)? {
            return Ok(None);
        }
        let mut line = vec![0; LINE_MAX];
        let len = self.get_into(id, &mut line).expect("a held line has at most 16384 bytes");
        line.truncate(len);
        Ok(Some(line))
    }

    /// Copies the party's line under a UUID to the start of a buffer and hands back its length, 0 where it holds none,
    /// the store is not sound or the party is `Organiser(0)`. `None`, and the buffer as it was, where it is shorter than
    /// the line.
    pub fn get_into(&self, id: Uuid, out: &mut [u8]) -> Option<usize> {
        let w = self.look(|index, text, party| safe::store_get(index, text, party, id.into(), out));
        w.fits.then_some(w.next)
    }

    /// The party's line under a UUID, or else under the same UUID without its checksum. Refusals: 24, 19.
    pub fn get_near(&self, id: Uuid) -> Result<Option<Match>, Error> {
        let Some(found) = self.found_near(id)? else {
            return Ok(None);
        };
        let mut line = vec![0; LINE_MAX];
        let len = self.get_near_into(id, &mut line).expect("a held line has at most 16384 bytes");
        line.truncate(len);
        Ok(Some(match found {
            Match::Exact(()) => Match::Exact(line),
            Match::Near(()) => Match::Near(line),
        }))
    }

    /// The same without the line.
    pub fn found_near(&self, id: Uuid) -> Result<Option<Match<()>>, Error> {
        let look = self.look(|index, text, party| safe::store_found_near(index, text, party, id.into()));
        Error::check(look.refusal)?;
        Ok(match look.how {
            1 => Some(Match::Exact(())),
            2 => Some(Match::Near(())),
            _ => None,
        })
    }

    /// Copies the line that [`By::get_near`] finds to the start of a buffer, as [`By::get_into`] does.
    pub fn get_near_into(&self, id: Uuid, out: &mut [u8]) -> Option<usize> {
        let w = self.look(|index, text, party| safe::store_get_near(index, text, party, id.into(), out));
        w.fits.then_some(w.next)
    }

    /// The map of the party's line under a UUID, by the lists of the pad's codes. Refusals: 24, 19, then those of
    /// [`Mapping::parse_sdl_mapping`].
    pub fn mapping(&self, id: Uuid, buttons: &[Code], axes: &[Code]) -> Result<Option<Mapping>, Error> {
        match self.get(id)? {
            None => Ok(None),
            Some(line) => Mapping::parse_sdl_mapping(line, buttons, axes).map(Some),
        }
    }
}

impl<B: AsRef<[u8]> + AsMut<[u8]>> By<B> {
    /// Files lines, each in place of the party's one under its UUID, as [`Store::insert`](crate::Store::insert) does.
    /// Refusals: 24, with no line walked, then those there.
    pub fn insert(&mut self, lines: impl AsRef<[u8]>) -> Result<Inserted, InsertError> {
        let (index, text, party, lines) = (self.index.as_mut(), self.text.as_mut(), self.party, lines.as_ref());
        let inserted = on_stack_for(index.len(), || safe::store_insert(index, text, party, lines));
        let walked = Inserted { count: inserted.count, not_simple: inserted.not_simple };
        Error::check(inserted.refusal).map_err(|error| InsertError { error, walked })?;
        Ok(walked)
    }

    /// Builds a line and files it in place of the party's one under the UUID, as [`Store::save`](crate::Store::save)
    /// does. Refusals, with nothing changed: 24, then those there.
    pub fn save(
        &mut self,
        data: &MappingData,
        buttons: &[Code],
        axes: &[Code],
        name: impl AsRef<[u8]>,
        id: Uuid,
    ) -> Result<Mapping, Error> {
        let (index, text, party) = (self.index.as_mut(), self.text.as_mut(), self.party);
        let (slots, name, id) = (data.slots(), name.as_ref(), id.into());
        Mapping::accepted(on_stack_for(index.len(), || {
            safe::store_save(index, text, party, slots, buttons, axes, name, id)
        }))
    }
    /// Takes the party's line under a UUID out, and hands back whether it held one. The lines behind it move down, in
    /// their order, and the shares stay. Refusals, with nothing changed: 24, 19.
    pub fn remove(&mut self, id: Uuid) -> Result<bool, Error> {
        let (index, text, party) = (self.index.as_mut(), self.text.as_mut(), self.party);
        let gone = on_stack_for(index.len(), || safe::store_remove(index, text, party, id.into()));
        Error::check(gone.refusal)?;
        Ok(gone.found)
    }
}
