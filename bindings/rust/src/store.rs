//! The store of lines.
use crate::error::{Error, InsertError};
use crate::ffi::safe;
use crate::stack::on_stack_for;
use crate::{By, Code, HeldLines, Mapping, MappingData, Party, Uuid, INDEX_MAX, SMALL_MAX, TEXT_MAX};

/// The lines held under their UUIDs, in two buffers: an index of at most 1048576 bytes and a text of at most 16777216.
/// A line takes 21 bytes of the index, an organiser's 22, and 2 more where it lies beyond the first 65535 bytes of the
/// text; a party's share takes 4, and 6 where it is over 65535. Fresh buffers are all 0. [`Store::small`] and
/// [`Store::large`] have the sizes of a hub's files, which [`StoreFile`](crate::StoreFile) reads and writes.
///
/// The hall and the league organisers share a store, each with lines of its own. The calls here are the hall's;
/// [`Store::by`] and [`Store::seen_by`] make those of an organiser.
///
/// The buffers are owned (`Vec<u8>`, arrays) or lent (`&mut [u8]`); a store over `&[u8]` can only be looked up. Keep
/// them as they are between calls, in a file or in shared memory: the store has no other state.
///
/// # Stack
///
/// A call takes up to 384 KB of the stack: mind it in a thread with a small one. On an index of more than 65535 bytes a
/// call takes some megabytes, which a thread of Rust has not (2 MiB): so it runs on a thread of its own with a stack of
/// 8 MiB, and the caller waits for it. Where the system gives no such thread the call panics, and nothing was done.
///
/// ```
/// use raspteal::{Store, Uuid};
///
/// let mut index = [0; 42];
/// let mut text = [0; 100];
/// let mut store = Store::over(&mut index[..], &mut text[..]);
/// store.insert("00000000000000000000000000000001,Pad,a:b0,\n# nothing\n")?;
/// assert!(store.found(Uuid::from_u128(1))?);
///
/// let store = Store::over(&index[..], &text[..]);
/// assert_eq!(store.get(Uuid::from_u128(1))?.unwrap(), b"00000000000000000000000000000001,Pad,a:b0,");
/// assert_eq!(store.get(Uuid::NIL)?, None);
/// # Ok::<(), Box<dyn std::error::Error>>(())
/// ```
#[derive(Clone, Debug, PartialEq, Eq)]
pub struct Store<B = Vec<u8>> {
    index: B,
    text: B,
}

/// How a line is held under a UUID that may carry a checksum, with the line, or with nothing.
#[derive(Clone, Copy, Debug, PartialEq, Eq)]
pub enum Match<L = Vec<u8>> {
    /// It is held under the whole UUID.
    Exact(L),
    /// Nothing is held under the whole UUID, and this line under [`Uuid::without_checksum`] of it.
    Near(L),
}

/// What an insert walked.
#[derive(Clone, Copy, Debug, PartialEq, Eq, Hash)]
pub struct Inserted {
    /// The lines walked.
    pub count: usize,
    /// How many of them were filed with a UUID that is not spelled in 32 digits.
    pub not_simple: usize,
}

/// A party's share of the text, and its use of it.
#[derive(Clone, Copy, Debug, PartialEq, Eq, Hash)]
pub struct Share {
    /// The bytes that others can't fill; 0 where the party has no share.
    pub share: usize,
    /// The bytes of the party's lines.
    pub used: usize,
}

impl Store {
    /// A fresh store that owns buffers of these lengths. Over [`INDEX_MAX`] or [`TEXT_MAX`] each of its calls is
    /// refused: 19, or 23 for a clear.
    pub fn new(index_len: usize, text_len: usize) -> Store {
        Store { index: vec![0; index_len], text: vec![0; text_len] }
    }

    /// A fresh store of the smaller size, 65535 bytes each.
    pub fn small() -> Store {
        Store::new(SMALL_MAX, SMALL_MAX)
    }

    /// A fresh store as large as can be.
    pub fn large() -> Store {
        Store::new(INDEX_MAX, TEXT_MAX)
    }

    /// The same lines and shares in a store as large as can be: zeros follow the bytes of each buffer. A larger buffer
    /// stays as it is.
    ///
    /// ```
    /// use raspteal::{Store, Uuid, INDEX_MAX};
    ///
    /// let mut store = Store::new(21, 100);
    /// store.insert("00000000000000000000000000000001,Pad")?;
    /// let mut store = store.grown();
    /// assert_eq!(store.index().len(), INDEX_MAX);
    /// store.insert("00000000000000000000000000000002,Pad")?;
    /// assert!(store.found(Uuid::from_u128(1))?);
    /// # Ok::<(), Box<dyn std::error::Error>>(())
    /// ```
    pub fn grown(mut self) -> Store {
        self.index.resize(INDEX_MAX.max(self.index.len()), 0);
        self.text.resize(TEXT_MAX.max(self.text.len()), 0);
        self
    }
}

impl<B> Store<B> {
    /// The store that two buffers hold. Fresh ones are all 0.
    pub fn over(index: B, text: B) -> Store<B> {
        Store { index, text }
    }

    /// The two buffers, index and text.
    pub fn into_buffers(self) -> (B, B) {
        (self.index, self.text)
    }
}

impl<B: AsRef<[u8]>> Store<B> {
    /// The index.
    pub fn index(&self) -> &[u8] {
        self.index.as_ref()
    }

    /// The text.
    pub fn text(&self) -> &[u8] {
        self.text.as_ref()
    }

    /// The store as a party sees it: look-ups alone.
    pub fn seen_by(&self, party: Party) -> By<&[u8]> {
        By::new(self.index(), self.text(), party)
    }

    /// The share and the use of the party with that owner byte, 0 being the hall. Refusal: 19.
    pub fn share(&self, owner: u8) -> Result<Share, Error> {
        let (index, text) = (self.index(), self.text());
        let told = on_stack_for(index.len(), || safe::store_share(index, text, owner));
        Error::check(told.refusal)?;
        Ok(Share { share: told.share, used: told.used })
    }

    /// The lines that all parties hold, in list order: the one filed last comes last. Refusal: 19.
    ///
    /// ```
    /// use raspteal::{Party, Store};
    ///
    /// let mut store = Store::new(100, 100);
    /// store.by(Party::Organiser(7)).insert("00000000000000000000000000000001,League's")?;
    /// store.insert("00000000000000000000000000000001,Hall's")?;
    /// let held: Vec<_> = store.lines()?.map(|held| (held.party, held.line)).collect();
    /// assert_eq!(held[0], (Party::Organiser(7), &b"00000000000000000000000000000001,League's"[..]));
    /// assert_eq!(held[1], (Party::Hall, &b"00000000000000000000000000000001,Hall's"[..]));
    /// # Ok::<(), Box<dyn std::error::Error>>(())
    /// ```
    pub fn lines(&self) -> Result<HeldLines<'_>, Error> {
        HeldLines::of(self.index(), self.text())
    }

    /// Whether a line is held under a UUID. Refusal: 19.
    pub fn found(&self, id: Uuid) -> Result<bool, Error> {
        self.seen_by(Party::Hall).found(id)
    }

    /// The line held under a UUID. Refusal: 19.
    pub fn get(&self, id: Uuid) -> Result<Option<Vec<u8>>, Error> {
        self.seen_by(Party::Hall).get(id)
    }

    /// Copies the line held under a UUID to the start of a buffer and hands back its length, 0 where none is held or
    /// the store is not sound. `None`, and the buffer as it was, where it is shorter than the line.
    pub fn get_into(&self, id: Uuid, out: &mut [u8]) -> Option<usize> {
        self.seen_by(Party::Hall).get_into(id, out)
    }

    /// The line held under a UUID, or else under the same UUID without its checksum. Refusal: 19.
    ///
    /// ```
    /// use raspteal::{Match, Store, Uuid};
    ///
    /// let mut store = Store::new(21, 100);
    /// store.insert("030000005e0400008e02000014010000,Pad,a:b0,")?;
    /// let pad: Uuid = "0300abcd5e0400008e02000014010000".parse()?;
    /// assert_eq!(store.get(pad)?, None);
    /// assert!(matches!(store.get_near(pad)?, Some(Match::Near(_))));
    /// # Ok::<(), Box<dyn std::error::Error>>(())
    /// ```
    pub fn get_near(&self, id: Uuid) -> Result<Option<Match>, Error> {
        self.seen_by(Party::Hall).get_near(id)
    }

    /// The same without the line: whether one is held under a UUID, or else under the same UUID without its checksum.
    /// Refusal: 19.
    pub fn found_near(&self, id: Uuid) -> Result<Option<Match<()>>, Error> {
        self.seen_by(Party::Hall).found_near(id)
    }

    /// Copies the line that [`Store::get_near`] finds to the start of a buffer, as [`Store::get_into`] does.
    pub fn get_near_into(&self, id: Uuid, out: &mut [u8]) -> Option<usize> {
        self.seen_by(Party::Hall).get_near_into(id, out)
    }

    /// The map of the line held under a UUID, by the lists of the pad's codes. Refusals: 19, then those of
    /// [`Mapping::parse_sdl_mapping`].
    pub fn mapping(&self, id: Uuid, buttons: &[Code], axes: &[Code]) -> Result<Option<Mapping>, Error> {
        self.seen_by(Party::Hall).mapping(id, buttons, axes)
    }
}

impl<B: AsRef<[u8]> + AsMut<[u8]>> Store<B> {
    /// The store in a party's hands: inserts, saves and look-ups.
    pub fn by(&mut self, party: Party) -> By<&mut [u8]> {
        By::new(self.index.as_mut(), self.text.as_mut(), party)
    }

    /// Sets every byte of both buffers to 0, whether the store was sound or not: no party has a line or a share
    /// then. Refusal: 23.
    pub fn clear(&mut self) -> Result<(), Error> {
        let (index, text) = (self.index.as_mut(), self.text.as_mut());
        Error::check(on_stack_for(index.len(), || safe::store_clear(index, text)))
    }

    /// Gives the party with that owner byte, 0 being the hall, a share of the text in bytes; 0 takes it away. A line that
    /// leaves its party within its share is never refused for text (25), whatever the others file. Refusals, with nothing
    /// changed: 19; 26, where the sum over all parties of the larger of use and share would exceed the text; 21.
    ///
    /// ```
    /// use raspteal::{Error, Party, Share, Store};
    ///
    /// let mut store = Store::new(100, 100);
    /// store.set_share(0, 60)?;
    /// let league = "00000000000000000000000000000001,League's pad";
    /// assert_eq!(store.by(Party::Organiser(7)).insert(league).unwrap_err().error, Error::NoText);
    /// store.insert("00000000000000000000000000000001,Hall's")?;
    /// assert_eq!(store.share(0)?, Share { share: 60, used: 39 });
    /// # Ok::<(), Box<dyn std::error::Error>>(())
    /// ```
    pub fn set_share(&mut self, owner: u8, bytes: usize) -> Result<(), Error> {
        let (index, text) = (self.index.as_mut(), self.text.as_ref());
        Error::check(on_stack_for(index.len(), || safe::store_set_share(index, text, owner, bytes)))
    }

    /// Files the lines of a text that are for Linux and start with a UUID, each in place of the one under its UUID,
    /// and hands back the number of lines walked, and of those filed in another form than 32 digits. Refusals: 19 and
    /// 10 with nothing changed; 20, 21 and 25 stop at one line, and those before it are filed.
    pub fn insert(&mut self, lines: impl AsRef<[u8]>) -> Result<Inserted, InsertError> {
        self.by(Party::Hall).insert(lines)
    }

    /// Builds the line of what staff have bound, as [`MappingData::build`] does, and files it under the UUID. Looked
    /// up with the same lists it reads back as the map that this call hands back. Refusals, with nothing changed:
    /// those of build, then 22, 19, 21, 25.
    pub fn save(
        &mut self,
        data: &MappingData,
        buttons: &[Code],
        axes: &[Code],
        name: impl AsRef<[u8]>,
        id: Uuid,
    ) -> Result<Mapping, Error> {
        self.by(Party::Hall).save(data, buttons, axes, name, id)
    }

    /// Takes the line under a UUID out, and hands back whether one was held. The lines behind it move down, in their
    /// order, and the shares stay. Refusal, with nothing changed: 19.
    ///
    /// ```
    /// use raspteal::{Store, Uuid};
    ///
    /// let mut store = Store::new(42, 100);
    /// store.insert("00000000000000000000000000000001,a\n00000000000000000000000000000002,b")?;
    /// assert!(store.remove(Uuid::from_u128(1))?);
    /// assert!(!store.remove(Uuid::from_u128(1))?);
    /// assert_eq!(store.get(Uuid::from_u128(2))?.unwrap(), b"00000000000000000000000000000002,b");
    /// # Ok::<(), Box<dyn std::error::Error>>(())
    /// ```
    pub fn remove(&mut self, id: Uuid) -> Result<bool, Error> {
        self.by(Party::Hall).remove(id)
    }
}
