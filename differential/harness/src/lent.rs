//! The port's store.
use crate::book::{Told, LINE_MAX};
use crate::ffi;
use crate::plain::{Map, Party, Refusal, Uuid};
use crate::port::{answer, bytes, id, refused, written, Data};

/// A party as the library takes it; the hall with a byte that it may not read.
pub fn party(p: Party) -> ffi::Party {
    ffi::Party { organiser: p.is_some(), owner: p.unwrap_or(0xee) }
}

/// The stack of a thread that calls the library: a call on an index of more than 65535 bytes takes up to 5 MB.
const STACK: usize = 16 << 20;

/// Does the work on a thread that has room for every call. Its panic is this one's.
pub fn with_room<T: Send + 'static>(work: impl FnOnce() -> T + Send + 'static) -> T {
    let thread = std::thread::Builder::new().stack_size(STACK).spawn(work).expect("a thread");
    thread.join().unwrap_or_else(|panic| std::panic::resume_unwind(panic))
}

/// A store: the two lent buffers.
#[derive(Clone)]
pub struct Store {
    pub index: Vec<u8>,
    pub text: Vec<u8>,
}

impl Store {
    pub fn fresh(index: usize, text: usize) -> Self {
        Store { index: vec![0; index], text: vec![0; text] }
    }
    pub fn clear(&mut self) -> Option<Refusal> {
        refused(unsafe {
            ffi::raspteal_store_clear(self.index.as_mut_ptr(), self.index.len(), self.text.as_mut_ptr(), self.text.len())
        })
    }
    /// A refusal, if any, the lines walked, and those filed in another form than 32 digits.
    pub fn insert(&mut self, p: Party, lines: &[u8]) -> (Option<Refusal>, usize, usize) {
        let r = unsafe {
            ffi::raspteal_store_insert(
                self.index.as_mut_ptr(), self.index.len(), self.text.as_mut_ptr(), self.text.len(), party(p),
                lines.as_ptr(), lines.len(),
            )
        };
        (refused(r.refusal), r.count, r.not_simple)
    }
    pub fn save(
        &mut self, p: Party, data: &Data, buttons: &[u32], axes: &[u32], name: &[u8], uuid: Uuid,
    ) -> Result<Map, Refusal> {
        answer(&unsafe {
            ffi::raspteal_store_save(
                self.index.as_mut_ptr(), self.index.len(), self.text.as_mut_ptr(), self.text.len(), party(p),
                data.0, buttons.as_ptr(), buttons.len(), axes.as_ptr(), axes.len(), name.as_ptr(), name.len(), id(uuid),
            )
        })
    }
    /// Whether a line was held, which is gone then.
    pub fn remove(&mut self, p: Party, uuid: Uuid) -> Result<bool, Refusal> {
        let gone = unsafe {
            ffi::raspteal_store_remove(
                self.index.as_mut_ptr(), self.index.len(), self.text.as_mut_ptr(), self.text.len(), party(p), id(uuid),
            )
        };
        match refused(gone.refusal) {
            Some(r) => {
                assert!(!gone.found);
                Err(r)
            }
            None => Ok(gone.found),
        }
    }
    pub fn set_share(&mut self, owner: u8, bytes: usize) -> Option<Refusal> {
        let (i, t) = (&mut self.index, &self.text);
        refused(unsafe {
            ffi::raspteal_store_set_share(i.as_mut_ptr(), i.len(), t.as_ptr(), t.len(), owner, bytes)
        })
    }
    /// A party's share, and the bytes of its lines.
    pub fn share(&self, owner: u8) -> Result<(usize, usize), Refusal> {
        let (i, t) = (&self.index, &self.text);
        let told = unsafe { ffi::raspteal_store_share(i.as_ptr(), i.len(), t.as_ptr(), t.len(), owner) };
        match refused(told.refusal) {
            Some(r) => {
                assert!(told.share == 0 && told.used == 0);
                Err(r)
            }
            None => Ok((told.share, told.used)),
        }
    }
    /// The records of the index with their sizes, each behind the one before it, from the front on.
    pub fn walked(&self) -> Vec<(usize, Told)> {
        let (mut at, mut all) = (0, Vec::new());
        loop {
            let r = unsafe { ffi::raspteal_store_record_at(self.index.as_ptr(), self.index.len(), at) };
            if !r.found {
                return all;
            }
            let told = if r.is_share {
                Told::Share(r.owner, r.share)
            } else {
                Told::Line((r.owner, bytes(r.id)), r.offset, r.len)
            };
            at += r.size;
            all.push((r.size, told));
        }
    }
    /// A party's line under a UUID, by both calls.
    pub fn look_up(&self, p: Party, uuid: Uuid) -> Result<Option<Vec<u8>>, Refusal> {
        let (i, t) = (&self.index, &self.text);
        let mut out = [0xee; LINE_MAX + 4];
        let (look, line) = unsafe {
            (
                ffi::raspteal_store_found(i.as_ptr(), i.len(), t.as_ptr(), t.len(), party(p), id(uuid)),
                ffi::raspteal_store_get(
                    i.as_ptr(), i.len(), t.as_ptr(), t.len(), party(p), id(uuid), out.as_mut_ptr(), out.len(),
                ),
            )
        };
        let len = copied(line, &out);
        match (refused(look.refusal), look.found) {
            (Some(r), _) => {
                assert!(!look.found && len == 0);
                Err(r)
            }
            (None, true) => Ok(Some(out[..len].to_vec())),
            (None, false) => {
                assert_eq!(len, 0);
                Ok(None)
            }
        }
    }
}

/// The lines of a text, cut off one after the other.
pub fn cuts(lines: &[u8]) -> Vec<&[u8]> {
    let (mut at, mut all) = (0, Vec::new());
    loop {
        let cut = unsafe { ffi::raspteal_next_line(lines.as_ptr(), lines.len(), at) };
        if !cut.found {
            return all;
        }
        all.push(&lines[at..at + cut.len]);
        at = cut.next;
    }
}

/// The length of a line that was copied to the start of a buffer of ee; the bytes after it are as they were.
pub fn copied(w: ffi::Written, out: &[u8]) -> usize {
    let len = written(w).expect("a line over the limit");
    assert!(out[len..].iter().all(|b| *b == 0xee), "bytes after the line changed");
    len
}
