//! Document 01's store and book in plain Rust; a line is held under its owner and its UUID, parties have shares of the
//! text, and offsets and shares over 65535 have four bytes (document 02, P9, P10 and P12).
use crate::doc01;
use crate::plain::{owner, refusal, refusal_at, Map, Party, Refusal, Slots, Uuid};
use std::collections::{BTreeMap, BTreeSet};

pub const INDEX_MAX: usize = 1048576;
pub const TEXT_MAX: usize = 16777216;
pub const LINE_MAX: usize = 16384;
/// An owner, 0 being the hall, and a UUID.
pub type Key = (u8, Uuid);

/// Whether an offset or a share has four bytes in its record, else two.
fn is_long(n: usize) -> bool {
    n > 65535
}

/// The bytes of a record of a line at that offset: the hall's, or an organiser's.
pub fn record(k: Key, at: usize) -> usize {
    let short = if k.0 == 0 { 21 } else { 22 };
    if is_long(at) { short + 2 } else { short }
}

/// The shares that are set, by owner; none of 0 bytes.
pub type Shares = BTreeMap<u8, usize>;

/// The bytes of a share's record.
fn share_record(bytes: usize) -> usize {
    if is_long(bytes) { 6 } else { 4 }
}

/// The index that shares take, and lines of these keys and lengths, which lie end to end.
fn records(shares: &Shares, lines: &[(Key, usize)]) -> usize {
    let (mut at, mut sum) = (0, shares.values().map(|b| share_record(*b)).sum::<usize>());
    for (k, len) in lines {
        sum += record(*k, at);
        at += len;
    }
    sum
}

/// The bytes of an owner's lines.
fn used(lines: &[(Key, usize)], owner: u8) -> usize {
    lines.iter().filter(|l| l.0 .0 == owner).map(|l| l.1).sum()
}

/// The sum over all parties of the larger of use and share.
fn claims(shares: &Shares, lines: &[(Key, usize)]) -> u128 {
    let mut each: BTreeMap<u8, (usize, usize)> = shares.iter().map(|(o, b)| (*o, (0, *b))).collect();
    for ((o, _), n) in lines {
        each.entry(*o).or_default().0 += n;
    }
    each.values().map(|(used, share)| *used.max(share) as u128).sum()
}

/// The lines of a text: cut at LF, one CR before it dropped, nothing after a final LF.
pub fn lines(text: &[u8]) -> Vec<&[u8]> {
    let mut pieces: Vec<&[u8]> = text.split(|b| *b == b'\n').collect();
    let last = pieces.pop().unwrap();
    let mut out: Vec<&[u8]> = pieces.iter().map(|l| l.strip_suffix(b"\r").unwrap_or(l)).collect();
    if !last.is_empty() {
        out.push(last);
    }
    out
}

/// The UUID under which a line is filed, if it is wanted.
pub fn wanted(line: &[u8]) -> Option<Uuid> {
    let field = |s: &[u8]| s.split(|b| *b == b',').next().unwrap().to_vec();
    if let Some(i) = line.windows(9).position(|w| w == b"platform:") {
        if field(&line[i + 9..]) != b"Linux" {
            return None;
        }
    }
    doc01::uuid(&field(line))
}

/// What a record tells: an owner's share, or a line's key, where it lies in the text, and its length.
#[derive(Clone, Copy, Debug, PartialEq, Eq)]
pub enum Told {
    Share(u8, usize),
    Line(Key, usize, usize),
}

/// The book, told the lengths of index and text.
#[derive(Clone, Debug)]
pub struct Book {
    pub index: usize,
    pub text: usize,
    pub shares: Shares,
    pub lines: Vec<(Key, Vec<u8>)>,
}

impl Book {
    pub fn new(index: usize, text: usize) -> Self {
        Book { index, text, shares: Shares::new(), lines: Vec::new() }
    }

    pub fn clear(&mut self) {
        self.shares.clear();
        self.lines.clear();
    }

    /// The keys of the lines held, and their lengths.
    fn sizes(&self) -> Vec<(Key, usize)> {
        self.lines.iter().map(|l| (l.0, l.1.len())).collect()
    }

    /// What a party has as its share, and the bytes of its lines.
    pub fn told(&self, owner: u8) -> (usize, usize) {
        (self.shares.get(&owner).copied().unwrap_or(0), used(&self.sizes(), owner))
    }

    /// Sets a share, 0 taking it away; 26, then 21.
    pub fn share(&mut self, owner: u8, bytes: usize) -> Option<Refusal> {
        let (mut shares, lines) = (self.shares.clone(), self.sizes());
        shares.insert(owner, bytes);
        shares.retain(|_, b| *b > 0);
        if claims(&shares, &lines) > self.text as u128 {
            return Some(refusal(26));
        }
        if records(&shares, &lines) > self.index {
            return Some(refusal(21));
        }
        self.shares = shares;
        None
    }

    /// 21 where the index has no room, else 25 where the text has none.
    fn file(&mut self, k: Key, line: &[u8]) -> Result<(), Refusal> {
        let mut after = self.sizes();
        after.retain(|l| l.0 != k);
        after.push((k, line.len()));
        if records(&self.shares, &after) > self.index {
            return Err(refusal(21));
        }
        if claims(&self.shares, &after) > self.text as u128 {
            return Err(refusal(25));
        }
        self.lines.retain(|l| l.0 != k);
        self.lines.push((k, line.to_vec()));
        Ok(())
    }

    /// A refusal, if any, the number of lines walked, and of those filed in another form than 32 digits (P11).
    pub fn insert(&mut self, p: Party, text: &[u8]) -> (Option<Refusal>, usize, usize) {
        let owner = match owner(p) {
            Ok(owner) => owner,
            Err(r) => return (Some(r), 0, 0),
        };
        if let Err(e) = std::str::from_utf8(text) {
            return (Some(refusal_at(10, e.valid_up_to())), 0, 0);
        }
        let (mut n, mut others) = (0, 0);
        for line in lines(text) {
            if let Some(u) = wanted(line) {
                if line.len() > LINE_MAX {
                    return (Some(refusal(20)), n, others);
                }
                if let Err(full) = self.file((owner, u), line) {
                    return (Some(full), n, others);
                }
                others += usize::from(line.split(|b| *b == b',').next().unwrap().len() != 32);
            }
            n += 1;
        }
        (None, n, others)
    }

    /// 24, build's answer, or 22, 21 or 25; the line is filed where nothing is refused.
    pub fn save(
        &mut self, p: Party, slots: &Slots, buttons: &[u32], axes: &[u32], name: &[u8], uuid: Uuid,
    ) -> Result<Map, Refusal> {
        let owner = owner(p)?;
        let (m, line) = doc01::build(slots, buttons, axes, name, uuid)?;
        if unsaved(name) {
            return Err(refusal(22));
        }
        self.file((owner, uuid), &line)?;
        Ok(m)
    }

    /// Takes a party's line out, and says whether it held one; 24. No document has this call.
    pub fn remove(&mut self, p: Party, u: Uuid) -> Result<bool, Refusal> {
        let (key, before) = ((owner(p)?, u), self.lines.len());
        self.lines.retain(|held| held.0 != key);
        Ok(self.lines.len() < before)
    }

    /// The line that a party holds, or 24.
    pub fn get(&self, p: Party, u: Uuid) -> Result<Option<Vec<u8>>, Refusal> {
        let key = (owner(p)?, u);
        Ok(self.lines.iter().find(|l| l.0 == key).map(|l| l.1.clone()))
    }

    /// The two buffers that encode shares and list.
    pub fn buffers(&self) -> (Vec<u8>, Vec<u8>) {
        let (mut index, mut text) = (Vec::with_capacity(self.index), Vec::with_capacity(self.text));
        for (o, b) in &self.shares {
            put_share(&mut index, *o, *b);
        }
        for (k, l) in &self.lines {
            put_record(&mut index, *k, text.len(), l.len());
            text.extend_from_slice(l);
        }
        index.resize(self.index, 0);
        text.resize(self.text, 0);
        (index, text)
    }

    /// The records of the index, with their sizes, one after the other: the shares by owner, then the lines in list order.
    pub fn walked(&self) -> Vec<(usize, Told)> {
        let shares = self.shares.iter().map(|(o, b)| (share_record(*b), Told::Share(*o, *b)));
        let mut off = 0;
        let lines = self.lines.iter().map(|(k, l)| {
            let at = off;
            off += l.len();
            (record(*k, at), Told::Line(*k, at, l.len()))
        });
        shares.chain(lines).collect()
    }

    /// What two buffers encode, or None where the store is not sound.
    pub fn of(index: &[u8], text: &[u8]) -> Option<Book> {
        if index.len() > INDEX_MAX || text.len() > TEXT_MAX {
            return None;
        }
        let mut b = Book::new(index.len(), text.len());
        let front = b.read_shares(index)?;
        let (at, used) = b.read_lines(index, front, text)?;
        let zero = index[at..].iter().chain(&text[used..]).all(|b| *b == 0);
        zero.then_some(b)
    }

    /// Where the records of the shares end, which ascend by owner.
    fn read_shares(&mut self, index: &[u8]) -> Option<usize> {
        let mut at = 0;
        while let Some(&kind) = index.get(at).filter(|k| [4, 6].contains(k)) {
            let end = if kind == 6 { at + 6 } else { at + 4 };
            let record = index.get(at..end)?;
            let (owner, bytes) = (record[1], number(&record[2..]));
            let ascends = self.shares.keys().all(|o| *o < owner);
            if !ascends || bytes == 0 || is_long(bytes) != (kind == 6) {
                return None;
            }
            self.shares.insert(owner, bytes);
            at = end;
        }
        Some(at)
    }

    /// Where the records of the lines end, which start behind the shares, and where the lines end in the text.
    fn read_lines(&mut self, index: &[u8], front: usize, text: &[u8]) -> Option<(usize, usize)> {
        let (mut at, mut used, mut seen) = (front, 0, BTreeSet::new());
        while let Some(&kind) = index.get(at).filter(|k| [1, 2, 3, 5].contains(k)) {
            let (owned, long) = ([3, 5].contains(&kind), [2, 5].contains(&kind));
            let owner = if owned { *index.get(at + 1)? } else { 0 };
            let start = if owned { at + 2 } else { at + 1 };
            let end = if long { start + 22 } else { start + 20 };
            let (uuid, places) = index.get(start..end)?.split_at(16);
            let (off, len) = places.split_at(places.len() - 2);
            let (off, len) = (number(off), number(len));
            let key = (owner, Uuid::try_from(uuid).unwrap());
            if owned && owner == 0 || long != is_long(off) || off != used || !seen.insert(key) {
                return None;
            }
            if len == 0 || len > LINE_MAX || used + len > text.len() {
                return None;
            }
            self.lines.push((key, text[used..used + len].to_vec()));
            (at, used) = (end, used + len);
        }
        Some((at, used))
    }
}

/// The number in bytes, high byte first.
fn number(bytes: &[u8]) -> usize {
    bytes.iter().fold(0, |n, b| 256 * n + *b as usize)
}

fn put_share(index: &mut Vec<u8>, owner: u8, bytes: usize) {
    if is_long(bytes) {
        index.extend_from_slice(&[6, owner]);
        index.extend_from_slice(&(bytes as u32).to_be_bytes());
    } else {
        index.extend_from_slice(&[4, owner]);
        index.extend_from_slice(&(bytes as u16).to_be_bytes());
    }
}

/// The record of a line of that length at that offset.
pub fn put_record(index: &mut Vec<u8>, (owner, uuid): Key, at: usize, len: usize) {
    match (owner, is_long(at)) {
        (0, false) => index.push(1),
        (0, true) => index.push(2),
        (_, false) => index.extend_from_slice(&[3, owner]),
        (_, true) => index.extend_from_slice(&[5, owner]),
    }
    index.extend_from_slice(&uuid);
    if is_long(at) {
        index.extend_from_slice(&(at as u32).to_be_bytes());
    } else {
        index.extend_from_slice(&(at as u16).to_be_bytes());
    }
    index.extend_from_slice(&(len as u16).to_be_bytes());
}

/// Whether a saved name has LF or `platform:`.
pub fn unsaved(name: &[u8]) -> bool {
    name.contains(&b'\n') || name.windows(9).any(|w| w == b"platform:")
}
