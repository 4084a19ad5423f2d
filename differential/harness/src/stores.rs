//! Histories of a store: each call's answer, both buffers after it, and the look-ups.
use crate::book::{self, Book, INDEX_MAX, TEXT_MAX};
use crate::check::{shown, Group, Tally};
use crate::compare::{number, rust, AllSlots};
use crate::lent::{cuts, Store};
use crate::near;
use crate::plain::{owner, placed, refusal, Map, Party, Refusal, Uuid, HALL};
use std::collections::BTreeMap;

/// The three sides of one store. Each party has a database of gilrs's of its own (document 02, P9), which goes along while
/// no call of that party was refused that it would have taken; a party that is none of `PARTIES` has none.
pub struct Sides {
    dbs: BTreeMap<Party, Option<oracle::Db>>,
    pub book: Book,
    pub store: Store,
    /// UUIDs that were named, and parties that called.
    pub ids: Vec<Uuid>,
    callers: Vec<Party>,
    history: String,
}

/// The parties whose look-ups are compared: the hall, three organisers of which the last never calls, and owner 0.
pub const PARTIES: [Party; 5] = [HALL, Some(1), Some(255), Some(8), Some(0)];

/// A fresh database for each party; owner 0 is no party, and leaves the Rust's domain.
fn databases() -> BTreeMap<Party, Option<oracle::Db>> {
    PARTIES.iter().map(|&p| (p, owner(p).ok().map(|_| oracle::Db::new()))).collect()
}

impl Sides {
    pub fn fresh(index: usize, text: usize) -> Self {
        Sides {
            dbs: databases(),
            book: Book::new(index, text),
            store: Store::fresh(index, text),
            ids: vec![[0; 16]],
            callers: vec![HALL],
            history: format!("index {index}, text {text}"),
        }
    }

    /// A store that holds what a book holds, put there from outside. The Rust goes no further along.
    pub fn holding(book: Book, what: &str) -> Self {
        let (index, text) = book.buffers();
        Sides {
            dbs: PARTIES.iter().map(|&p| (p, None)).collect(),
            history: format!("index {}, text {}, {what}", index.len(), text.len()),
            store: Store { index, text },
            book,
            ids: vec![[0; 16]],
            callers: vec![HALL],
        }
    }

    pub fn input(&self) -> String {
        self.history.clone()
    }

    /// Whether the lengths are those of a store.
    pub fn sized(&self) -> bool {
        self.book.index <= INDEX_MAX && self.book.text <= TEXT_MAX
    }

    /// What is checked before a look-up: 24, then 19 for the lengths.
    pub fn allowed(&self, p: Party) -> Result<(), Refusal> {
        owner(p)?;
        if self.sized() { Ok(()) } else { Err(refusal(19)) }
    }

    /// A party's database, where the Rust has an answer.
    pub fn db(&self, p: Party) -> Option<&oracle::Db> {
        self.dbs.get(&p)?.as_ref().filter(|_| self.sized())
    }

    fn buffers(&self, t: &mut Tally) {
        let here = (&self.store.index[..], &self.store.text[..]);
        let want = self.book.buffers();
        t.case(Group::Buffers, 0, None, &(&want.0[..], &want.1[..]), &here, &|| self.input());
        t.case(Group::Walks, 0, None, &self.book.walked(), &self.store.walked(), &|| self.input());
    }

    pub fn clear(&mut self, t: &mut Tally) {
        self.history += "; clear";
        let doc = if self.sized() { None } else { Some(refusal(23)) };
        if doc.is_none() {
            self.book.clear();
            self.dbs = databases();
        }
        let here = self.store.clear();
        t.case(Group::Clear, doc.map_or(0, |r| r.number), None, &doc, &here, &|| self.input());
        self.buffers(t);
    }

    pub fn insert(&mut self, t: &mut Tally, p: Party, lines: &[u8]) {
        self.callers.push(p);
        self.history += &format!("; {p:?} insert {}", shown(lines));
        // 24 comes first, and then 19 for the lengths
        let doc = match owner(p).is_err() || self.sized() {
            true => self.book.insert(p, lines),
            false => (Some(refusal(19)), 0, 0),
        };
        // outside its domain the Rust files more: that party's database is left behind
        let db = self.dbs.entry(p).or_default();
        if doc.0.is_none() {
            if let (Some(db), Ok(text)) = (db, std::str::from_utf8(lines)) {
                if rust(|| db.insert(text)).is_none() {
                    t.panic(&|| self.history.clone());
                }
            }
        } else {
            *db = None;
        }
        self.ids.extend(self.book.lines.iter().map(|l| l.0 .1));
        t.case(Group::Walks, 0, None, &book::lines(lines), &cuts(lines), &|| shown(lines));
        let here = self.store.insert(p, lines);
        t.case(Group::Insert, doc.0.map_or(0, |r| r.number), None, &doc, &here, &|| self.input());
        self.buffers(t);
    }

    /// A party's line is taken out. gilrs takes none out: the database of a party that had one is left behind.
    pub fn remove(&mut self, t: &mut Tally, p: Party, id: Uuid) {
        self.callers.push(p);
        self.ids.push(id);
        self.history += &format!("; {p:?} remove {id:02x?}");
        let doc = self.allowed(p).and_then(|()| self.book.remove(p, id));
        if doc == Ok(true) {
            self.dbs.insert(p, None);
        }
        let here = self.store.remove(p, id);
        t.case(Group::Remove, number(&doc), None, &doc, &here, &|| self.input());
        self.buffers(t);
    }

    /// The UUID of a line that is held, whosever it is; one of the same bytes where none is.
    pub fn some_id(&self, k: usize) -> Uuid {
        match self.book.lines.len() {
            0 => [k as u8; 16],
            n => self.book.lines[k % n].0 .1,
        }
    }

    /// A share is set. It is no party's call, and no database of gilrs's is touched by it.
    pub fn share(&mut self, t: &mut Tally, owner: u8, bytes: usize) {
        self.history += &format!("; share of {owner}: {bytes}");
        let doc = if self.sized() { self.book.share(owner, bytes) } else { Some(refusal(19)) };
        let here = self.store.set_share(owner, bytes);
        t.case(Group::Shares, doc.map_or(0, |r| r.number), None, &doc, &here, &|| self.input());
        self.buffers(t);
    }

    pub fn save(&mut self, t: &mut Tally, p: Party, s: &AllSlots, b: &[u32], a: &[u32], name: &[u8], id: Uuid) {
        self.callers.push(p);
        let told = format!("buttons {b:x?}, axes {a:x?}, name {}, uuid {id:02x?}", shown(name));
        self.history += &format!("; {p:?} save {:x?}, {told}", s.doc);
        // an over-long buffer is 19, after 24, build's checks and 22: nothing is filed
        let doc = if self.sized() {
            self.book.save(p, &s.doc, b, a, name, id)
        } else {
            Book::new(usize::MAX, usize::MAX).save(p, &s.doc, b, a, name, id).and(Err(refusal(19)))
        };
        let rust = self.built(t, p, s, b, a, name, id, &doc);
        self.ids.push(id);
        let here = self.store.save(p, &s.here, b, a, name, id);
        t.case(Group::Save, number(&doc), rust.as_ref(), &doc, &here, &|| self.input());
        self.buffers(t);
    }

    /// What the Rust answers to a save, on its domain: its build, whose line its database then takes.
    #[allow(clippy::too_many_arguments)]
    fn built(
        &mut self, t: &mut Tally, p: Party, s: &AllSlots, b: &[u32], a: &[u32], name: &[u8], id: Uuid,
        doc: &Result<Map, Refusal>,
    ) -> Option<Result<Map, Refusal>> {
        let name = std::str::from_utf8(name).ok()?;
        if s.dpad() || !(doc.is_ok() || (13..=15).contains(&number(doc))) {
            return None;
        }
        let Some(built) = rust(|| oracle::build(&s.rust, b, a, name, id)) else {
            t.panic(&|| self.history.clone());
            return None;
        };
        if let (Ok((_, line)), Some(Some(db))) = (&built, self.dbs.get_mut(&p)) {
            db.insert(line);
        }
        Some(built.map(|(m, line)| placed(m, line.as_bytes())).map_err(Refusal::from))
    }

    /// Each UUID that was named, and one that was not, for each party that called; one for each other party, and for
    /// owner 0.
    pub fn look_up(&mut self, t: &mut Tally) {
        self.ids.push([0xee; 16]);
        self.ids.sort();
        self.ids.dedup();
        for p in PARTIES {
            let many = self.callers.contains(&p) && owner(p).is_ok();
            let ids = if many { &self.ids[..] } else { &self.ids[self.ids.len() / 2..][..1] };
            self.found(t, p, ids);
            near::compare(t, self, p, ids);
            self.told(t, p);
        }
    }

    /// A party's lines under these UUIDs.
    pub fn found(&self, t: &mut Tally, p: Party, ids: &[Uuid]) {
        for id in ids {
            let rust = self.db(p).map(|d| Ok(d.get(*id).map(|s| s.as_bytes().to_vec())));
            let doc = self.allowed(p).and_then(|()| self.book.get(p, *id));
            let here = self.store.look_up(p, *id);
            t.case(Group::LookUp, number(&doc), rust.as_ref(), &doc, &here, &|| {
                format!("{}; look-up {p:?} {id:02x?}", self.input())
            });
        }
    }

    /// A party's share and use, and how many lines it holds.
    pub fn told(&self, t: &mut Tally, p: Party) {
        let o = p.unwrap_or(0);
        let doc = if self.sized() { Ok(self.book.told(o)) } else { Err(refusal(19)) };
        t.case(Group::Shares, number(&doc), None, &doc, &self.store.share(o), &|| {
            format!("{}; share and use of {o}", self.input())
        });
        let owned = owner(p).map_or(0, |o| self.book.lines.iter().filter(|l| l.0 .0 == o).count());
        let size = self.dbs.get(&p).and_then(|d| d.as_ref()).map(|d| d.len());
        t.case(Group::LookUp, 0, size.as_ref(), &owned, &owned, &|| {
            format!("{}: lines held by {p:?}", self.input())
        });
    }

    /// Puts bytes into the buffers from outside. The list is then what they encode; where they encode none, each call
    /// but clear is 19 and changes nothing.
    pub fn damage(&mut self, t: &mut Tally, f: impl FnOnce(&mut Store), lines: &[u8], s: &AllSlots) {
        f(&mut self.store);
        self.dbs = PARTIES.iter().map(|&p| (p, None)).collect();
        let before = self.store.clone();
        if let Some(b) = Book::of(&before.index, &before.text) {
            self.ids.extend(b.lines.iter().map(|l| l.0 .1));
            self.book = b;
            self.callers = PARTIES.to_vec();
            self.history = format!("index {:02x?}, text {}", before.index, shown(&before.text));
            return;
        }
        let input = || format!("index {:02x?}, text {}", before.index, shown(&before.text));
        for p in PARTIES {
            let number = if owner(p).is_ok() { 19 } else { 24 };
            let here = self.store.look_up(p, [0; 16]);
            t.case(Group::LookUp, number, None, &Err(refusal(number)), &here, &input);
            let here = near::look_near(&self.store, p, [0; 16]);
            t.case(Group::Near, number, None, &Err(refusal(number)), &here, &input);
            let here = self.store.share(p.unwrap_or(0));
            t.case(Group::Shares, 19, None, &Err(refusal(19)), &here, &input);
            let here = self.store.set_share(p.unwrap_or(0), lines.len());
            t.case(Group::Shares, 19, None, &Some(refusal(19)), &here, &input);
            let here = self.store.remove(p, [0; 16]);
            t.case(Group::Remove, number, None, &Err(refusal(number)), &here, &input);
            let here = self.store.insert(p, lines);
            t.case(Group::Insert, number, None, &(Some(refusal(number)), 0, 0), &here, &input);
            // save makes build's checks and 22 first
            let mut wide = Book::new(usize::MAX, usize::MAX);
            let doc = wide.save(p, &s.doc, &[1, 2], &[3], b"T", [7; 16]).and(Err(refusal(19)));
            let here = self.store.save(p, &s.here, &[1, 2], &[3], b"T", [7; 16]);
            t.case(Group::Save, number, None, &doc, &here, &input);
        }
        let same = before.index == self.store.index && before.text == self.store.text;
        t.case(Group::Buffers, 19, None, &true, &same, &input);
        self.book.clear();
        let here = self.store.clear();
        t.case(Group::Clear, 0, None, &None, &here, &input);
        self.buffers(t);
    }
}
