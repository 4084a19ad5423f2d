//! The port's side, through bindings/raspteal.h.
use crate::measure::Work;
use harness::ffi;
use harness::book::Key;
use harness::lent::{self, Store};
use harness::plain::{Uuid, HALL};
use harness::port::Reading;
use std::hint::black_box;
use std::rc::Rc;

/// Pads by their lists of codes.
#[derive(Clone)]
pub struct Pad {
    pub buttons: Vec<u32>,
    pub axes: Vec<u32>,
}

pub fn id(u: &Uuid) -> ffi::Uuid {
    let n = u128::from_be_bytes(*u);
    ffi::Uuid { high: (n >> 64) as u64, low: n as u64 }
}

pub struct Read {
    pub lines: Vec<String>,
    pub pad: Pad,
}

impl Work for Read {
    fn calls(&self) -> usize {
        self.lines.len()
    }
    fn go(&mut self) {
        let (b, a) = (&self.pad.buttons, &self.pad.axes);
        for line in &self.lines {
            let l = black_box(line.as_bytes());
            black_box(unsafe {
                ffi::raspteal_parse_sdl_mapping(l.as_ptr(), l.len(), b.as_ptr(), b.len(), a.as_ptr(), a.len())
            });
        }
    }
}

/// Arguments of build and save: slots as (element, code).
#[derive(Clone)]
pub struct Form {
    pub slots: Vec<(u16, u32)>,
    pub name: String,
    pub uuid: Uuid,
}

fn data(slots: &[(u16, u32)]) -> ffi::MappingData {
    let mut d = unsafe { ffi::raspteal_data_new() };
    for (e, code) in slots {
        let slot = match e.checked_sub(harness::plain::AXIS) {
            Some(axis) => &mut d.axes[axis as usize],
            None => &mut d.buttons[*e as usize],
        };
        *slot = ffi::Slot { filled: true, code: *code };
    }
    d
}

pub struct Build {
    forms: Vec<(ffi::MappingData, Form)>,
    pad: Pad,
    out: Vec<u8>,
}

impl Build {
    pub fn of(forms: &[Form], pad: &Pad) -> Self {
        let forms = forms.iter().map(|f| (data(&f.slots), f.clone())).collect();
        Build { forms, pad: pad.clone(), out: vec![0; 8544] }
    }
    fn one(&mut self, k: usize) -> ffi::Built {
        let (b, a) = (&self.pad.buttons, &self.pad.axes);
        let (data, form) = black_box(&self.forms[k]);
        let (n, out) = (form.name.as_bytes(), &mut self.out);
        unsafe {
            ffi::raspteal_from_data(
                *data, b.as_ptr(), b.len(), a.as_ptr(), a.len(), n.as_ptr(), n.len(), id(&form.uuid),
                out.as_mut_ptr(), out.len(),
            )
        }
    }
    /// The line that is built of the first form.
    pub fn line(&mut self) -> Vec<u8> {
        let len = self.one(0).len;
        self.out[..len].to_vec()
    }
}

impl Work for Build {
    fn calls(&self) -> usize {
        self.forms.len()
    }
    fn go(&mut self) {
        for k in 0..self.forms.len() {
            black_box(self.one(k));
            black_box(&self.out);
        }
    }
}

/// The default maps of pads, in turn.
pub struct Default {
    pub pads: Vec<Pad>,
}

impl Work for Default {
    fn calls(&self) -> usize {
        self.pads.len()
    }
    fn go(&mut self) {
        for pad in &self.pads {
            let (b, a) = (black_box(&pad.buttons), black_box(&pad.axes));
            black_box(unsafe { ffi::raspteal_default(b.as_ptr(), b.len(), a.as_ptr(), a.len()) });
        }
    }
}

/// Insert of a text into a store that is put back before each call.
pub struct Insert {
    pub before: Store,
    pub store: Store,
    pub text: String,
}

fn put_back(store: &mut Store, before: &Store) {
    store.index.copy_from_slice(&before.index);
    store.text.copy_from_slice(&before.text);
}

impl Work for Insert {
    fn calls(&self) -> usize {
        1
    }
    fn prepare(&mut self) {
        put_back(&mut self.store, &self.before);
    }
    fn go(&mut self) {
        let (refusal, _, _) = black_box(self.store.insert(HALL, black_box(self.text.as_bytes())));
        assert!(refusal.is_none(), "the store takes the list: {refusal:?}");
    }
}

#[derive(Clone, Copy, PartialEq)]
pub enum Call {
    Found,
    Get,
}

/// Look-ups of a key that is held and of one that is not, each by its party, in several stores by turns. In stores that
/// aren't sound, none is found.
pub struct Look {
    pub stores: Rc<Vec<Store>>,
    pub lists: Vec<Vec<Key>>,
    pub sound: bool,
    pub call: Call,
    pub absent: Vec<Key>,
    pub turn: usize,
    pub out: Vec<u8>,
}

impl Look {
    /// A look-up in store k.
    fn one(&mut self, k: usize, key: Key) -> bool {
        let store = black_box(&self.stores[k]);
        let (i, t, out) = (&store.index, &store.text, &mut self.out);
        let (owner, u) = black_box(key);
        let (p, u) = (lent::party((owner != 0).then_some(owner)), id(&u));
        if self.call == Call::Found {
            let look = unsafe { ffi::raspteal_store_found(i.as_ptr(), i.len(), t.as_ptr(), t.len(), p, u) };
            return black_box(look).found;
        }
        let line = unsafe {
            ffi::raspteal_store_get(i.as_ptr(), i.len(), t.as_ptr(), t.len(), p, u, out.as_mut_ptr(), out.len())
        };
        black_box(out);
        black_box(line).next > 0
    }
}

impl Work for Look {
    fn calls(&self) -> usize {
        2
    }
    fn prepare(&mut self) {
        self.turn += 1;
    }
    fn go(&mut self) {
        let n = self.stores.len();
        // no store twice in a row, and places all over it
        let (here, other) = (self.turn % n, (self.turn + n / 2) % n);
        let list = &self.lists[here];
        let (held, absent) = (list[self.turn * 7919 % list.len()], self.absent[self.turn % self.absent.len()]);
        let (held, absent) = (self.one(here, held), self.one(other, absent));
        assert!(held == self.sound && !absent, "look-ups answer rightly");
    }
}

/// Save under the UUID of the first record, in one store after the other, which are put back before each call.
pub struct Save {
    before: Vec<(Store, Uuid)>,
    turn: usize,
    store: Store,
    data: ffi::MappingData,
    form: Form,
    pad: Pad,
}

impl Save {
    /// Stores, each with the UUID of its first record.
    pub fn of(before: Vec<(Store, Uuid)>, form: &Form, pad: &Pad) -> Self {
        Save {
            store: before[0].0.clone(),
            before,
            turn: 0,
            data: data(&form.slots),
            form: form.clone(),
            pad: pad.clone(),
        }
    }
}

impl Work for Save {
    fn calls(&self) -> usize {
        1
    }
    fn prepare(&mut self) {
        self.turn += 1;
        let (store, first) = &self.before[self.turn % self.before.len()];
        put_back(&mut self.store, store);
        self.form.uuid = *first;
    }
    fn go(&mut self) {
        let (s, n) = (&mut self.store, self.form.name.as_bytes());
        let (b, a) = (&self.pad.buttons, &self.pad.axes);
        let answer = unsafe {
            ffi::raspteal_store_save(
                s.index.as_mut_ptr(), s.index.len(), s.text.as_mut_ptr(), s.text.len(), lent::party(HALL), self.data,
                b.as_ptr(), b.len(), a.as_ptr(), a.len(), n.as_ptr(), n.len(), id(&self.form.uuid),
            )
        };
        assert!(black_box(answer).refusal.number == 0, "the store takes the save");
    }
}

/// `map` on the map of a line.
pub struct Map {
    pub reading: Reading,
    pub codes: Vec<u32>,
}

impl Work for Map {
    fn calls(&self) -> usize {
        self.codes.len()
    }
    fn go(&mut self) {
        for code in &self.codes {
            black_box(black_box(&self.reading).map(*black_box(code)));
        }
    }
}

/// `map` on the same map, kept as two lists.
pub struct Lists {
    kept: Vec<u32>,
    elements: Vec<u32>,
    codes: Vec<u32>,
}

impl Lists {
    pub fn of(reading: &Reading, codes: Vec<u32>) -> Lists {
        let entries = reading.entries();
        let number = |e: &ffi::Element| if e.is_axis { 65536 + e.number as u32 } else { e.number as u32 };
        Lists {
            kept: entries.iter().map(|e| e.code).collect(),
            elements: entries.iter().map(|e| number(&e.element)).collect(),
            codes,
        }
    }
}

impl Work for Lists {
    fn calls(&self) -> usize {
        self.codes.len()
    }
    fn go(&mut self) {
        let (k, e) = (black_box(&self.kept), black_box(&self.elements));
        for code in &self.codes {
            black_box(unsafe {
                ffi::raspteal_lists_map(k.as_ptr(), k.len(), e.as_ptr(), e.len(), *black_box(code))
            });
        }
    }
}
