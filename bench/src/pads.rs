//! Raw values and pads: the library alone, since the Rust has no such call.
use crate::measure::{Case, Side, Work};
use harness::doc02;
use harness::ffi;
use harness::gen::Rng;
use harness::pads;
use harness::plain::Entry;
use harness::port::{self, AnyMap};
use std::hint::black_box;

/// Calls of one go.
const CALLS: usize = 4096;

fn case(label: String, work: impl Work + 'static) -> Vec<Case> {
    vec![Case { family: String::new(), label, works: vec![(Side::Port, Box::new(work))] }]
}

/// Raw values with the entries that they are asked of.
struct Values(Vec<(ffi::Entry, u8, i16)>);

impl Work for Values {
    fn calls(&self) -> usize {
        self.0.len()
    }
    fn go(&mut self) {
        // (the library is an archive of its own, into which nobody looks: no call can be left out)
        let mut sum = 0i32;
        for (e, raw, v) in &self.0 {
            sum += unsafe { ffi::raspteal_entry_value(*e, *raw, *v) }.value as i32;
        }
        black_box(sum);
    }
}

fn raw(r: &mut Rng) -> (u8, i16) {
    pads::flat(pads::raw(r))
}

/// A value of an entry: as a pad reports them, 64 values of one code after the other; and every one of another code.
pub fn value() -> Vec<Case> {
    let mut r = Rng::new(3);
    let mixed = Values((0..CALLS).map(|_| one(&mut r)).collect());
    let runs = Values((0..CALLS / 64).flat_map(|_| run(&mut r)).collect());
    let mut cases = case("64 values a code".to_string(), runs);
    cases.extend(case("mixed".to_string(), mixed));
    cases
}

fn one(r: &mut Rng) -> (ffi::Entry, u8, i16) {
    let (raw, v) = raw(r);
    (port::flat(pads::entry(r, 20)), raw, v)
}

/// Presses and releases of a button, or values of an axis on the side that counts.
fn run(r: &mut Rng) -> Vec<(ffi::Entry, u8, i16)> {
    let e = pads::entry(r, 20);
    let flat = port::flat(e);
    if r.one_in(3) {
        return (0..64).map(|k| (flat, k % 2, 0)).collect();
    }
    let side = |v: i16| match e.2 .0 {
        0 => -(v & i16::MAX),
        1 => v & i16::MAX,
        _ => v,
    };
    (0..64).map(|_| (flat, 2, side(r.next() as i16))).collect()
}

/// Events of a map that is handed over.
struct Events {
    map: AnyMap,
    raws: Vec<(u32, u8, i16)>,
}

impl Work for Events {
    fn calls(&self) -> usize {
        self.raws.len()
    }
    fn go(&mut self) {
        for (code, raw, v) in &self.raws {
            black_box(unsafe { ffi::raspteal_mapping_event(black_box(&self.map).0, *code, *raw, *v) });
        }
    }
}

/// An event of a map of 20 entries.
pub fn event() -> Vec<Case> {
    let mut r = Rng::new(4);
    let entries: Vec<_> = (0..20).map(|k| (k, pads::entry(&mut r, 20).1, pads::entry(&mut r, 20).2)).collect();
    let one = |_| {
        let (raw, v) = raw(&mut r);
        (r.below(20) as u32, raw, v)
    };
    let raws = (0..CALLS).map(one).collect();
    case("20 entries".to_string(), Events { map: AnyMap::new(20, &entries), raws })
}

/// Raw events of a pad, which goes in and comes back.
struct RawEvents {
    pad: ffi::Pad,
    raws: Vec<(u32, u8, i16)>,
}

impl Work for RawEvents {
    fn calls(&self) -> usize {
        self.raws.len()
    }
    fn go(&mut self) {
        for (code, raw, v) in &self.raws {
            self.pad = black_box(unsafe { ffi::raspteal_pad_raw_event(self.pad, *code, *raw, *v) }).pad;
        }
    }
}

/// Changes between two maps, with codes held.
struct Changes {
    pad: ffi::Pad,
    maps: [AnyMap; 2],
}

impl Work for Changes {
    fn calls(&self) -> usize {
        64
    }
    fn go(&mut self) {
        for k in 0..64 {
            self.pad = black_box(unsafe { ffi::raspteal_pad_change_map(self.pad, self.maps[k % 2].0) }).pad;
        }
    }
}

/// Entries of n codes to the elements in turn, with halves of all kinds.
fn entries(r: &mut Rng, n: usize) -> Vec<Entry> {
    let elements: Vec<u16> = doc02::elements().collect();
    (0..n).map(|k| (k as u32, elements[k % 27], pads::entry(r, 1).2)).collect()
}

/// A pad that holds n codes under a map of n entries.
fn held(r: &mut Rng, n: usize) -> ffi::Pad {
    let map = AnyMap::new(n, &entries(r, n));
    let mut pad = unsafe { ffi::raspteal_pad_change_map(ffi::raspteal_pad_new(), map.0) }.pad;
    for code in 0..n as u32 {
        let (raw, v) = raw(r);
        pad = unsafe { ffi::raspteal_pad_raw_event(pad, code, raw, v) }.pad;
    }
    assert_eq!((pad.count, pad.entry_count), (n, n));
    pad
}

/// A raw event of a pad with n codes and n entries.
pub fn raw_event(n: usize) -> Vec<Case> {
    let mut r = Rng::new(5);
    let pad = held(&mut r, n);
    let one = |_| {
        let (raw, v) = raw(&mut r);
        (r.below(n) as u32, raw, v)
    };
    let raws = (0..CALLS / 8).map(one).collect();
    case(format!("{n} codes, {n} entries"), RawEvents { pad, raws })
}

/// A change of map of a pad with n codes, between two maps of n entries.
pub fn change_map(n: usize) -> Vec<Case> {
    let mut r = Rng::new(6);
    let pad = held(&mut r, n);
    let mut other = entries(&mut r, n);
    other.reverse();
    other.iter_mut().zip(0..).for_each(|(e, code)| e.0 = code);
    let maps = [AnyMap::new(n, &other), AnyMap::new(n, &entries(&mut r, n))];
    case(format!("{n} codes, {n} entries"), Changes { pad, maps })
}

/// Raw events of two pads in turn.
struct TwoEvents {
    pads: ffi::Pads,
    raws: Vec<(u32, u8, i16)>,
}

impl Work for TwoEvents {
    fn calls(&self) -> usize {
        self.raws.len()
    }
    fn go(&mut self) {
        for (k, (code, raw, v)) in self.raws.iter().enumerate() {
            let told = unsafe { ffi::raspteal_pads_raw_event(self.pads, k % 2 == 1, *code, *raw, *v) };
            self.pads = black_box(told).pads;
        }
    }
}

/// A raw event of two pads with n codes and n entries each.
pub fn two_events(n: usize) -> Vec<Case> {
    let mut r = Rng::new(5);
    let pads = ffi::Pads { first: held(&mut r, n), second: held(&mut r, n) };
    let one = |_| {
        let (raw, v) = raw(&mut r);
        (r.below(n) as u32, raw, v)
    };
    let raws = (0..CALLS / 8).map(one).collect();
    case(format!("{n} codes, {n} entries each"), TwoEvents { pads, raws })
}
