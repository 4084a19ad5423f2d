//! Raw values and pads: the library against document 02's second program.
use crate::check::{Group, Tally};
use crate::doc02::{self, Raw};
use crate::ffi;
use crate::gen::Rng;
use crate::plain::{Entry, AXIS};
use crate::port;

/// A raw value as the C side has it.
pub fn flat(raw: Raw) -> (u8, i16) {
    match raw {
        Raw::Released => (0, 0),
        Raw::Pressed => (1, 0),
        Raw::Axis(v) => (2, v),
    }
}

fn value_here(e: ffi::Entry, raw: Raw) -> Option<i16> {
    let (raw, v) = flat(raw);
    let r = unsafe { ffi::raspteal_entry_value(e, raw, v) };
    assert!(r.found || r.value == 0, "a value that is not there");
    r.found.then_some(r.value)
}

fn event_here(entries: &[Entry], count: usize, code: u32, raw: Raw) -> Option<(u16, i16)> {
    let (raw, v) = flat(raw);
    let r = unsafe { ffi::raspteal_mapping_event(port::AnyMap::new(count, entries).0, code, raw, v) };
    assert!(r.found || r.value == 0 && r.element.number == 0 && !r.element.is_axis, "an event that is not there");
    r.found.then_some((port::number(r.element), r.value))
}

/// The 36 kinds of entry: three input halves, three output halves, inverted or not, a button and an axis.
fn kinds() -> impl Iterator<Item = Entry> {
    let elements = [3, AXIS + 2];
    let of = |e| (0..9).flat_map(move |h| [false, true].map(|i| (7, e, (h % 3, h / 3, i))));
    elements.into_iter().flat_map(of)
}

/// Every raw value on every kind of entry: 65536 axis values, pressed and released.
pub fn values(t: &mut Tally) {
    for e in kinds() {
        let flat = port::flat(e);
        let raws = (i16::MIN..=i16::MAX).map(Raw::Axis).chain([Raw::Released, Raw::Pressed]);
        for raw in raws {
            t.case(Group::Values, 0, None, &doc02::value(e, raw), &value_here(flat, raw), &|| format!("{e:x?} {raw:?}"));
        }
    }
}

/// A raw value, often at an edge.
pub fn raw(r: &mut Rng) -> Raw {
    match r.below(6) {
        0 => Raw::Released,
        1 | 2 => Raw::Pressed,
        3 => Raw::Axis(r.pick(&[-32768, -32767, -1, 0, 1, 32766, 32767])),
        _ => Raw::Axis(r.next() as i16),
    }
}

/// An entry of a few codes and elements, some of them left out by a pad.
pub fn entry(r: &mut Rng, codes: usize) -> Entry {
    let e = if r.one_in(2) { r.below(6) as u16 } else { AXIS + r.below(4) as u16 };
    let e = if r.one_in(20) { r.pick(&[19, 20, AXIS + 8, AXIS + 9]) } else { e };
    (r.below(codes) as u32, e, (r.below(3) as u8, r.below(3) as u8, r.one_in(3)))
}

/// Raw values of codes by maps of any content: unsorted, doubled codes, counts over 256.
pub fn events(t: &mut Tally, r: &mut Rng) {
    let entries: Vec<Entry> = (0..r.below(12)).map(|_| entry(r, 8)).collect();
    let all = r.one_in(8);
    let entries: Vec<Entry> = if all { (0..256).map(|_| entry(r, 300)).collect() } else { entries };
    let count = if all { 256 + r.below(100) } else { entries.len() };
    for code in 0..9 {
        let raw = raw(r);
        let (doc, here) = (doc02::event(&entries, code, raw), event_here(&entries, count, code, raw));
        t.case(Group::Events, 0, None, &doc, &here, &|| format!("{entries:x?} count {count} code {code} {raw:?}"));
    }
}
