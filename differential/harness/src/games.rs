//! Pads while a game runs: the library against document 02's second program, with an outside reader of the events.
use crate::check::{Group, Tally};
use crate::doc02::{self, Raw};
use crate::ffi;
use crate::gen::Rng;
use crate::pads;
use crate::plain::{Entry, AXIS};
use crate::port::{self, AnyMap};

type Events = Vec<(u16, i16)>;

/// What a call tells: a refusal's number, the events, and the state.
type Told = (u8, Events, doc02::Pad);

fn plain(p: &ffi::Pad) -> doc02::Pad {
    doc02::Pad { count: p.count, held: p.held.to_vec(), entry_count: p.entry_count, entries: p.entries.to_vec() }
}

fn flat(p: &doc02::Pad) -> ffi::Pad {
    let mut out = unsafe { ffi::raspteal_pad_new() };
    (out.count, out.entry_count) = (p.count, p.entry_count);
    out.held.copy_from_slice(&p.held);
    out.entries.copy_from_slice(&p.entries);
    out
}

/// The events that are told; those that are not used are button 0 with value 0.
pub fn told_events(count: usize, list: &[ffi::Event]) -> Events {
    assert!(list[count..].iter().all(|e| !e.element.is_axis && e.element.number == 0 && e.value == 0));
    list[..count].iter().map(|e| (port::number(e.element), e.value)).collect()
}

fn told(t: &ffi::Told) -> Told {
    assert!(!t.refusal.has_place && !t.refusal.has_code);
    (t.refusal.number, told_events(t.count, &t.events), plain(&t.pad))
}

/// A pad on both sides, and what a reader of the library's events holds.
pub struct Game {
    here: ffi::Pad,
    doc: doc02::Pad,
    reader: Vec<i16>,
}

impl Game {
    pub fn of(doc: doc02::Pad) -> Game {
        Game { here: flat(&doc), reader: doc.values(), doc }
    }

    pub fn new(t: &mut Tally) -> Game {
        let game = Game { here: unsafe { ffi::raspteal_pad_new() }, doc: doc02::Pad::new(), reader: vec![0; 27] };
        t.case(Group::Pads, 0, None, &game.doc, &plain(&game.here), &|| "a fresh pad".to_string());
        game
    }

    /// Both sides' answers of a call, and what the reader holds beside the values worked out afresh.
    fn compare(&mut self, t: &mut Tally, want: Told, got: &ffi::Told, input: &dyn Fn() -> String) {
        let number = want.0;
        t.case(Group::Pads, number, None, &want, &told(got), input);
        (self.here, self.doc) = (got.pad, want.2);
        hear(&mut self.reader, &told_events(got.count, &got.events));
        t.case(Group::Reader, number, None, &self.doc.values(), &self.reader, input);
    }

    pub fn raw_event(&mut self, t: &mut Tally, code: u32, raw: Raw) {
        let before = self.doc.clone();
        let (kind, v) = pads::flat(raw);
        let got = unsafe { ffi::raspteal_pad_raw_event(self.here, code, kind, v) };
        let want = match self.doc.raw_event(code, raw) {
            Some(events) => (0, events, self.doc.clone()),
            None => (27, Events::new(), before.clone()),
        };
        self.compare(t, want, &got, &|| format!("{} code {code:x} {raw:?}", shown(&before)));
    }

    /// A map of any content, with a count up to its entries, or over 256 where it has so many.
    pub fn change_map(&mut self, t: &mut Tally, entries: &[Entry], count: usize) {
        let before = self.doc.clone();
        let got = unsafe { ffi::raspteal_pad_change_map(self.here, AnyMap::new(count, entries).0) };
        let events = self.doc.change_map(&entries[..count.min(entries.len())]);
        let want = (0, events, self.doc.clone());
        self.compare(t, want, &got, &|| format!("{} map {entries:x?} count {count}", shown(&before)));
    }

    /// The value of each element, and of some that are left out.
    pub fn values(&self, t: &mut Tally) {
        for e in doc02::elements() {
            let got = unsafe { ffi::raspteal_pad_value(self.here, port::element(e)) };
            t.case(Group::Pads, 0, None, &self.doc.value(e), &got, &|| format!("{} element {e}", shown(&self.doc)));
        }
        for e in [0, 20, 200, AXIS, AXIS + 9] {
            let got = unsafe { ffi::raspteal_pad_value(self.here, port::element(e)) };
            t.case(Group::Pads, 0, None, &0, &got, &|| format!("{} element {e}", shown(&self.doc)));
        }
    }
}

/// A state in a report: what it holds.
pub fn shown(p: &doc02::Pad) -> String {
    let held: Vec<String> = p.held.iter().take(p.count).map(|x| format!("{:x}:{:x}", x >> 32, x & 0xffffffff)).collect();
    let entries: Vec<String> = p.entries.iter().take(p.entry_count).map(|x| format!("{x:x}")).collect();
    format!("count {} [{}] entries {} [{}]", p.count, held.join(" "), p.entry_count, entries.join(" "))
}

/// The reader takes each event's value.
pub fn hear(reader: &mut [i16], events: &Events) {
    for (element, value) in events {
        let place = doc02::elements().position(|e| e == *element).expect("an element with events");
        reader[place] = *value;
    }
}

/// Entries of few codes and elements, some codes twice.
pub fn some_entries(r: &mut Rng, codes: usize) -> Vec<Entry> {
    (0..r.below(8)).map(|_| pads::entry(r, codes)).collect()
}

/// A state that no call makes: codes twice, raw numbers and shapes of any kind, counts over 256.
pub fn made_up(r: &mut Rng) -> doc02::Pad {
    let mut p = doc02::Pad::new();
    let full = r.one_in(6);
    (p.count, p.entry_count) = if full { (r.pick(&[256, 257, 300, usize::MAX]), 300) } else { (r.below(9), r.below(9)) };
    let number = |r: &mut Rng| match r.below(8) {
        0..=3 => r.pick(&[0, 1, 2, 32770, 65537, 65538, 131073, u32::MAX as u64]),
        _ => r.below(1 << 32) as u64,
    };
    for k in 0..if full { 256 } else { 12 } {
        p.held[k] = ((r.below(5) as u64) << 32) + number(r);
        let element = if r.one_in(20) { r.pick(&[0, 19, 20, 65535]) } else { 1 + r.below(4) as u64 };
        p.entries[k] = ((r.below(5) as u64) << 32) + ((r.below(1 << 16) as u64) << 16) + element;
    }
    p
}

/// A history of raw events and changes of map, with few codes and many clashes.
pub fn history(t: &mut Tally, r: &mut Rng) {
    let mut game = if r.one_in(4) { Game::of(made_up(r)) } else { Game::new(t) };
    let codes = r.pick(&[2, 5, 9]);
    for _ in 0..r.below(30) {
        if r.one_in(5) {
            let entries = some_entries(r, codes);
            game.change_map(t, &entries, entries.len());
        } else {
            game.raw_event(t, r.below(codes) as u32, pads::raw(r));
        }
    }
    game.values(t);
}

/// Around 256 codes, in and outside of a map of 256 entries; a map with a count over 256.
pub fn many_codes(t: &mut Tally) {
    let mut r = Rng::new(13);
    let entries: Vec<Entry> = (0..256).map(|k| (k + 3, pads::entry(&mut r, 1).1, pads::entry(&mut r, 1).2)).collect();
    for count in [256, 300] {
        let mut game = Game::new(t);
        game.change_map(t, &entries, count);
        for code in (0..260).chain([0, 255, 256, 300]) {
            game.raw_event(t, code, pads::raw(&mut r));
        }
        game.change_map(t, &some_entries(&mut r, 260), 0);
        game.values(t);
    }
}

/// Two pads on both sides, and what a reader of the library's events holds.
struct Two {
    here: ffi::Pads,
    doc: doc02::Pads,
    reader: Vec<i16>,
}

fn plain_two(p: &ffi::Pads) -> doc02::Pads {
    doc02::Pads([plain(&p.first), plain(&p.second)])
}

impl Two {
    fn of(doc: doc02::Pads) -> Two {
        Two { here: ffi::Pads { first: flat(&doc.0[0]), second: flat(&doc.0[1]) }, reader: doc.values(), doc }
    }

    fn new(t: &mut Tally) -> Two {
        let two = Two { here: unsafe { ffi::raspteal_pads_new() }, doc: doc02::Pads::new(), reader: vec![0; 27] };
        t.case(Group::TwoPads, 0, None, &two.doc, &plain_two(&two.here), &|| "two fresh pads".to_string());
        two
    }

    fn compare(&mut self, t: &mut Tally, want: (u8, Events), got: &ffi::PadsTold, input: &dyn Fn() -> String) {
        let here = (got.refusal.number, told_events(got.count, &got.events), plain_two(&got.pads));
        t.case(Group::TwoPads, want.0, None, &(want.0, want.1, self.doc.clone()), &here, input);
        self.here = got.pads;
        hear(&mut self.reader, &here.1);
        t.case(Group::Reader, here.0, None, &self.doc.values(), &self.reader, input);
    }

    fn raw_event(&mut self, t: &mut Tally, second: bool, code: u32, raw: Raw) {
        let before = self.doc.clone();
        let (kind, v) = pads::flat(raw);
        let got = unsafe { ffi::raspteal_pads_raw_event(self.here, second, code, kind, v) };
        let want = match self.doc.raw_event(second, code, raw) {
            Some(events) => (0, events),
            None => (27, Events::new()),
        };
        self.compare(t, want, &got, &|| format!("{} second {second} code {code:x} {raw:?}", shown_two(&before)));
    }

    fn change_map(&mut self, t: &mut Tally, second: bool, entries: &[Entry]) {
        let before = self.doc.clone();
        let got = unsafe { ffi::raspteal_pads_change_map(self.here, second, AnyMap::new(entries.len(), entries).0) };
        let events = self.doc.change_map(second, entries);
        self.compare(t, (0, events), &got, &|| format!("{} second {second} map {entries:x?}", shown_two(&before)));
    }

    fn values(&self, t: &mut Tally) {
        let left_out = [0, 20, AXIS, AXIS + 9].map(|e| (e, 0));
        for (e, want) in doc02::elements().map(|e| (e, self.doc.value(e))).chain(left_out) {
            let got = unsafe { ffi::raspteal_pads_value(self.here, port::element(e)) };
            t.case(Group::TwoPads, 0, None, &want, &got, &|| format!("{} element {e}", shown_two(&self.doc)));
        }
    }
}

fn shown_two(p: &doc02::Pads) -> String {
    format!("first {} second {}", shown(&p.0[0]), shown(&p.0[1]))
}

/// A history of two pads, with few codes and many clashes.
pub fn two_history(t: &mut Tally, r: &mut Rng) {
    let mut two = if r.one_in(5) { Two::of(doc02::Pads([made_up(r), made_up(r)])) } else { Two::new(t) };
    for _ in 0..r.below(30) {
        let second = r.one_in(2);
        if r.one_in(5) {
            let entries = some_entries(r, 4);
            two.change_map(t, second, &entries);
        } else {
            two.raw_event(t, second, r.below(4) as u32, pads::raw(r));
        }
    }
    two.values(t);
}

/// All interleavings of a few events of each pad, or some of many: they end with the same values.
pub fn interleavings(t: &mut Tally, r: &mut Rng) {
    let entries = [some_entries(r, 4), some_entries(r, 4)];
    let mut list = |n: usize| -> Vec<(u32, Raw)> { (0..n).map(|_| (r.below(4) as u32, pads::raw(r))).collect() };
    let lists = [list(3), list(3)];
    let mut ends = Vec::new();
    for order in (0..64u32).filter(|bits| bits.count_ones() == 3) {
        let mut two = Two::new(t);
        two.change_map(t, false, &entries[0]);
        two.change_map(t, true, &entries[1]);
        let mut next = [0, 0];
        for k in 0..6 {
            let which = (order >> k & 1) as usize;
            let (code, raw) = lists[which][next[which]];
            next[which] += 1;
            two.raw_event(t, which == 1, code, raw);
        }
        ends.push(two.reader);
    }
    assert_eq!(ends.len(), 20);
    for end in &ends {
        t.case(Group::TwoPads, 0, None, &ends[0], end, &|| format!("{entries:x?} {lists:x?}"));
    }
}
