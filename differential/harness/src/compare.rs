//! The comparisons of single calls.
use crate::check::{shown, Group, Tally};
use crate::gen::{self, Rng};
use crate::plain::{placed, refusal, Entry, Map, Refusal, Slots, Tok, Uuid, AXIS, FULL};
use crate::{doc01, doc02, plain, port};
use std::cell::Cell;
use std::collections::BTreeMap;
use std::panic::{catch_unwind, AssertUnwindSafe};

thread_local! { static IN_RUST: Cell<bool> = const { Cell::new(false) }; }

/// Silences the messages of panics inside the Rust: they are counted, or expected.
pub fn quiet_panics() {
    let usual = std::panic::take_hook();
    std::panic::set_hook(Box::new(move |p| {
        if !IN_RUST.get() {
            usual(p)
        }
    }));
}

/// What the Rust answers, or None where it panics.
pub fn rust<T>(f: impl FnOnce() -> T) -> Option<T> {
    IN_RUST.set(true);
    let r = catch_unwind(AssertUnwindSafe(f)).ok();
    IN_RUST.set(false);
    r
}

pub fn number<T>(r: &Result<T, Refusal>) -> u8 {
    r.as_ref().err().map_or(0, |e| e.number)
}

/// The calls of the text layer on any bytes.
pub fn text(t: &mut Tally, s: &[u8]) {
    let input = || shown(s);
    let std = std::str::from_utf8(s);
    let run = std.map_or_else(|e| e.valid_up_to(), |_| s.len());
    let got = (port::valid_up_to(s), port::is_utf8(s));
    t.case(Group::Utf8, 0, Some(&(run, run == s.len())), &(run, run == s.len()), &got, &input);
    let id = std.ok().map(|s| oracle::parse_uuid(s));
    t.case(Group::Uuid, 0, id.as_ref(), &doc01::uuid(s), &port::parse_uuid(s), &input);
    t.case(Group::Forms, 0, None, &doc02::form(s), &port::uuid_form(s), &input);
    let index = std.ok().map(|s| s.parse::<u16>().ok());
    t.case(Group::Index, 0, index.as_ref(), &doc01::index(s), &port::parse_u16(s), &input);
}

/// A text written into a buffer at a place: where it ends and the buffer afterwards, or TooShort and nothing changed.
fn written(buffer: &[u8], at: usize, v: &[u8]) -> (Option<usize>, Vec<u8>) {
    let mut out = buffer.to_vec();
    match at.checked_add(v.len()) {
        Some(end) if end <= out.len() => {
            out[at..end].copy_from_slice(v);
            (Some(end), out)
        }
        _ => (None, out),
    }
}

/// The writers, into a buffer of `room` bytes.
pub fn writers(t: &mut Tally, room: usize, at: usize, n: usize, u: Uuid) {
    let buffer: Vec<u8> = (0..room).map(|i| i as u8).collect();
    let input = || format!("room {room}, at {at}, number {n}, uuid {u:02x?}");
    let mut out = buffer.clone();
    let got = (port::write_index(n, &mut out, at), out);
    let want = written(&buffer, at, n.to_string().as_bytes());
    t.case(Group::Writers, 0, Some(&want), &want, &got, &input);
    let mut out = buffer.clone();
    let got = (port::write_uuid(u, &mut out, at), out);
    let want = written(&buffer, at, oracle::simple(u).as_bytes());
    t.case(Group::Writers, 0, Some(&want), &want, &got, &input);
    let mut out = buffer.clone();
    let got = (port::write_bytes(&u, &mut out, at), out);
    let want = written(&buffer, at, &u);
    t.case(Group::Writers, 0, Some(&want), &want, &got, &input);
    let (got, want) = (port::same_bytes(&buffer, &got.1), buffer == want.1);
    t.case(Group::Writers, 0, Some(&want), &want, &got, &input);
}

/// The element calls for the button and the axis of a number.
pub fn elements(t: &mut Tally, n: u16) {
    // a number over 19 or 8 counts as 0
    let (b, a) = (if n > 19 { 0 } else { n }, if n > 8 { 0 } else { n });
    let rust = rust(|| {
        (
            oracle::to_nec(b),
            oracle::button_is_stick(b),
            oracle::button_is_dpad(b),
            oracle::axis_is_stick(a),
            oracle::second_axis(a),
            oracle::is_button(b),
            oracle::is_button(AXIS + a),
        )
    });
    let second = [None, Some(2), Some(1), None, Some(5), Some(4), None, Some(8), Some(7)][a as usize];
    let doc = (
        doc01::to_nec(b),
        b == 14 || b == 15,
        b >= 16,
        [1, 2, 4, 5].contains(&a),
        second,
        true,
        false,
    );
    t.case(Group::Elements, 0, rust.as_ref(), &doc, &port::element_calls(n), &|| format!("number {n}"));
    // any whole number of an element tells it from another
    let e = [n % AXIS, AXIS + n % AXIS];
    let same = (port::same_element(e[0], e[0]), port::same_element(e[0], e[1]), port::same_element(e[1], (n % 512 + 1) % 512));
    t.case(Group::Elements, 0, None, &(true, false, e[1] == (n % 512 + 1) % 512), &same, &|| format!("elements {e:?}"));
}

/// Key names and idents. gilrs's tables are private: a pair with the key shows its element.
pub fn keys(t: &mut Tally, key: &[u8]) {
    let plain = !key.is_empty() && key.iter().all(|b| b.is_ascii_alphanumeric()) && key != b"platform";
    let rust = plain.then(|| {
        let line = format!("xinput,,{}:b0", String::from_utf8_lossy(key));
        match oracle::walk(&line, 3).pop() {
            Some(oracle::Tok::Button { to, .. }) => Some(to),
            _ => None,
        }
    });
    t.case(Group::Keys, 0, rust.as_ref(), &doc01::key(key), &port::find_element(key), &|| shown(key));
}

pub fn idents(t: &mut Tally, e: u16) {
    let list = [5];
    let mut slots = oracle::Slots::new();
    let known = e != 0 && (e < 20 || (AXIS < e && e < AXIS + 7));
    let rust = known.then(|| {
        slots.insert(e, 5);
        let line = oracle::build(&slots, &list, &list, "", [0; 16]).unwrap().1;
        line[34..].split(':').next().unwrap().as_bytes().to_vec()
    });
    // the ident of button 0 is not asked for: ten names stand for it
    if e != 0 {
        let doc = doc01::ident(e).as_bytes().to_vec();
        t.case(Group::Keys, 0, rust.as_ref(), &doc, &port::ident(e), &|| format!("element {e}"));
    }
}

/// One line: the walker token by token, the reading, and map and map_rev on what was read.
pub fn line(t: &mut Tally, line: &[u8], b: &[u32], a: &[u32]) {
    let text = std::str::from_utf8(line).ok();
    walker(t, line, text);
    if text.is_some() {
        t.case(Group::Forms, 0, None, &doc02::first_form(line), &port::first_form(line), &|| shown(line));
    }
    reading(t, line, text, b, a);
}

fn walker(t: &mut Tally, line: &[u8], text: Option<&str>) {
    let calls = line.iter().filter(|b| **b == b',').count() + 3;
    let input = || shown(line);
    let rust = text.map(|l| rust(|| oracle::walk(l, calls)));
    if rust == Some(None) {
        t.panic(&input);
    }
    let mut rust = rust.flatten().map(|w| w.into_iter().map(Tok::from));
    let (mut doc, mut here) = (doc01::Walker::new(line), port::Walker::new(line));
    for k in 0..calls {
        let (doc, here) = (doc.step(), here.next_token());
        let rust = rust.as_mut().and_then(|r| r.next());
        let n = if let Tok::Refused(r) = doc { r.number } else { 0 };
        t.case(Group::Walker, n, rust.as_ref(), &doc, &here, &|| format!("{}, call {}", shown(line), k + 1));
        if doc == Tok::End && k + 2 < calls {
            break;
        }
    }
}

fn reading(t: &mut Tally, line: &[u8], text: Option<&str>, b: &[u32], a: &[u32]) {
    let input = || format!("{}, buttons {b:x?}, axes {a:x?}", shown(line));
    let doc = doc01::read(line, b, a);
    let here = port::Reading::of(line, b, a);
    // 10, 11 and 12 are outside the Rust's domain
    let domain = number(&doc) < 10;
    let raw = text.filter(|_| domain).map(|l| rust(|| oracle::read_raw(l, b, a)));
    if matches!(raw, Some(None)) {
        t.panic(&input);
    }
    let raw = raw.flatten();
    let rust = raw.as_ref().map(|r| match r {
        Ok(m) => Ok(plain::read(oracle::plain(m), text.unwrap(), b, a)),
        Err(e) => Err(Refusal::from(e.clone())),
    });
    t.case(Group::Reading, number(&doc), rust.as_ref(), &doc, &here.answer(), &input);
    if let (Ok(doc), Some(Ok(raw))) = (&doc, &raw) {
        look(t, &input, doc, raw, &here);
    }
}

/// Document 02, P8: with its pairs in another order an accepted line has the same map, on each side, where no code is put
/// with two unlike entries.
pub fn regrouped(t: &mut Tally, r: &mut Rng, line: &[u8], b: &[u32], a: &[u32]) {
    let one = doc01::read(line, b, a);
    if one.is_err() || !doc01::alike(line, b, a) {
        return;
    }
    let Some(other) = gen::regrouped(r, line) else { return };
    let input = || format!("{} for {}, buttons {b:x?}, axes {a:x?}", shown(&other), shown(line));
    let rust = std::str::from_utf8(&other).ok().and_then(|l| {
        rust(|| match oracle::read_raw(l, b, a) {
            Ok(m) => Ok(plain::read(oracle::plain(&m), l, b, a)),
            Err(e) => Err(Refusal::from(e)),
        })
    });
    if rust.is_none() {
        t.panic(&input);
    }
    t.case(Group::Regrouped, 0, rust.as_ref(), &one, &port::Reading::of(&other, b, a).answer(), &input);
    t.case(Group::Regrouped, 0, None, &one, &doc01::read(&other, b, a), &input);
}

/// map on each code of the map and on others, map_rev on each element. gilrs takes any code of an element: where its
/// code is one of the element's, it counts as the least.
fn look(t: &mut Tally, input: &dyn Fn() -> String, doc: &Map, raw: &oracle::Mapping, here: &port::Reading) {
    for code in doc.entries.iter().map(|e| e.0).chain([0, 0x10130, 0x30011]) {
        let want = doc.entries.iter().find(|e| e.0 == code).map(|e| e.1);
        let input = || format!("{}, code {code:x}", input());
        t.case(Group::Map, 0, Some(&oracle::map(raw, code)), &want, &here.map(code), &input);
        let want = doc.entries.iter().find(|e| e.0 == code).copied();
        t.case(Group::Map, 0, None, &want, &here.entry(code), &input);
    }
    // every element of the map, and some that it may lack
    let mut asked = [false; 512];
    for e in doc.entries.iter().map(|e| e.1).chain([0, 3, 16, AXIS, AXIS + 1, AXIS + 7]) {
        if std::mem::replace(&mut asked[e as usize], true) {
            continue;
        }
        let all: Vec<u32> = doc.entries.iter().filter(|x| x.1 == e).map(|x| x.0).collect();
        let want = all.iter().min().copied();
        let rust = oracle::map_rev(raw, e);
        let rust = if rust.is_some_and(|c| all.contains(&c)) { want } else { rust };
        let input = || format!("{}, element {e}", input());
        t.case(Group::MapRev, 0, Some(&rust), &want, &here.map_rev(e), &input);
    }
}

/// Maps of any content: document 01 alone.
pub fn any_map(t: &mut Tally, r: &mut Rng) {
    let n = r.pick(&[0, 1, 3, 255, 256]);
    let some_ranges = |r: &mut Rng| (r.below(3) as u8, r.below(3) as u8, r.one_in(2));
    let entries: Vec<Entry> = (0..n)
        .map(|_| (r.below(300) as u32, r.pick(&[0, 1, 2, 255, AXIS + 1, AXIS + 2]), some_ranges(r)))
        .collect();
    let count = if r.one_in(3) { r.pick(&[0, 1, 255, 256, 257, 300, usize::MAX]) } else { n };
    let map = port::AnyMap::new(count, &entries);
    let mut all = entries.clone();
    all.resize(256, (0, 0, FULL));
    all.truncate(count.min(256));
    let (code, e) = (r.below(310) as u32, r.pick(&[0, 1, 2, 5, 300, AXIS + 1, AXIS]));
    let input = || format!("count {count}, entries {entries:x?}, code {code:x}, element {e}");
    let want = (
        all.iter().find(|x| x.0 == code).map(|x| x.1),
        all.iter().filter(|x| x.1 == e).map(|x| x.0).min(),
        all.iter().find(|x| x.0 == code).copied(),
    );
    t.case(Group::Puts, 0, None, &want, &(map.map(code), map.map_rev(e), map.entry(code)), &input);
    numbers(t, (r.next() as u32, r.below(512) as u16, some_ranges(r)), r.next());
    // puts from the empty map
    let mut map = port::AnyMap::new(0, &[]);
    let mut want: BTreeMap<u32, Entry> = BTreeMap::new();
    let wide = r.one_in(20);
    for _ in 0..if wide { 300 } else { 8 } {
        let e = (r.below(if wide { 280 } else { 6 }) as u32, r.below(20) as u16, some_ranges(r));
        let full = want.len() == 256 && !want.contains_key(&e.0);
        if !full {
            want.insert(e.0, e);
        }
        let doc = full.then(|| refusal(11));
        let n = if full { 11 } else { 0 };
        t.case(Group::Puts, n, None, &doc, &map.put(e), &|| format!("put {e:x?} into {want:x?}"));
    }
    let want: Vec<Entry> = want.into_values().collect();
    t.case(Group::Puts, 0, None, &want, &map.entries(), &|| "a map after puts".into());
}

/// An entry as a number and back, and the entry of any number (document 02, P2, alone).
fn numbers(t: &mut Tally, e: Entry, any: u64) {
    let half = |r: u8| [2, 1, 0][r as usize];
    let (code, to, (input, output, inverted)) = e;
    let ranges = half(input) + 4 * half(output) + 16 * inverted as u64;
    let shape = 2 * ranges + (to >= AXIS) as u64;
    let want = ((code as u64) << 32 | shape << 16 | (to % AXIS) as u64, e);
    let got = port::entry_number(e);
    t.case(Group::Puts, 0, None, &want, &(got, port::entry_of_number(got)), &|| format!("number of {e:x?}"));
    // the number of an element is cut to the few that the comparison tells apart
    let x = any & !0xff00;
    let back = |k: u64| [2, 1, 0, 0][(k % 4) as usize];
    let ranges = x >> 17;
    let to = (x & 0xff) as u16 + if x >> 16 & 1 == 1 { AXIS } else { 0 };
    let want = ((x >> 32) as u32, to, (back(ranges), back(ranges >> 2), ranges >> 4 & 1 == 1));
    t.case(Group::Puts, 0, None, &want, &port::entry_of_number(x), &|| format!("the entry of {x:x}"));
}

/// `default`, with the Rust that request P1 mended; and with the Rust as published, where East is the only difference.
pub fn default(t: &mut Tally, b: &[u32], a: &[u32]) {
    let input = || format!("buttons {b:x?}, axes {a:x?}");
    let (doc, here) = (doc01::default(b, a), port::default(b, a));
    let asked = |f: fn(&[u32], &[u32]) -> oracle::Map| {
        if doc.is_ok() { rust(|| Ok(placed(f(b, a), b""))) } else { None }
    };
    let (mended, published) = (asked(oracle::default), asked(oracle::published_default));
    if doc.is_ok() && (mended.is_none() || published.is_none()) {
        t.panic(&input);
    }
    t.case(Group::Default, number(&doc), mended.as_ref(), &doc, &here, &input);
    let (doc, here) = (doc.map(doc01::with_east), here.map(doc01::with_east));
    t.case(Group::East, number(&doc), published.as_ref(), &doc, &here, &input);
}

/// Slots on all sides at once.
pub struct AllSlots {
    pub rust: oracle::Slots,
    pub doc: Slots,
    pub here: port::Data,
}

impl AllSlots {
    pub fn new() -> Self {
        AllSlots { rust: oracle::Slots::new(), doc: Vec::new(), here: port::Data::new() }
    }

    /// Whether an element has a slot.
    fn has(e: u16) -> bool {
        e < 20 || (AXIS <= e && e < AXIS + 9)
    }

    pub fn insert(&mut self, t: &mut Tally, e: u16, code: u32) {
        let rust = Self::has(e).then(|| self.rust.insert(e, code));
        let mut doc = None;
        if Self::has(e) {
            doc = self.doc.iter().find(|s| s.0 == e).map(|s| s.1);
            self.doc.retain(|s| s.0 != e);
            self.doc.push((e, code));
            self.doc.sort();
        }
        let here = self.here.insert(e, code);
        t.case(Group::Slots, 0, rust.as_ref(), &doc, &here, &|| format!("insert {code:x} at {e}"));
    }

    pub fn remove(&mut self, t: &mut Tally, e: u16) {
        let rust = Self::has(e).then(|| self.rust.remove(e));
        let doc = self.doc.iter().find(|s| s.0 == e).map(|s| s.1);
        self.doc.retain(|s| s.0 != e);
        t.case(Group::Slots, 0, rust.as_ref(), &doc, &self.here.remove(e), &|| format!("remove {e}"));
    }

    /// Whether a slot is filled that makes the Rust's build panic.
    pub fn dpad(&self) -> bool {
        self.doc.iter().any(|s| s.0 >= AXIS + 7)
    }

    /// Every slot, read.
    pub fn read(&self, t: &mut Tally) {
        for e in (0..22).chain(AXIS..AXIS + 11) {
            let rust = Self::has(e).then(|| self.rust.get(e));
            let doc = self.doc.iter().find(|s| s.0 == e).map(|s| s.1);
            t.case(Group::Slots, 0, rust.as_ref(), &doc, &self.here.get(e), &|| format!("slot {e} of {:x?}", self.doc));
        }
    }
}

/// Build, and what it leaves in an output of `room` bytes.
pub fn build(t: &mut Tally, s: &AllSlots, b: &[u32], a: &[u32], name: &[u8], id: Uuid, room: usize) {
    let input = || {
        format!("slots {:x?}, buttons {b:x?}, axes {a:x?}, name {}, uuid {id:02x?}, output of {room}", s.doc, shown(name))
    };
    let mut doc = doc01::build(&s.doc, b, a, name, id);
    // slot 7 or 8 makes the Rust panic: there it is not asked
    let domain = !s.dpad() && (number(&doc) == 0 || (13..=15).contains(&number(&doc)));
    let mut rust = None;
    if let (true, Ok(name)) = (domain, std::str::from_utf8(name)) {
        match self::rust(|| oracle::build(&s.rust, b, a, name, id)) {
            None => t.panic(&input),
            Some(r) => {
                rust = Some(match r {
                    Ok((m, line)) => Ok((placed(m, line.as_bytes()), line.into_bytes())),
                    Err(e) => Err(Refusal::from(e)),
                })
            }
        }
    }
    if doc.as_ref().is_ok_and(|d| d.1.len() > room) {
        doc = Err(refusal(18));
        rust = None;
    }
    // the line at the output's start, later bytes unchanged; all unchanged on a refusal
    let mut out = vec![0xa5; room];
    let here = s.here.build(b, a, name, id, &mut out).map(|(m, n)| (m, out[..n].to_vec()));
    let rest = here.as_ref().map_or(0, |x| x.1.len());
    t.case(Group::Build, number(&doc), rust.as_ref(), &doc, &here, &input);
    let same = out[rest..].iter().all(|x| *x == 0xa5);
    t.case(Group::Build, number(&doc), None, &true, &same, &|| format!("{}: bytes after the line", input()));
}
