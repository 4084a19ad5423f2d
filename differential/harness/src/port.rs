//! The proved library on plain data, through bindings/raspteal.h.
use crate::ffi;
use crate::plain::{Entry, Map, Refusal, Slots, Tok, Uuid, AXIS, FULL};

pub fn element(e: u16) -> ffi::Element {
    ffi::Element { is_axis: e >= AXIS, number: e % AXIS }
}

pub fn number(e: ffi::Element) -> u16 {
    e.number + if e.is_axis { AXIS } else { 0 }
}

pub fn id(u: Uuid) -> ffi::Uuid {
    let n = u128::from_be_bytes(u);
    ffi::Uuid { high: (n >> 64) as u64, low: n as u64 }
}

pub fn bytes(u: ffi::Uuid) -> Uuid {
    (((u.high as u128) << 64) | u.low as u128).to_be_bytes()
}

/// None: not refused. What a refusal lacks has to be 0.
pub fn refused(r: ffi::Refusal) -> Option<Refusal> {
    assert!((r.has_place || r.place == 0) && (r.has_code || r.code == 0), "{r:?}");
    assert!(r.number != 0 || !(r.has_place || r.has_code), "{r:?}");
    (r.number != 0).then_some(Refusal {
        number: r.number,
        place: r.has_place.then_some(r.place),
        code: r.has_code.then_some(r.code),
    })
}

/// An entry both ways.
fn entry(e: &ffi::Entry) -> Entry {
    (e.code, number(e.element), (e.input, e.output, e.inverted))
}

pub fn flat((code, e, (input, output, inverted)): Entry) -> ffi::Entry {
    unsafe { ffi::raspteal_entry_ranged(code, element(e), input, output, inverted) }
}

pub fn entry_number(e: Entry) -> u64 {
    unsafe { ffi::raspteal_entry_number(flat(e)) }
}

pub fn entry_of_number(x: u64) -> Entry {
    entry(unsafe { &ffi::raspteal_entry_of_number(x) })
}

fn entered(e: ffi::Entered) -> Option<Entry> {
    assert!(e.found || entry(&e.entry) == (0, 0, FULL), "an entry that is not there");
    e.found.then(|| entry(&e.entry))
}

fn plain(m: &ffi::Mapping) -> Map {
    assert!(m.count <= ffi::CODES_MAX);
    let unused = |e: &ffi::Entry| entry(e) == (0, 0, FULL);
    assert!(m.entries[m.count..].iter().all(unused), "an unused entry is not as it should be");
    Map {
        entries: m.entries[..m.count].iter().map(entry).collect(),
        name_start: m.name_start,
        name_len: m.name_len,
        default: m.is_default,
        hats: m.hats_mapped,
    }
}

/// A refused call has the empty map.
pub fn answer(a: &ffi::Answer) -> Result<Map, Refusal> {
    let map = plain(&a.map);
    match refused(a.refusal) {
        None => Ok(map),
        Some(r) => {
            assert_eq!(map, Map::default(), "a refusal with a map");
            Err(r)
        }
    }
}

pub fn valid_up_to(s: &[u8]) -> usize {
    unsafe { ffi::raspteal_valid_up_to(s.as_ptr(), s.len()) }
}

pub fn is_utf8(s: &[u8]) -> bool {
    unsafe { ffi::raspteal_is_utf8(s.as_ptr(), s.len()) }
}

pub fn parse_uuid(s: &[u8]) -> Option<Uuid> {
    let r = unsafe { ffi::raspteal_uuid_parse_str(s.as_ptr(), s.len()) };
    r.valid.then_some(bytes(r.id))
}

/// The form that a UUID is spelled in, 0 for none.
pub fn uuid_form(s: &[u8]) -> u8 {
    unsafe { ffi::raspteal_uuid_parse_str(s.as_ptr(), s.len()) }.form
}

/// The form in a line's first token, 0 where that is none.
pub fn first_form(line: &[u8]) -> u8 {
    unsafe { ffi::raspteal_first_form(line.as_ptr(), line.len()) }
}

pub fn parse_u16(s: &[u8]) -> Option<u16> {
    let r = unsafe { ffi::raspteal_parse_u16(s.as_ptr(), s.len()) };
    r.valid.then_some(r.number)
}

/// A writer's answer: where it stopped, if the text fitted.
pub fn written(w: ffi::Written) -> Option<usize> {
    assert!(w.fits || w.next == 0);
    w.fits.then_some(w.next)
}

pub fn write_uuid(u: Uuid, out: &mut [u8], at: usize) -> Option<usize> {
    written(unsafe { ffi::raspteal_uuid_write_simple(id(u), out.as_mut_ptr(), out.len(), at) })
}

pub fn write_index(n: usize, out: &mut [u8], at: usize) -> Option<usize> {
    let w = written(unsafe { ffi::raspteal_write_index(out.as_mut_ptr(), out.len(), at, n) });
    assert!(w.map_or(true, |end| end - at == unsafe { ffi::raspteal_index_len(n) }));
    w
}

pub fn write_bytes(v: &[u8], out: &mut [u8], at: usize) -> Option<usize> {
    written(unsafe { ffi::raspteal_write_bytes(out.as_mut_ptr(), out.len(), at, v.as_ptr(), v.len()) })
}

pub fn same_bytes(a: &[u8], b: &[u8]) -> bool {
    unsafe { ffi::raspteal_same_bytes(a.as_ptr(), a.len(), b.as_ptr(), b.len()) }
}

/// The answers of the element calls for the button and the axis of that number.
pub type ElementCalls = (Option<u32>, bool, bool, bool, Option<u16>, bool, bool);

pub fn element_calls(n: u16) -> ElementCalls {
    unsafe {
        let nec = ffi::raspteal_button_to_nec(n);
        let second = ffi::raspteal_axis_second_axis(n);
        (
            nec.found.then_some(nec.code),
            ffi::raspteal_button_is_stick(n),
            ffi::raspteal_button_is_dpad(n),
            ffi::raspteal_axis_is_stick(n),
            second.found.then_some(second.number),
            ffi::raspteal_element_is_button(ffi::Element { is_axis: false, number: n }),
            ffi::raspteal_element_is_button(ffi::Element { is_axis: true, number: n }),
        )
    }
}

pub fn same_element(a: u16, b: u16) -> bool {
    unsafe { ffi::raspteal_element_eq(element(a), element(b)) }
}

pub fn find_element(key: &[u8]) -> Option<u16> {
    let m = unsafe { ffi::raspteal_find_element(key.as_ptr(), key.len()) };
    m.found.then_some(number(m.element))
}

pub fn ident(e: u16) -> Vec<u8> {
    let i = unsafe { ffi::raspteal_ident_of(element(e)) };
    i.name[..i.len].to_vec()
}

fn token(t: &ffi::Token) -> Tok {
    let p = t.pair;
    let to = number(p.to);
    match t.kind {
        0 => Tok::End,
        1 => Tok::Refused(refused(t.refusal).expect("a refusal without a number")),
        2 => Tok::Uuid(bytes(t.id)),
        3 => Tok::Platform { start: t.start, len: t.len },
        4 => Tok::Name { start: t.start, len: t.len },
        5 => Tok::Axis { from: p.from, to, input: p.input, output: p.output, inverted: p.inverted },
        6 | 7 if p.input != 2 || p.inverted => panic!("a button or hat with an input range: {p:?}"),
        6 => Tok::Button { from: p.from, to, output: p.output },
        7 => Tok::Hat { hat: p.from, direction: p.direction, to, output: p.output },
        k => panic!("a token of kind {k}"),
    }
}

/// A walker over a line: position and state between the calls.
pub struct Walker<'a> {
    line: &'a [u8],
    pos: usize,
    state: u8,
}

impl<'a> Walker<'a> {
    pub fn new(line: &'a [u8]) -> Self {
        Walker { line, pos: 0, state: unsafe { ffi::raspteal_parser_start(line.as_ptr(), line.len()) } }
    }
    pub fn at(line: &'a [u8], pos: usize, state: u8) -> Self {
        Walker { line, pos, state }
    }
    pub fn next_token(&mut self) -> Tok {
        let s = unsafe { ffi::raspteal_parser_step(self.line.as_ptr(), self.line.len(), self.pos, self.state) };
        self.pos = s.pos;
        self.state = s.state;
        token(&s.token)
    }
    pub fn place(&self) -> (usize, u8) {
        (self.pos, self.state)
    }
}

/// A reading's answer as the library gave it, so that `map` and `map_rev` can be asked.
pub struct Reading(ffi::Answer);

impl Reading {
    pub fn of(line: &[u8], buttons: &[u32], axes: &[u32]) -> Self {
        Reading(unsafe {
            ffi::raspteal_parse_sdl_mapping(
                line.as_ptr(), line.len(), buttons.as_ptr(), buttons.len(), axes.as_ptr(), axes.len(),
            )
        })
    }
    pub fn answer(&self) -> Result<Map, Refusal> {
        answer(&self.0)
    }
    pub fn entries(&self) -> &[ffi::Entry] {
        &self.0.map.entries[..self.0.map.count]
    }
    pub fn map(&self, code: u32) -> Option<u16> {
        let m = unsafe { ffi::raspteal_mapping_map(self.0.map, code) };
        m.found.then_some(number(m.element))
    }
    pub fn entry(&self, code: u32) -> Option<Entry> {
        entered(unsafe { ffi::raspteal_mapping_entry(self.0.map, code) })
    }
    pub fn map_rev(&self, e: u16) -> Option<u32> {
        let c = unsafe { ffi::raspteal_mapping_map_rev(self.0.map, element(e)) };
        c.found.then_some(c.code)
    }
}

/// A map of any content: entries unsorted or twice, a count over 256.
pub struct AnyMap(pub ffi::Mapping);

impl AnyMap {
    pub fn new(count: usize, entries: &[Entry]) -> Self {
        let mut m = unsafe { ffi::raspteal_mapping_new() };
        m.count = count;
        for (slot, e) in m.entries.iter_mut().zip(entries) {
            *slot = flat(*e);
        }
        AnyMap(m)
    }
    pub fn map(&self, code: u32) -> Option<u16> {
        let m = unsafe { ffi::raspteal_mapping_map(self.0, code) };
        m.found.then_some(number(m.element))
    }
    pub fn entry(&self, code: u32) -> Option<Entry> {
        entered(unsafe { ffi::raspteal_mapping_entry(self.0, code) })
    }
    pub fn map_rev(&self, e: u16) -> Option<u32> {
        let c = unsafe { ffi::raspteal_mapping_map_rev(self.0, element(e)) };
        c.found.then_some(c.code)
    }
    pub fn put(&mut self, e: Entry) -> Option<Refusal> {
        let a = unsafe { ffi::raspteal_mapping_put(self.0, flat(e)) };
        self.0 = a.map;
        refused(a.refusal)
    }
    pub fn entries(&self) -> Vec<Entry> {
        plain(&self.0).entries
    }
}

/// Slots: they go in and come back by value.
#[derive(Clone, Copy)]
pub struct Data(pub ffi::MappingData);

fn code(c: ffi::Code) -> Option<u32> {
    c.found.then_some(c.code)
}

impl Data {
    pub fn new() -> Self {
        Data(unsafe { ffi::raspteal_data_new() })
    }
    pub fn of(slots: &Slots) -> Self {
        let mut d = Data::new();
        for (e, c) in slots {
            d.insert(*e, *c);
        }
        d
    }
    pub fn get(&self, e: u16) -> Option<u32> {
        code(unsafe {
            if e >= AXIS { ffi::raspteal_data_axis(self.0, e - AXIS) } else { ffi::raspteal_data_button(self.0, e) }
        })
    }
    fn take(&mut self, c: ffi::Changed) -> Option<u32> {
        self.0 = c.slots;
        code(c.former)
    }
    pub fn insert(&mut self, e: u16, c: u32) -> Option<u32> {
        let changed = unsafe {
            if e >= AXIS {
                ffi::raspteal_data_insert_axis(self.0, c, e - AXIS)
            } else {
                ffi::raspteal_data_insert_btn(self.0, c, e)
            }
        };
        self.take(changed)
    }
    pub fn remove(&mut self, e: u16) -> Option<u32> {
        let changed = unsafe {
            if e >= AXIS {
                ffi::raspteal_data_remove_axis(self.0, e - AXIS)
            } else {
                ffi::raspteal_data_remove_button(self.0, e)
            }
        };
        self.take(changed)
    }
    /// Build: the map and the line's length; the line stands at the output's start.
    pub fn build(
        &self, buttons: &[u32], axes: &[u32], name: &[u8], uuid: Uuid, out: &mut [u8],
    ) -> Result<(Map, usize), Refusal> {
        let b = unsafe {
            ffi::raspteal_from_data(
                self.0, buttons.as_ptr(), buttons.len(), axes.as_ptr(), axes.len(), name.as_ptr(), name.len(),
                id(uuid), out.as_mut_ptr(), out.len(),
            )
        };
        let a = answer(&ffi::Answer { refusal: b.refusal, map: b.map });
        assert!(a.is_ok() || b.len == 0, "a refused build with a length");
        a.map(|m| (m, b.len))
    }
}

pub fn default(buttons: &[u32], axes: &[u32]) -> Result<Map, Refusal> {
    answer(&unsafe { ffi::raspteal_default(buttons.as_ptr(), buttons.len(), axes.as_ptr(), axes.len()) })
}
