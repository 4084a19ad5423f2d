//! gilrs's side: its own functions, called directly. Warnings are off, as in a program that sets no logger.
use crate::here::{Form, Pad};
use crate::measure::Work;
use gilrs_core::{EvCode, Gamepad};
use harness::plain::Uuid as Bytes;
use oracle::mapping::{Mapping, MappingData, MappingDb};
use std::hint::black_box;
use uuid::Uuid;

fn codes(list: &[u32]) -> Vec<EvCode> {
    list.iter().map(|c| EvCode(*c)).collect()
}

pub struct Read {
    lines: Vec<String>,
    buttons: Vec<EvCode>,
    axes: Vec<EvCode>,
}

impl Read {
    pub fn of(lines: &[String], pad: &Pad) -> Self {
        Read { lines: lines.to_vec(), buttons: codes(&pad.buttons), axes: codes(&pad.axes) }
    }
}

impl Work for Read {
    fn calls(&self) -> usize {
        self.lines.len()
    }
    fn go(&mut self) {
        for line in &self.lines {
            let _ = black_box(Mapping::parse_sdl_mapping(black_box(line), &self.buttons, &self.axes));
        }
    }
}

fn data(slots: &[(u16, u32)]) -> MappingData {
    let mut d = oracle::Slots::new();
    for (e, code) in slots {
        d.insert(*e, *code);
    }
    d.0
}

pub struct Build {
    forms: Vec<(MappingData, Form)>,
    buttons: Vec<EvCode>,
    axes: Vec<EvCode>,
}

impl Build {
    pub fn of(forms: &[Form], pad: &Pad) -> Self {
        let forms = forms.iter().map(|f| (data(&f.slots), f.clone())).collect();
        Build { forms, buttons: codes(&pad.buttons), axes: codes(&pad.axes) }
    }
    fn one(&self, k: usize) -> (Mapping, String) {
        let (data, form) = black_box(&self.forms[k]);
        let uuid = Uuid::from_bytes(form.uuid);
        Mapping::from_data(data, &self.buttons, &self.axes, &form.name, uuid).expect("a form that builds")
    }
    /// The line that is built of the first form.
    pub fn line(&self) -> Vec<u8> {
        self.one(0).1.into_bytes()
    }
}

impl Work for Build {
    fn calls(&self) -> usize {
        self.forms.len()
    }
    fn go(&mut self) {
        for k in 0..self.forms.len() {
            black_box(self.one(k));
        }
    }
}

/// The default maps of pads, in turn.
pub struct Default {
    pads: Vec<Gamepad>,
}

impl Default {
    pub fn of(pads: &[Pad]) -> Self {
        let one = |p: &Pad| Gamepad { buttons: codes(&p.buttons), axes: codes(&p.axes) };
        Default { pads: pads.iter().map(one).collect() }
    }
}

impl Work for Default {
    fn calls(&self) -> usize {
        self.pads.len()
    }
    fn go(&mut self) {
        for pad in &self.pads {
            black_box(Mapping::default(black_box(pad)));
        }
    }
}

fn database(text: &str) -> MappingDb {
    let mut db = MappingDb::new();
    db.insert(text);
    db
}

/// Insert of a text into a database that is made anew before each call.
pub struct Insert {
    before: String,
    text: String,
    db: MappingDb,
}

impl Insert {
    pub fn of(before: &str, text: &str) -> Self {
        Insert { before: before.to_string(), text: text.to_string(), db: MappingDb::new() }
    }
}

impl Work for Insert {
    fn calls(&self) -> usize {
        1
    }
    fn prepare(&mut self) {
        self.db = database(&self.before);
    }
    fn go(&mut self) {
        self.db.insert(black_box(&self.text));
        black_box(&self.db);
    }
}

/// Look-ups, one that is held and one that is not, in turn.
pub struct Look {
    db: MappingDb,
    uuids: Vec<Uuid>,
}

impl Look {
    pub fn of(text: &str, held: &[Bytes], absent: &[Bytes]) -> Self {
        let pairs = held.iter().zip(absent).flat_map(|(h, a)| [Uuid::from_bytes(*h), Uuid::from_bytes(*a)]);
        Look { db: database(text), uuids: pairs.collect() }
    }
}

impl Work for Look {
    fn calls(&self) -> usize {
        self.uuids.len()
    }
    fn go(&mut self) {
        for u in &self.uuids {
            black_box(self.db.get(*black_box(u)));
        }
    }
}

/// What a save is in gilrs: build, then insert of the line.
pub struct Save {
    build: Build,
    db: MappingDb,
}

impl Save {
    pub fn of(text: &str, form: &Form, pad: &Pad) -> Self {
        Save { build: Build::of(std::slice::from_ref(form), pad), db: database(text) }
    }
}

impl Work for Save {
    fn calls(&self) -> usize {
        1
    }
    fn go(&mut self) {
        let (map, line) = self.build.one(0);
        self.db.insert(&line);
        black_box((map, &self.db));
    }
}

/// `map` on the map of a line.
pub struct Map {
    map: Mapping,
    codes: Vec<EvCode>,
}

impl Map {
    pub fn of(line: &str, pad: &Pad, asked: &[u32]) -> Self {
        let map = Mapping::parse_sdl_mapping(line, &codes(&pad.buttons), &codes(&pad.axes));
        Map { map: map.expect("a line that reads"), codes: codes(asked) }
    }
}

impl Work for Map {
    fn calls(&self) -> usize {
        self.codes.len()
    }
    fn go(&mut self) {
        for code in &self.codes {
            black_box(black_box(&self.map).map(black_box(code)));
        }
    }
}
