//! The rows of the benchmark: what is measured against what, and the goal.
use crate::here::{self, Call, Form, Pad};
use crate::inputs::{self, List, BUFFER, RECORD};
use crate::large;
use crate::measure::{Case, Side, Work};
use crate::pads;
use crate::passes::{CopyPass, SumPass};
use crate::rust;
use crate::uuids::{self, Family};
use harness::book::Key;
use harness::gen::Rng;
use harness::lent::Store;
use harness::plain::{Uuid, AXIS, HALL};
use harness::port::Reading;
use std::collections::HashSet;
use std::rc::Rc;

#[derive(Clone, Copy)]
pub enum Goal {
    /// At most so many times the cost of that side, in the worst case.
    AtMost(f64, Side),
    /// At most so many times the cost of each of these sides, in the worst case.
    AtMostEach(f64, [Side; 2]),
    /// At most so many times the cost of the first side, and once that of the second.
    Beyond(f64, [Side; 2]),
    /// The cases of a family stand in order of size, each twice the one before: at most so many times its cost.
    Growth(f64),
    /// At most so many nanoseconds a call, in the worst case; of counted instructions nothing is said.
    Nanoseconds(f64),
    /// No goal: the figure is stated.
    Stated,
}

#[derive(Clone, Copy)]
pub struct Row {
    pub name: &'static str,
    pub title: &'static str,
    pub goal: Goal,
    pub cases: fn(&[List]) -> Vec<Case>,
}

pub const fn row(name: &'static str, title: &'static str, goal: Goal, cases: fn(&[List]) -> Vec<Case>) -> Row {
    Row { name, title, goal, cases }
}

const HALF: Goal = Goal::AtMost(0.5, Side::Gilrs);
pub const ORDINARY: Goal = Goal::AtMost(1.5, Side::Sum);
const WORST: Goal = Goal::AtMost(15.0, Side::Sum);
pub const LINEAR: Goal = Goal::Growth(2.2);

const ROWS: [Row; 28] = [
    row("read", "`parse_sdl_mapping`, 32 buttons and 16 axes", HALF, read),
    row("build", "`from_data`, 25 slots", HALF, build),
    row("default", "`default`", Goal::Stated, default),
    row("insert", "`insert` of a list into a fresh store", Goal::AtMost(1.5, Side::Gilrs), insert),
    row("insert-held", "`insert` of 64 lines, 56 of them held", LINEAR, insert_held),
    row("insert-again", "`insert` of the whole list again, 1 in 16 new", LINEAR, insert_again),
    row("found", "`found`, full store, ordinary UUIDs", ORDINARY, |_| full(Call::Found, &uuids::ORDINARY)),
    row("get", "`get`, full store, ordinary UUIDs", ORDINARY, |_| full(Call::Get, &uuids::ORDINARY)),
    row("found-worst", "`found`, full store, constructed UUIDs", WORST, |_| full(Call::Found, &uuids::CONSTRUCTED)),
    row("get-worst", "`get`, full store, constructed UUIDs", WORST, |_| full(Call::Get, &uuids::CONSTRUCTED)),
    row("found-shared", "`found`, one UUID of 255 organisers", ORDINARY, |_| shared(Call::Found, &uuids::SHARED)),
    row("get-shared", "`get`, one UUID of 255 organisers", ORDINARY, |_| shared(Call::Get, &uuids::SHARED)),
    row("found-shared-worst", "`found`, constructed, 255 organisers", WORST, |_| {
        shared(Call::Found, &uuids::SHARED_CONSTRUCTED)
    }),
    row("get-shared-worst", "`get`, constructed, 255 organisers", WORST, |_| {
        shared(Call::Get, &uuids::SHARED_CONSTRUCTED)
    }),
    row("found-growth", "`found`, ordinary UUIDs", LINEAR, |_| growing(Call::Found, &uuids::ORDINARY)),
    row("get-growth", "`get`, ordinary UUIDs", LINEAR, |_| growing(Call::Get, &uuids::ORDINARY)),
    row("found-worst-growth", "`found`, constructed UUIDs", LINEAR, |_| growing(Call::Found, &uuids::CONSTRUCTED)),
    row("get-worst-growth", "`get`, constructed UUIDs", LINEAR, |_| growing(Call::Get, &uuids::CONSTRUCTED)),
    row("save", "`save` replacing the first of 3120 records", Goal::AtMost(3.0, Side::Sum), save),
    row("map", "`map`, 20 entries, a map kept as two lists", Goal::AtMost(3.0, Side::Gilrs), |_| map(20, true)),
    row("map-256", "`map`, 256 entries, a map kept as two lists", Goal::Stated, |_| map(256, true)),
    row("map-value", "`map`, 20 entries, the map handed over", Goal::Stated, |_| map(20, false)),
    row("value", "`entry_value`, the value of a raw value", Goal::Nanoseconds(5.0), |_| pads::value()),
    row("event-value", "`event`, 20 entries, the map handed over", Goal::Stated, |_| pads::event()),
    row("pad-event", "`Pad::raw_event`", Goal::Nanoseconds(600.0), |_| pads::raw_event(20)),
    row("pad-event-256", "`Pad::raw_event`, full", Goal::Nanoseconds(25000.0), |_| pads::raw_event(256)),
    row("pad-map", "`Pad::change_map`", Goal::Nanoseconds(10000.0), |_| pads::change_map(20)),
    row("pads-event", "`Pads::raw_event`", Goal::Nanoseconds(1200.0), |_| pads::two_events(20)),
];

/// Every row: those on the largest stores stand beside those of the same kind of call.
pub fn all() -> Vec<Row> {
    let at = ROWS.iter().position(|r| r.name == "map").unwrap_or(0);
    [&ROWS[..at], &large::ROWS, &ROWS[at..]].concat()
}

/// Records that fill an index of 65535 bytes, the hall's and organisers', and sizes for a growth.
const FULL: usize = 3120;
const FULL_SHARED: usize = 2978;
const SIZES: [usize; 5] = [195, 390, 780, 1560, FULL];
const HELD: [usize; 4] = [240, 480, 960, 1920];
const AGAIN: [usize; 4] = [230, 460, 920, 1840];
/// UUIDs that are looked up, of each kind.
const LOOKS: usize = 512;

pub fn case(label: String, port: impl Work + 'static, gilrs: impl Work + 'static) -> Case {
    Case { family: String::new(), label, works: vec![(Side::Port, Box::new(port)), (Side::Gilrs, Box::new(gilrs))] }
}

/// The case with passes over the stores beside it.
pub fn with_passes(mut c: Case, stores: Rc<Vec<Store>>) -> Case {
    c.works.push((Side::Sum, Box::new(SumPass(stores.clone()))));
    c.works.push((Side::Copy, Box::new(CopyPass::of(stores))));
    c
}

/// The port's side alone, of a family whose cases differ in size.
pub fn of_size(family: &str, n: usize, port: impl Work + 'static) -> Case {
    Case { family: family.to_string(), label: n.to_string(), works: vec![(Side::Port, Box::new(port))] }
}

pub fn pad() -> Pad {
    Pad { buttons: inputs::buttons(32), axes: inputs::axes(16) }
}

fn read(lists: &[List]) -> Vec<Case> {
    let one = |l: &List| {
        let lines: Vec<String> = inputs::mappings(&l.text).iter().map(|s| s.to_string()).collect();
        let label = format!("{}, {} lines", l.name, lines.len());
        let gilrs = rust::Read::of(&lines, &pad());
        case(label, here::Read { lines, pad: pad() }, gilrs)
    };
    lists.iter().map(one).collect()
}

/// Every slot that has a name in a line: 19 buttons and 6 axes, at places that vary, with real names.
pub fn forms(lists: &[List]) -> Vec<Form> {
    let mut r = Rng::new(7);
    let (buttons, axes) = (inputs::buttons(32), inputs::axes(16));
    let lines: Vec<&str> = lists.iter().flat_map(|l| inputs::mappings(&l.text)).collect();
    let names: Vec<&str> = lines.iter().filter_map(|l| l.split(',').nth(1)).collect();
    let uuids = uuids::pads(64, 0);
    let mut form = |uuid: &Uuid| {
        let (b, a) = (r.below(buttons.len()), r.below(axes.len()));
        let mut slots: Vec<(u16, u32)> = (1..20).map(|k| (k, buttons[(b + 5 * k as usize) % buttons.len()])).collect();
        slots.extend((1..7).map(|k| (AXIS + k, axes[(a + 3 * k as usize) % axes.len()])));
        let name = if names.is_empty() { "Pad" } else { r.pick(&names) };
        Form { slots, name: name.to_string(), uuid: *uuid }
    };
    uuids.iter().map(|u| form(u)).collect()
}

fn build(lists: &[List]) -> Vec<Case> {
    let forms = forms(lists);
    let (mut port, gilrs) = (here::Build::of(&forms, &pad()), rust::Build::of(&forms, &pad()));
    assert_eq!(port.line(), gilrs.line(), "both build the same line");
    vec![case(format!("{} pads in turn", forms.len()), port, gilrs)]
}

/// Pads with no codes, with the codes of a usual pad, with all 31, and with 1024 of each kind and none of those.
fn default(_: &[List]) -> Vec<Case> {
    let pad = |buttons: Vec<u32>, axes: Vec<u32>| Pad { buttons, axes };
    let (sticks, hats) = (0x30000..0x30006, 0x30010..0x30012);
    let (front, cross) = (0x10130..0x1013f, 0x10220..0x10224);
    let pads = [
        ("no codes", pad(vec![], vec![])),
        ("11 buttons, 8 axes", pad((0x10130..0x1013b).collect(), sticks.clone().chain(hats).collect())),
        ("all 31 codes", pad(front.chain(cross).collect(), sticks.chain(0x30010..0x30016).collect())),
        ("1024 other codes of each kind", pad((1..1025).collect(), (1..1025).collect())),
    ];
    let one = |(name, pad): &(&str, Pad)| {
        let pads = vec![pad.clone(); 16];
        let gilrs = rust::Default::of(&pads);
        case(name.to_string(), here::Default { pads }, gilrs)
    };
    pads.iter().map(one).collect()
}

fn insert(lists: &[List]) -> Vec<Case> {
    let one = |l: &List| {
        let fresh = Store::fresh(BUFFER, BUFFER);
        let text = inputs::fitting(&l.text);
        let label = format!("{}, {} lines, {} bytes", l.name, text.lines().count(), text.len());
        let gilrs = rust::Insert::of("", &text);
        let port = here::Insert { before: fresh.clone(), store: fresh.clone(), text };
        with_passes(case(label, port, gilrs), Rc::new(vec![fresh]))
    };
    lists.iter().map(one).collect()
}

pub fn text_of(uuids: &[Uuid]) -> String {
    uuids.iter().map(inputs::short_line).collect()
}

/// A store that holds `held` lines, with room for `more` and at least so much index, and an insert of `list`.
fn filled(held: &[Uuid], list: &[Uuid], more: usize, least: usize) -> Case {
    let (before, text) = (text_of(held), text_of(list));
    let line = before.lines().next().map_or(0, str::len);
    let lines = held.len() + more;
    let index = inputs::index_of(&uuids::hall(vec![[0; 16]; lines]), line);
    let mut store = Store::fresh(index.max(least), line * lines);
    let (refusal, _, _) = store.insert(HALL, before.as_bytes());
    assert!(refusal.is_none(), "the store takes the lines that it holds");
    let gilrs = rust::Insert::of(&before, &text);
    case(held.len().to_string(), here::Insert { before: store.clone(), store, text }, gilrs)
}

/// The list stays as it is: 56 lines that are held, from all over the store, and 8 new ones.
fn insert_held(_: &[List]) -> Vec<Case> {
    let one = |n: &usize| {
        let (held, new) = (uuids::pads(*n, 0), uuids::random(8, 0));
        let mut r = Rng::new(8);
        let list: Vec<Uuid> =
            (0..64).map(|k| if k % 8 == 7 { new[k / 8] } else { held[(k * n / 64 + r.below(n / 64)) % n] }).collect();
        filled(&held, &list, 8, 0)
    };
    HELD.iter().map(one).collect()
}

/// The list grows with the store: the lines held in their order, and after each fifteen a new one.
pub fn held_again(n: usize, least: usize) -> Case {
    let (held, new) = (uuids::pads(n, 0), uuids::random(n / 16, 0));
    let (mut list, mut next) = (Vec::new(), new.iter());
    for (k, u) in held.iter().enumerate().take(n - n / 16) {
        list.push(*u);
        if k % 15 == 14 {
            list.extend(next.next());
        }
    }
    filled(&held, &list, n / 16, least)
}

fn insert_again(_: &[List]) -> Vec<Case> {
    AGAIN.iter().map(|n| held_again(*n, 0)).collect()
}

/// Stores of one size: their records, the length of each line, and the lengths of the buffers.
#[derive(Clone, Copy)]
pub struct Size {
    pub records: usize,
    pub line: usize,
    pub index: usize,
    pub text: usize,
}

/// Look-ups in several stores in turn, as many as have the records of four full ones: in a single small store, the
/// processor would learn the branches of a sort by heart.
pub fn looks(call: Call, family: &Family, size: Size) -> here::Look {
    let n = size.records;
    let lists: Vec<Vec<Key>> = (0..(4 * FULL / n).max(1)).map(|seed| (family.list)(n, seed as u64)).collect();
    let stores: Vec<Store> = lists.iter().map(|l| inputs::store(l, size.line, size.index, size.text)).collect();
    let absent = uuids::random(LOOKS, 99).into_iter().zip(lists[0].iter().cycle()).map(|(u, key)| (key.0, u)).collect();
    let sound = lists[0].iter().collect::<HashSet<_>>().len() == n;
    here::Look { stores: Rc::new(stores), lists, sound, call, absent, turn: 0, out: vec![0; 4096] }
}

/// The same beside gilrs and plain passes.
pub fn look(call: Call, family: &Family, size: Size, label: String) -> Case {
    let port = looks(call, family, size);
    let (list, stores) = (&port.lists[0], port.stores.clone());
    let mut r = Rng::new(10);
    let held: Vec<Uuid> = (0..LOOKS).map(|_| r.pick(list).1).collect();
    // gilrs has one database for each party: here one with the UUIDs of all
    let listed: Vec<Uuid> = list.iter().map(|key| key.1).collect();
    let gilrs = rust::Look::of(&text_of(&listed), &held, &uuids::random(LOOKS, 99));
    with_passes(case(label, port, gilrs), stores)
}

/// Full stores: 3120 records, buffers of 65535 bytes.
fn full(call: Call, families: &[Family]) -> Vec<Case> {
    let size = Size { records: FULL, line: 21, index: BUFFER, text: BUFFER };
    families.iter().map(|f| look(call, f, size, f.name.to_string())).collect()
}

/// Full stores of organisers' lines: 2978 records.
fn shared(call: Call, families: &[Family]) -> Vec<Case> {
    let size = Size { records: FULL_SHARED, line: 21, index: BUFFER, text: BUFFER };
    families.iter().map(|f| look(call, f, size, f.name.to_string())).collect()
}

/// Stores of doubling size; each one's buffers are full.
fn growing(call: Call, families: &[Family]) -> Vec<Case> {
    let size = |n: usize| Size { records: n, line: 21, index: RECORD * n, text: 21 * n };
    let sized = |f: &Family, n: usize| of_size(f.name, n, looks(call, f, size(n)));
    families.iter().flat_map(|f| SIZES.iter().map(move |n| sized(f, *n))).collect()
}

/// Saves under the UUID of the first record, in several stores in turn.
pub fn saves(lists: &[List], family: &Family, size: Size) -> (here::Save, Rc<Vec<Store>>) {
    let held: Vec<Vec<Key>> = (0..(4 * FULL / size.records).clamp(1, 4))
        .map(|seed| (family.list)(size.records, seed as u64))
        .collect();
    let stores: Vec<Store> = held.iter().map(|l| inputs::store(l, size.line, size.index, size.text)).collect();
    let mut form = forms(lists).swap_remove(0);
    form.uuid = held[0][0].1;
    let before = stores.iter().cloned().zip(held.iter().map(|l| l[0].1)).collect();
    (here::Save::of(before, &form, &pad()), Rc::new(stores))
}

/// The same beside gilrs and plain passes.
pub fn save_beside(lists: &[List], family: &Family, size: Size, label: String) -> Case {
    let (port, stores) = saves(lists, family, size);
    let held: Vec<Uuid> = (family.list)(size.records, 0).into_iter().map(|key| key.1).collect();
    let mut form = forms(lists).swap_remove(0);
    form.uuid = held[0];
    with_passes(case(label, port, rust::Save::of(&text_of(&held), &form, &pad())), stores)
}

fn save(lists: &[List]) -> Vec<Case> {
    let size = Size { records: FULL, line: 20, index: BUFFER, text: BUFFER };
    vec![save_beside(lists, &uuids::ORDINARY[0], size, "25 slots".to_string())]
}

/// A map of n codes, asked for each in mixed order and, once in eight, for a code that it lacks.
fn map(n: u32, kept: bool) -> Vec<Case> {
    let keys = ["a", "b", "x", "y", "back", "start", "guide", "leftx", "lefty", "dpup", "leftshoulder"];
    let pairs: String = (0..n).map(|k| format!("{}:b{k},", keys[k as usize % keys.len()])).collect();
    let line = format!("{:032x},Pad,{pairs}", 1);
    let pad = Pad { buttons: inputs::buttons(n), axes: Vec::new() };
    let mut r = Rng::new(9);
    let ask = |_| if r.one_in(8) { 0x20000 + r.below(64) as u32 } else { r.pick(&pad.buttons) };
    let codes: Vec<u32> = (0..16384).map(ask).collect();
    let reading = Reading::of(line.as_bytes(), &pad.buttons, &pad.axes);
    assert_eq!(reading.answer().map(|m| m.entries.len()), Ok(n as usize));
    let gilrs = rust::Map::of(&line, &pad, &codes);
    let label = format!("{n} entries");
    let case = if kept {
        case(label, here::Lists::of(&reading, codes), gilrs)
    } else {
        case(label, here::Map { reading, codes }, gilrs)
    };
    vec![case]
}
