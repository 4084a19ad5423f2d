//! The rows on large stores: an index of more than 65535 bytes, up to 49932 records, and a text of up to 16 MiB.
use crate::here::{self, Call};
use crate::inputs::{self, List, LARGE};
use crate::measure::{Case, Side};
use crate::rows::{self, case, of_size, row, with_passes, Goal, Row, Size, LINEAR, ORDINARY};
use crate::rust;
use crate::uuids::{self, Family};
use harness::book::{INDEX_MAX, TEXT_MAX};
use harness::lent::Store;
use harness::plain::Uuid;
use std::rc::Rc;

const WORST: Goal = Goal::AtMostEach(15.0, [Side::Sum, Side::Random]);
const AGAINST_RANDOM: Goal = Goal::AtMost(15.0, Side::Random);
const BYTES: Goal = Goal::AtMost(3.0, Side::Sum);

pub const ROWS: [Row; 21] = [
    row("found-large", "`found`, large stores, ordinary UUIDs", ORDINARY, |_| sizes(Call::Found)),
    row("get-large", "`get`, large stores, ordinary UUIDs", ORDINARY, |_| sizes(Call::Get)),
    row("found-bytes", "`found`, lines of 1 byte", BYTES, |_| of_bytes(Call::Found)),
    row("get-bytes", "`get`, lines of 1 byte", BYTES, |_| of_bytes(Call::Get)),
    row("found-border", "`found`, both sizes of work area", Goal::Stated, |_| border()),
    row("found-large-worst", "`found`, large stores, constructed UUIDs", WORST, |_| constructed(Call::Found)),
    row("get-large-worst", "`get`, large stores, constructed UUIDs", WORST, |_| constructed(Call::Get)),
    row("found-large-growth", "`found`, ordinary UUIDs", LINEAR, |_| growing(Call::Found, ordinary())),
    row("get-large-growth", "`get`, ordinary UUIDs", LINEAR, |_| growing(Call::Get, ordinary())),
    row("found-large-worst-growth", "`found`, constructed UUIDs", LINEAR, |_| growing(Call::Found, against())),
    row("get-large-worst-growth", "`get`, constructed UUIDs", LINEAR, |_| growing(Call::Get, against())),
    row("save-large", "`save` replacing the first record", BYTES, save),
    row("save-large-worst", "`save`, constructed UUIDs", AGAINST_RANDOM, save_worst),
    row("save-large-growth", "`save`, ordinary UUIDs", LINEAR, |lists| save_growth(lists, ordinary())),
    row("save-large-worst-growth", "`save`, constructed UUIDs", LINEAR, |lists| save_growth(lists, sound())),
    row("insert-large", "`insert` of 2000 lines into a fresh store", Goal::Beyond(1.5, [Side::Gilrs, Side::Sum]), insert),
    row("insert-large-again", "`insert` of the whole list again, 1 in 16 new", LINEAR, |_| insert_again()),
    row("insert-worst", "`insert` into a fresh store, every family", AGAINST_RANDOM, |_| insert_worst()),
    row("insert-worst-growth", "`insert` into a fresh store, every family", LINEAR, |_| insert_growth()),
    row("insert-growth", "`insert` into a fresh store, random UUIDs", LINEAR, |_| inserts(vec![random()])),
    row("insert-tree-growth", "`insert` into a fresh store, UUIDs that want its tree", LINEAR, |_| inserts(deep())),
];

/// Lines of 32 bytes, the shortest that a call files, and how many of them there are: each size is twice the one before,
/// and an index of 1048576 bytes has room for eight more than the last.
const LINE: usize = 32;
const SIZES: [usize; 5] = [2860, 5720, 11440, 22880, 45760];
/// Lines of 1 byte; twelve more have room.
const BYTE_SIZES: [usize; 5] = [3120, 6240, 12480, 24960, 49920];
/// Records of organisers have a byte more.
const SHARED_SIZES: [usize; 5] = [2740, 5480, 10960, 21920, 43840];
/// Lists that are inserted again, with one line in sixteen more.
const AGAIN: [usize; 5] = [2688, 5376, 10752, 21504, 43008];
/// Lists that are inserted into a fresh store; the first three have room in a small one.
const INSERTED: [usize; 7] = [715, 1430, 2860, 5720, 11440, 22880, 45760];
const SMALL: usize = 3;
/// Some of them, for counts of instructions.
const COUNTED: [usize; 3] = [2860, 5720, 11440];
/// As many lines as the lists of a platform have.
const COMMUNITY: usize = 2000;

fn all(families: &[&'static [Family]]) -> Vec<&'static Family> {
    families.iter().flat_map(|f| f.iter()).collect()
}

fn ordinary() -> Vec<&'static Family> {
    all(&[&uuids::ORDINARY, &uuids::SHARED])
}

fn against() -> Vec<&'static Family> {
    all(&[&uuids::CONSTRUCTED, &uuids::LARGE, &uuids::SHARED_CONSTRUCTED, &uuids::SHARED_LARGE])
}

/// Those whose stores are sound, and the hall's.
fn sound() -> Vec<&'static Family> {
    all(&[&uuids::CONSTRUCTED[..5], &uuids::LARGE])
}

/// Those that an insert puts into its tree from the nineteenth line on, or soon after.
fn deep() -> Vec<&'static Family> {
    all(&[&uuids::CONSTRUCTED[1..2], &uuids::LARGE[3..], &uuids::PATHS])
}

fn random() -> &'static Family {
    &uuids::ORDINARY[1]
}

fn owned(f: &Family) -> bool {
    (f.list)(2, 0).iter().all(|key| key.0 != 0)
}

fn sizes_of(f: &Family) -> [usize; 5] {
    if owned(f) { SHARED_SIZES } else { SIZES }
}

/// Buffers that the records and lines fill, but for the least index that is a large store's.
fn filled(f: &Family, records: usize, line: usize) -> Size {
    let index = inputs::index_of(&(f.list)(records, 0), line).max(LARGE);
    Size { records, line, index, text: records * line }
}

/// Buffers of the limits, full: lines of 367 bytes.
fn largest(f: &Family) -> Size {
    let records = if owned(f) { 43_700 } else { 45_600 };
    Size { records, line: 367, index: INDEX_MAX, text: TEXT_MAX }
}

fn label(f: &Family, size: Size) -> String {
    format!("{}, {} records, {} + {} bytes", f.name, size.records, size.index, size.text)
}

fn sizes(call: Call) -> Vec<Case> {
    let one = |f: &Family| {
        let full = sizes_of(f).map(|n| filled(f, n, LINE));
        let all: Vec<Case> =
            full.into_iter().chain([largest(f)]).map(|size| rows::look(call, f, size, label(f, size))).collect();
        all
    };
    ordinary().into_iter().flat_map(one).collect()
}

/// What only another program writes.
fn of_bytes(call: Call) -> Vec<Case> {
    let one = |f: &Family, n: usize| {
        let size = filled(f, n, 1);
        rows::look(call, f, size, label(f, size))
    };
    uuids::ORDINARY.iter().flat_map(|f| BYTE_SIZES.map(|n| one(f, n))).collect()
}

/// The same lines in an index of 65535 bytes and in one of 65536: what the larger work area costs.
fn border() -> Vec<Case> {
    let one = |records: usize, index: usize| {
        let size = Size { records, line: LINE, index, text: 65535 };
        rows::look(Call::Found, random(), size, label(random(), size))
    };
    [(0, 65535), (0, 65536), (2000, 65535), (2000, 65536)].map(|(n, index)| one(n.max(1), index)).into()
}

fn constructed(call: Call) -> Vec<Case> {
    let one = |f: &Family| {
        let beside = |size: Size| {
            let mut c = rows::look(call, f, size, label(f, size));
            let on_random = rows::looks(call, random(), Size { records: size.records, ..size });
            c.works.push((Side::Random, Box::new(on_random)));
            c
        };
        [filled(f, sizes_of(f)[4], LINE), largest(f)].map(beside)
    };
    against().into_iter().flat_map(one).collect()
}

/// The families whose growth is measured, of those of a row: one of each kind, and the slowest.
const GROWN: [&str; 7] = [
    "random", "each pad of 255 organisers", "one bucket, first halves alike", "long chains, one too long",
    "one bucket, 32 sums", "long chains, far apart, one too long", "one sum, 255 organisers",
];

fn grown(families: Vec<&'static Family>) -> impl Iterator<Item = &'static Family> {
    families.into_iter().filter(|f| GROWN.contains(&f.name))
}

fn growing(call: Call, families: Vec<&'static Family>) -> Vec<Case> {
    let sized = |f: &Family, n: usize| of_size(f.name, n, rows::looks(call, f, filled(f, n, LINE)));
    grown(families).flat_map(|f| sizes_of(f).map(|n| sized(f, n))).collect()
}

/// Room for the line that is saved in the place of the first one, too.
fn with_line(size: Size) -> Size {
    Size { index: (size.index + 24).min(INDEX_MAX), text: size.text + 600, ..size }
}

fn save(lists: &[List]) -> Vec<Case> {
    let one = |f: &Family| {
        let full = SIZES.map(|n| with_line(filled(f, n, LINE)));
        let wide = Size { line: 360, ..largest(f) };
        let all: Vec<Case> =
            full.into_iter().chain([wide]).map(|size| rows::save_beside(lists, f, size, label(f, size))).collect();
        all
    };
    uuids::ORDINARY.iter().flat_map(one).collect()
}

fn save_worst(lists: &[List]) -> Vec<Case> {
    let one = |f: &Family| {
        let beside = |size: Size| {
            let mut c = rows::save_beside(lists, f, size, label(f, size));
            c.works.push((Side::Random, Box::new(rows::saves(lists, random(), size).0)));
            c
        };
        [with_line(filled(f, SIZES[4], LINE)), Size { line: 360, ..largest(f) }].map(beside)
    };
    sound().into_iter().flat_map(one).collect()
}

fn save_growth(lists: &[List], families: Vec<&'static Family>) -> Vec<Case> {
    let sized = |f: &Family, n: usize| of_size(f.name, n, rows::saves(lists, f, with_line(filled(f, n, LINE))).0);
    grown(families).filter(|f| !owned(f)).flat_map(|f| SIZES.map(|n| sized(f, n))).collect()
}

/// Real lines under further UUIDs.
fn insert(lists: &[List]) -> Vec<Case> {
    let text = inputs::copies(lists, &uuids::pads(COMMUNITY, 1));
    let one = |(index, room): (usize, usize)| {
        let fresh = Store::fresh(index, room);
        let label = format!("{COMMUNITY} lines, {} bytes, into {index} + {room}", text.len());
        let port = here::Insert { before: fresh.clone(), store: fresh.clone(), text: text.clone() };
        with_passes(case(label, port, rust::Insert::of("", &text)), Rc::new(vec![fresh]))
    };
    [(LARGE, 1 << 20), (INDEX_MAX, 1 << 20), (INDEX_MAX, TEXT_MAX)].map(one).into()
}

fn insert_again() -> Vec<Case> {
    AGAIN.map(|n| rows::held_again(n, LARGE)).into()
}

/// An insert of a family's UUIDs by the hall, a line of 32 bytes each, into a fresh store that they fill.
fn inserted(f: &Family, n: usize, least: usize) -> here::Insert {
    let uuids: Vec<Uuid> = (f.list)(n, 0).into_iter().map(|key| key.1).collect();
    let text = uuids.iter().map(|u| format!("{}\n", oracle::simple(*u))).collect();
    let index = inputs::index_of(&uuids::hall(uuids), LINE).max(least);
    let store = Store::fresh(index, LINE * n);
    here::Insert { before: store.clone(), store, text }
}

fn every() -> Vec<&'static Family> {
    all(&[
        &uuids::ORDINARY, &uuids::CONSTRUCTED, &uuids::LARGE, &uuids::PATHS, &uuids::REPEATED,
        &uuids::SHARED, &uuids::SHARED_CONSTRUCTED, &uuids::SHARED_LARGE,
    ])
}

/// In stores of both kinds, of each size.
fn each_size() -> Vec<(usize, usize)> {
    let small = INSERTED[..SMALL].iter().map(|n| (*n, 0));
    small.chain(INSERTED.iter().map(|n| (*n, LARGE))).collect()
}

fn insert_worst() -> Vec<Case> {
    let one = |f: &Family, (n, least): (usize, usize)| {
        let mut c = of_size(f.name, n, inserted(f, n, least));
        c.label = format!("{}, {n} lines, {}", f.name, if least == 0 { "small" } else { "large" });
        c.works.push((Side::Random, Box::new(inserted(random(), n, least))));
        c
    };
    every().into_iter().flat_map(|f| each_size().into_iter().map(move |size| one(f, size))).collect()
}

fn insert_growth() -> Vec<Case> {
    let one = |f: &Family, (n, least): (usize, usize)| {
        let family = format!("{}, {}", f.name, if least == 0 { "small" } else { "large" });
        of_size(&family, n, inserted(f, n, least))
    };
    every().into_iter().flat_map(|f| each_size().into_iter().map(move |size| one(f, size))).collect()
}

fn inserts(families: Vec<&'static Family>) -> Vec<Case> {
    families.into_iter().flat_map(|f| COUNTED.map(|n| of_size(f.name, n, inserted(f, n, LARGE)))).collect()
}
