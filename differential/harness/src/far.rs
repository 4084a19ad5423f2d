//! Histories about 65536: an offset from there on has four bytes in its record, and so has a share (document 02, P12).
use crate::book::LINE_MAX;
use crate::check::Tally;
use crate::compare::AllSlots;
use crate::filed::changed;
use crate::gen::Rng;
use crate::lent::Store;
use crate::owners;
use crate::plain::{Party, HALL};
use crate::stores::Sides;

/// A line of that many bytes, at least 32, under the UUID that is a number; with its LF.
pub fn line(k: usize, len: usize) -> Vec<u8> {
    let mut l = format!("{k:032x}").into_bytes();
    if len > 32 {
        l.push(b',');
        l.resize(len, b'a' + k as u8 % 26);
    }
    l.push(b'\n');
    l
}

fn lines(list: &[(usize, usize)]) -> Vec<u8> {
    list.iter().flat_map(|(k, len)| line(*k, *len)).collect()
}

/// Histories that are the same in each run.
pub fn stores(t: &mut Tally) {
    borders(t);
    sums(t);
    shares(t);
    damaged(t);
}

/// Lines at 65535 and at 65536, in a text that ends about there; then some are filed again, and lines move over the
/// border both ways.
fn borders(t: &mut Tally) {
    for first in [16382, 16383, LINE_MAX] {
        for text in [65535, 65536, 65567, 65568, 65600, 65640, 82000] {
            for by in [HALL, Some(255)] {
                let mut s = Sides::fresh(136, text);
                s.insert(t, by, &lines(&[(1, first), (2, LINE_MAX), (3, LINE_MAX), (4, LINE_MAX)]));
                for (k, len) in [(5, 32), (6, 40), (1, first), (5, 33), (2, 32), (2, LINE_MAX), (6, 41)] {
                    s.insert(t, by, &line(k, len));
                }
                s.look_up(t);
                s.save(t, by, &AllSlots::new(), &[], &[], b"T", [0; 16]);
                s.insert(t, by, &lines(&[(3, 16383), (4, LINE_MAX), (5, 32)]));
                s.found(t, by, &s.ids);
                s.clear(t);
            }
        }
    }
}

/// An index with as many bytes as the records as they would then stand, or a few fewer: a line that is filed again as it
/// was has no room where its own record grows, and another has some where records shrink.
fn sums(t: &mut Tally) {
    let four = [(2, LINE_MAX), (3, LINE_MAX), (4, LINE_MAX), (5, LINE_MAX)];
    for index in (102..=118).chain(124..=140) {
        for by in [HALL, Some(1)] {
            let mut s = Sides::fresh(index, 100000);
            s.insert(t, by, &lines(&[&[(1, 40)], &four[..]].concat()));
            for (k, len) in [(1, 40), (6, 32), (1, 39), (7, 16000), (1, 40), (2, LINE_MAX), (8, 32)] {
                s.insert(t, by, &line(k, len));
            }
            s.share(t, 7, 65535);
            s.insert(t, HALL, &line(1, 40));
            s.save(t, by, &AllSlots::new(), &[], &[], b"", [0; 16]);
            s.insert(t, by, &line(3, 32));
            s.share(t, 7, 1000);
            s.insert(t, Some(255), &lines(&[(8, 32), (9, 32)]));
            s.found(t, by, &s.ids);
            s.found(t, Some(255), &s.ids);
        }
    }
}

/// Shares about 65536 and about the text, where their records have room or not.
fn shares(t: &mut Tally) {
    for index in [0, 3, 4, 5, 6, 7, 8, 9, 10, 11, 12, 13, 27, 28, 29, 30, 65535, 65536] {
        for text in [65535, 65536, 65537, 131072] {
            let mut s = Sides::fresh(index, text);
            for bytes in [65534, 65535, 65536, 65537, 65535, text, text + 1, u32::MAX as usize, 1 << 32, usize::MAX] {
                s.share(t, 7, bytes);
                s.told(t, Some(7));
            }
            s.share(t, 0, 65536);
            s.insert(t, HALL, &line(1, 32));
            for (owner, bytes) in [(7, 0), (255, 65536), (8, 1), (0, 40), (0, 65500), (8, 0), (0, 65536)] {
                s.share(t, owner, bytes);
                s.insert(t, Some(255), &line(1, 33));
            }
            s.look_up(t);
            s.clear(t);
        }
    }
}

/// Each byte of a record of kind 2, 5 or 6, and of that beside it, changed; and records that are longer than they need.
fn damaged(t: &mut Tally) {
    let mut good = Sides::fresh(160, 65700);
    good.share(t, 3, 65536);
    good.insert(t, HALL, &lines(&[(1, LINE_MAX), (2, LINE_MAX), (3, LINE_MAX), (4, LINE_MAX), (5, 34)]));
    good.insert(t, Some(255), &line(5, 33));
    good.share(t, 4, 1);
    let end = good.store.index.iter().rposition(|b| *b != 0).map_or(0, |i| i + 1);
    for at in (0..12).chain(94..end + 2) {
        for byte in [0, 1, 2, 3, 4, 5, 6, 7, 34, 255] {
            changed(t, &good.store, at, byte);
        }
    }
    longer_than_needed(t);
}

/// Records and shares that are right but for their length: lines before 65536 with four bytes of offset, those behind
/// with two, and the same for shares.
fn longer_than_needed(t: &mut Tally) {
    let record = |kind: u8, k: u8, off: &[u8], len: u16| {
        let owner = if kind == 3 || kind == 5 { vec![7] } else { Vec::new() };
        [&[kind], &owner[..], &[k; 16], off, &len.to_be_bytes()].concat()
    };
    let wide = |off: u32| off.to_be_bytes().to_vec();
    let short = |off: u32| (off as u16).to_be_bytes().to_vec();
    let mut put = |index: Vec<u8>, text: usize| {
        let mut s = Sides::fresh(index.len() + 7, text + 9);
        let change = |x: &mut Store| {
            x.index[..index.len()].copy_from_slice(&index);
            x.text[..text].fill(b'x');
        };
        s.damage(t, change, &line(3, 40), &AllSlots::new());
        s.look_up(t);
    };
    for kind in [1, 2, 3, 5] {
        let off = if kind == 2 || kind == 5 { wide } else { short };
        put(record(kind, 1, &off(0), 9), 9);
        put([record(1, 1, &short(0), 9), record(kind, 2, &off(9), 5)].concat(), 14);
        // the fifth line lies at 65535, at 65536 and at 65537
        for last in [16383, 16384, 16385] {
            let four = (0..4u32).flat_map(|k| {
                record(1, 1 + k as u8, &short(16384 * k), if k == 3 { last } else { 16384 })
            });
            let at = 3 * 16384 + last as u32;
            put(four.chain(record(kind, 9, &off(at), 6)).collect(), at as usize + 6);
        }
    }
    for bytes in [0, 1, 65535, 65536, 65537, 16777216, u32::MAX] {
        let six = [&[6, 3][..], &bytes.to_be_bytes()].concat();
        let four = |owner: u8| [&[4, owner][..], &(bytes as u16).to_be_bytes()].concat();
        put(six.clone(), 0);
        put([six.clone(), four(4), record(1, 1, &short(0), 9)].concat(), 9);
        put([four(2), six.clone()].concat(), 0);
        put([four(3), six.clone()].concat(), 0);
        put([six.clone(), four(2)].concat(), 0);
        put([six.clone(), six.clone()].concat(), 0);
        put([record(1, 1, &short(0), 9), six.clone()].concat(), 9);
        put(six[..5].to_vec(), 0);
    }
}

/// The length of a line: the longest, one at whose end 65535 or 65536 bytes are used, or a short one.
fn length(r: &mut Rng, used: usize) -> usize {
    let left = (65535 + r.below(2)).saturating_sub(used);
    match r.below(6) {
        0 | 1 => LINE_MAX - r.below(2),
        2 | 3 if (32..=LINE_MAX).contains(&left) => left,
        4 => 32 + r.below(100),
        _ => r.pick(&[32, 33, 8192, 16000, LINE_MAX]),
    }
}

/// One to four lines, whose lengths go by how much of the text is used.
pub fn text(r: &mut Rng, mut used: usize) -> Vec<u8> {
    let mut text = Vec::new();
    for _ in 0..1 + r.below(4) {
        let len = length(r, used);
        used += len;
        text.extend(line(1 + r.below(7), len));
    }
    text
}

/// A history at random, in buffers whose lengths are about what its lines take.
pub fn history(t: &mut Tally, r: &mut Rng) {
    let some = 104 + r.below(70);
    let index = r.pick(&[some, some, some, some, some, 2100, 2100, 65536]);
    let room = r.pick(&[65535, 65536, 65570, 66000, 82000, 120000]);
    let mut s = Sides::fresh(index, room);
    let callers: [Party; 3] = [HALL, r.pick(&[HALL, Some(1)]), Some(255)];
    for _ in 0..3 + r.below(8) {
        let by = r.pick(&callers);
        let used: usize = s.book.lines.iter().map(|l| l.1.len()).sum();
        match r.below(18) {
            0 => s.clear(t),
            16.. => {
                let id = s.some_id(r.below(8));
                s.remove(t, by, id);
            }
            1 => s.insert(t, owners::party(r), b"00000000000000000000000000000001\n\n"),
            2..=4 => {
                let bytes = r.pick(&[0, 40, 65534, 65535, 65536, 65537, room / 2, room.saturating_sub(used)]);
                s.share(t, r.pick(&[0, 1, 254, 255]), bytes);
            }
            5 | 6 => {
                let (name, mut id) = (vec![b'n'; r.pick(&[0, 3, 8192])], [0; 16]);
                id[15] = 1 + r.below(7) as u8;
                s.save(t, by, &AllSlots::new(), &[], &[], &name, id);
            }
            _ => s.insert(t, by, &text(r, used)),
        }
    }
    s.look_up(t);
}
