//! The largest stores (document 02, P12): buffers of the limits and of one byte more, as many records as an index holds,
//! as much text as there may be, and real mapping lists whole.
use crate::book::{record, Book, Key, INDEX_MAX, LINE_MAX, TEXT_MAX};
use crate::check::Tally;
use crate::compare::AllSlots;
use crate::far::line;
use crate::plain::{Party, Uuid, HALL};
use crate::stores::Sides;

pub fn stores(t: &mut Tally) {
    lengths(t);
    for (len, organisers) in [(1, false), (32, false), (32, true)] {
        full_index(t, len, organisers);
    }
    full_text(t);
}

/// Every call on buffers of the limits, and of one byte more: 19, or 23 of a clear.
fn lengths(t: &mut Tally) {
    let most = (INDEX_MAX, TEXT_MAX);
    for (index, text) in [most, (most.0, 40), (most.0 + 1, 40), (40, most.1), (40, most.1 + 1), (most.0 + 1, most.1 + 1)] {
        let mut s = Sides::fresh(index, text);
        s.insert(t, HALL, &line(1, 33));
        s.share(t, 7, text);
        s.save(t, HALL, &AllSlots::new(), &[], &[], b"", [1; 16]);
        s.share(t, 7, 0);
        s.look_up(t);
        s.clear(t);
        s.found(t, HALL, &[id(1)]);
    }
}

fn id(k: usize) -> Uuid {
    (k as u128).to_be_bytes()
}

/// As many lines of one length as an index of the limit has room for, of the hall or of organisers in turn, each
/// under a number.
fn full(len: usize, organisers: bool) -> Book {
    let mut book = Book::new(INDEX_MAX, TEXT_MAX);
    let (mut at, mut k) = (0, 1);
    loop {
        let key: Key = (if organisers { 1 + (k % 255) as u8 } else { 0 }, id(k));
        if at + record(key, len * (k - 1)) > INDEX_MAX {
            break;
        }
        at += record(key, len * (k - 1));
        let mut text = format!("{k:032x}").into_bytes();
        text.truncate(len);
        book.lines.push((key, text));
        k += 1;
    }
    book.text = len * (k - 1) + 100;
    book
}

/// An index that is full: nothing more is filed, lines held are filed again, and a share has room in what is left.
fn full_index(t: &mut Tally, len: usize, organisers: bool) {
    let book = full(len, organisers);
    let n = book.lines.len();
    let mut s = Sides::holding(book, &format!("{n} lines of {len} bytes, organisers {organisers}"));
    let by = |k: usize| -> Party { organisers.then_some(1 + (k % 255) as u8) };
    for k in [1, 2, n / 2, n, n + 1] {
        s.insert(t, by(k), &line(k, len.max(32)));
        s.found(t, by(k), &[id(k)]);
    }
    for bytes in [1, 65536, 0] {
        s.share(t, 9, bytes);
    }
    s.save(t, by(3), &AllSlots::new(), &[], &[], b"", id(3));
    s.insert(t, by(5), &line(5, 33));
    for k in [1, 3, 5, 2048, 2049, n - 1, n] {
        s.found(t, by(k), &[id(k)]);
    }
    s.told(t, by(1));
}

/// A text that is full of longest lines: nothing more has room, until a line gets shorter.
fn full_text(t: &mut Tally) {
    let n = TEXT_MAX / LINE_MAX;
    let mut book = Book::new(23 * n, TEXT_MAX);
    book.lines = (1..=n).map(|k| ((0, id(k)), line(k, LINE_MAX)[..LINE_MAX].to_vec())).collect();
    let mut s = Sides::holding(book, &format!("{n} lines of {LINE_MAX} bytes"));
    s.share(t, 7, 1);
    s.insert(t, Some(1), &line(1, 32));
    s.insert(t, HALL, &line(2, LINE_MAX));
    s.insert(t, HALL, &line(n, 16000));
    s.share(t, 7, LINE_MAX - 16000);
    s.insert(t, Some(1), &line(1, 32));
    s.share(t, 7, 0);
    s.insert(t, Some(1), &line(1, 32));
    s.look_up(t);
}

/// Both lists whole in one store: in buffers that the first hub's index had, and in those of the limits.
pub fn whole_lists(t: &mut Tally, corpus: &[Vec<u8>]) {
    let lists = corpus.join(&b'\n');
    let mut s = Sides::fresh(65535, lists.len().min(TEXT_MAX));
    s.insert(t, HALL, &lists);
    s.look_up(t);
    s.insert(t, HALL, &lists);
    s.look_up(t);
    let mut s = Sides::fresh(INDEX_MAX, TEXT_MAX);
    s.insert(t, HALL, &lists);
    s.insert(t, Some(1), &lists);
    for ids in s.ids.chunks(64) {
        s.found(t, HALL, &ids[..1]);
        s.found(t, Some(1), &ids[..1]);
    }
    s.told(t, Some(1));
}
