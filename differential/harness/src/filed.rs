//! Histories of stores that are the same in each run.
use crate::check::Tally;
use crate::compare::AllSlots;
use crate::lent::Store;
use crate::near;
use crate::plain::{Party, HALL};
use crate::stores::{Sides, PARTIES};

const U: &str = "00000000000000000000000000000000";

/// Lengths of lines and buffers, filing twice, and names that are not saved.
pub fn stores(t: &mut Tally) {
    let id = |k: usize| format!("{k:032x}");
    for n in [4095, 4096, 4097, 16383, 16384, 16385] {
        for end in ["", "\r", "\n", "\r\n", "\r\r\n", "\nx"] {
            for platform in ["", ",platform:Linux", ",platform:Windows"] {
                let mut l = format!("{},{}", id(1), "n".repeat(n - 33 - platform.len()));
                l += platform;
                let mut s = Sides::fresh(63, 33000);
                s.insert(t, HALL, format!("{},a\n{l}{end}", id(2)).as_bytes());
                s.look_up(t);
            }
        }
    }
    for index in [0, 20, 21, 22, 41, 42, 43, 62, 63, 64, 65535, 65536, 65537] {
        for text in [0, 33, 34, 35, 67, 68, 69, 101, 102, 103, 65535, 65536, 65537] {
            let mut s = Sides::fresh(index, text);
            for k in [1, 2, 1, 3, 2, 2] {
                s.insert(t, HALL, format!("{},{k}\n", id(k)).as_bytes());
                s.look_up(t);
            }
            let slots = AllSlots::new();
            for name in [&b"T"[..], b"Longer", b"platform:", b"a\nb", b",", b"\xff"] {
                s.save(t, HALL, &slots, &[], &[], name, [1; 16]);
                s.look_up(t);
            }
            for k in [[1; 16], 2u128.to_be_bytes(), 2u128.to_be_bytes()] {
                s.remove(t, HALL, k);
                s.look_up(t);
            }
            s.clear(t);
            s.insert(t, HALL, b"\xff");
            s.look_up(t);
        }
    }
    shared_stores(t);
    stores_with_shares(t);
    damaged_stores(t);
}

/// Parties that share a store: lengths at which a record of either kind fits or does not, one UUID held by several, and
/// owner 0 before every other check.
fn shared_stores(t: &mut Tally) {
    let parties: [Party; 3] = [HALL, Some(1), Some(255)];
    let line = |k: usize, name: &str| format!("{k:032x},{name}\n").into_bytes();
    let small = [20, 21, 22, 41, 42, 43, 44, 63, 64, 65, 66, 87].map(|n| [33, 67, 68, 101, 102, 136].map(|m| (n, m)));
    for (index, text) in small.into_iter().flatten().chain([(65535, 65535), (65536, 9)]) {
        let mut s = Sides::fresh(index, text);
        for k in 0..9 {
            s.insert(t, parties[k % 3], &line(1 + k / 5, "T"));
        }
        s.look_up(t);
        for (k, by) in parties.into_iter().enumerate() {
            s.save(t, by, &AllSlots::new(), &[], &[], b"", [k as u8; 16]);
            s.insert(t, Some(0), &line(1, "nobody"));
            s.insert(t, Some(0), b"\xff");
            s.save(t, Some(0), &AllSlots::new(), &[], &[], b"a,b", [1; 16]);
        }
        s.look_up(t);
        s.clear(t);
        s.look_up(t);
    }
}

/// Shares: lengths at which a share's record fits or does not, the sum at the text's end, a filing within its share, and
/// settings that need no room.
fn stores_with_shares(t: &mut Tally) {
    let line = |k: usize, n: usize| format!("{k:032x},{}\n", "n".repeat(n)).into_bytes();
    for index in [0, 3, 4, 7, 8, 20, 21, 24, 25, 28, 29, 46, 47, 50, 51, 52, 65535, 65536] {
        for text in [0, 33, 34, 66, 67, 100, 101, 133, 65535, 65536] {
            let mut s = Sides::fresh(index, text);
            for (owner, bytes) in [(255, text), (255, 0), (0, 34), (0, text + 1), (7, usize::MAX)] {
                s.share(t, owner, bytes);
            }
            s.insert(t, Some(1), &line(1, 0));
            s.insert(t, Some(1), &line(2, 0));
            s.insert(t, HALL, &line(1, 1));
            s.insert(t, HALL, &line(1, 2));
            for (owner, bytes) in [(1, 33), (1, 34), (1, text / 2), (0, 33), (255, 1), (0, 0), (1, 0)] {
                s.share(t, owner, bytes);
                s.look_up(t);
            }
            s.save(t, Some(255), &AllSlots::new(), &[], &[], b"", [1; 16]);
            s.share(t, 255, 40);
            s.clear(t);
            s.share(t, 3, text);
            s.insert(t, HALL, &line(1, 0));
            s.look_up(t);
        }
    }
}

/// Every byte of a small store, changed: of the hall's lines, of those of the hall and two organisers, and of shares.
fn damaged_stores(t: &mut Tally) {
    let lines = format!("{}1,a\n{}2,b\n", &U[1..], &U[1..]);
    let mut good = Sides::fresh(65, 80);
    good.insert(t, HALL, lines.as_bytes());
    every_byte(t, &good.store);
    let mut good = Sides::fresh(67, 107);
    for by in [HALL, Some(1), Some(255)] {
        good.insert(t, by, &lines.as_bytes()[..34]);
    }
    every_byte(t, &good.store);
    let mut good = Sides::fresh(58, 107);
    for (owner, share) in [(0, 36), (1, 1)] {
        good.share(t, owner, share);
    }
    for by in [HALL, Some(1)] {
        good.insert(t, by, &lines.as_bytes()[..34]);
    }
    every_byte(t, &good.store);
}

fn every_byte(t: &mut Tally, store: &Store) {
    for at in 0..store.index.len() + store.text.len() {
        for byte in [0, 1, 2, 3, 4, 5, 6, 9, 34, 35, 36, 255] {
            changed(t, store, at, byte);
        }
    }
}

/// A store with one byte changed, counted through index and text.
pub fn changed(t: &mut Tally, store: &Store, at: usize, byte: u8) {
    let (index, text) = (store.index.len(), store.text.len());
    let mut s = Sides::fresh(index, text);
    let change = |x: &mut Store| {
        *x = store.clone();
        if at < index { x.index[at] = byte } else { x.text[at - index] = byte }
    };
    s.damage(t, change, b"00000000000000000000000000000003,T", &AllSlots::new());
    for p in PARTIES {
        s.found(t, p, &s.ids);
        s.told(t, p);
    }
    near::compare(t, &s, HALL, &s.ids[..1]);
}
