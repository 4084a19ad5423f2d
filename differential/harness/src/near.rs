//! The look-up of a UUID that may carry a checksum (document 02, P5), of the port and over each store of a history, by
//! each party within its own lines (P9).
use crate::book::LINE_MAX;
use crate::check::{Group, Tally};
use crate::compare::number;
use crate::doc02;
use crate::ffi;
use crate::lent::{copied, party, Store};
use crate::plain::{Party, Refusal, Uuid};
use crate::port::{bytes, id, refused};
use crate::stores::Sides;

/// How a party holds a line under a UUID (0 not, 1 exact, 2 near), and the line, by both calls.
pub fn look_near(store: &Store, p: Party, uuid: Uuid) -> Result<(u8, Vec<u8>), Refusal> {
    let (i, t) = (&store.index, &store.text);
    let mut out = [0xee; LINE_MAX + 4];
    let (look, line) = unsafe {
        (
            ffi::raspteal_store_found_near(i.as_ptr(), i.len(), t.as_ptr(), t.len(), party(p), id(uuid)),
            ffi::raspteal_store_get_near(
                i.as_ptr(), i.len(), t.as_ptr(), t.len(), party(p), id(uuid), out.as_mut_ptr(), out.len(),
            ),
        )
    };
    let len = copied(line, &out);
    match refused(look.refusal) {
        Some(r) => {
            assert!(look.how == 0 && len == 0);
            Err(r)
        }
        None => Ok((look.how, out[..len].to_vec())),
    }
}

/// A UUID without its checksum.
fn without_checksum(uuid: Uuid) -> Uuid {
    bytes(unsafe { ffi::raspteal_uuid_without_checksum(id(uuid)) })
}

/// UUIDs as they are and with other bytes 2 and 3, for a party.
pub fn compare(t: &mut Tally, s: &Sides, p: Party, ids: &[Uuid]) {
    let get = |d: &oracle::Db, u| d.get(u).map(|s| s.as_bytes().to_vec());
    for id in ids {
        for checksum in [[id[2], id[3]], [0, 0], [0, 1], [1, 0], [0xff, 0xff]] {
            let mut id = *id;
            id[2..4].copy_from_slice(&checksum);
            let input = || format!("{}; near look-up {p:?} {id:02x?}", s.input());
            let rust = s.db(p).map(|d| Ok(doc02::near(id, |u| get(d, u))));
            let doc = s.allowed(p).map(|()| doc02::near(id, |u| s.book.get(p, u).unwrap()));
            t.case(Group::Near, number(&doc), rust.as_ref(), &doc, &look_near(&s.store, p, id), &input);
            t.case(Group::Near, 0, None, &doc02::without_checksum(id), &without_checksum(id), &input);
        }
    }
}
