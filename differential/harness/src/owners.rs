//! The hall and league organisers in one store (document 02, P9): one party's look-ups beside those after its own calls and
//! the clears alone. A setting of a share (P10) is nobody's own call.
use crate::check::{shown, Group, Tally};
use crate::compare::AllSlots;
use crate::far;
use crate::gen::{self, Rng};
use crate::lent::Store;
use crate::plain::{Map, Party, Refusal, Uuid, HALL};

/// A call of a party, a clear, or a share that is set.
enum Call {
    Clear,
    Share(u8, usize),
    Insert(Party, Vec<u8>),
    Save(Party, Vec<u8>, Uuid),
    Remove(Party, Uuid),
}

/// What a call answered.
#[derive(Debug, PartialEq)]
enum Reply {
    Cleared(Option<Refusal>),
    Shared(Option<Refusal>),
    Inserted((Option<Refusal>, usize, usize)),
    Saved(Result<Map, Refusal>),
    Removed(Result<bool, Refusal>),
}

/// A caller at random: most often the hall or one of two organisers, now and then owner 0.
pub fn party(r: &mut Rng) -> Party {
    if r.one_in(12) { Some(0) } else { r.pick(&[HALL, Some(1), Some(255)]) }
}

/// A share at random: of the hall, of an organiser that calls or of another; none, small, about the text or beyond it.
pub fn share(r: &mut Rng, text: usize) -> (u8, usize) {
    let some = r.below(text + 2);
    (r.pick(&[0, 1, 255, 255, 3]), r.pick(&[0, 1, 40, text / 3, some, some, text, 65535, 65536, 1 << 32]))
}

impl Call {
    fn any(r: &mut Rng) -> Call {
        match r.below(18) {
            0 => Call::Clear,
            15.. => {
                let (mut filed, saved) = ([0; 16], [r.below(3) as u8; 16]);
                filed[15] = r.below(6) as u8;
                Call::Remove(party(r), r.pick(&[filed, filed, saved]))
            }
            12.. => {
                let (o, b) = share(r, 4000);
                Call::Share(o, b)
            }
            1 => Call::Insert(party(r), far::text(r, 0)),
            2..=8 => Call::Insert(party(r), gen::bytes(r)),
            _ => Call::Save(party(r), gen::name(r), [r.below(3) as u8; 16]),
        }
    }

    /// Whether it is a party's own, or a clear.
    fn is_for(&self, p: Party) -> bool {
        match self {
            Call::Clear => true,
            Call::Share(..) => false,
            Call::Insert(by, _) | Call::Save(by, _, _) | Call::Remove(by, _) => *by == p,
        }
    }

    fn run(&self, store: &mut Store) -> Reply {
        match self {
            Call::Clear => Reply::Cleared(store.clear()),
            Call::Share(owner, bytes) => Reply::Shared(store.set_share(*owner, *bytes)),
            Call::Insert(p, lines) => Reply::Inserted(store.insert(*p, lines)),
            Call::Save(p, name, id) => Reply::Saved(store.save(*p, &AllSlots::new().here, &[], &[], name, *id)),
            Call::Remove(p, id) => Reply::Removed(store.remove(*p, *id)),
        }
    }

    fn told(&self) -> String {
        match self {
            Call::Clear => "clear".into(),
            Call::Share(owner, bytes) => format!("share of {owner}: {bytes}"),
            Call::Insert(p, lines) => format!("{p:?} insert {}", shown(lines)),
            Call::Save(p, name, id) => format!("{p:?} save name {}, uuid {id:02x?}", shown(name)),
            Call::Remove(p, id) => format!("{p:?} remove {id:02x?}"),
        }
    }
}

/// The calls and replies that a party sees: its own and the clears.
fn deeds<'a>(p: Party, calls: &'a [Call], replies: &'a [Reply]) -> Vec<&'a Reply> {
    calls.iter().zip(replies).filter(|(c, _)| c.is_for(p)).map(|(_, r)| r).collect()
}

/// A history of all parties in one store, and each party's own calls and the clears in another, of any size: where the
/// results are alike, its look-ups find the same.
pub fn apart(t: &mut Tally, r: &mut Rng) {
    let size = |r: &mut Rng| (r.pick(&[43, 65, 87, 210, 2200, 4400]), r.pick(&[150, 400, 4000, 40000, 100000]));
    let calls: Vec<Call> = (0..2 + r.below(8)).map(|_| Call::any(r)).collect();
    let (index, text) = size(r);
    let mut mixed = Store::fresh(index, text);
    let replies: Vec<Reply> = calls.iter().map(|c| c.run(&mut mixed)).collect();
    for p in [HALL, Some(1), Some(255)] {
        let (index, text) = size(r);
        let mut alone = Store::fresh(index, text);
        let own: Vec<Reply> = calls.iter().filter(|c| c.is_for(p)).map(|c| c.run(&mut alone)).collect();
        if own.iter().ne(deeds(p, &calls, &replies)) {
            continue;
        }
        let mut ids: Vec<Uuid> = (0..6).map(|k| { let mut id = [0; 16]; id[15] = k; id }).collect();
        ids.extend((0..3).map(|k| [k; 16]));
        for id in ids {
            t.case(Group::Apart, 0, None, &alone.look_up(p, id), &mixed.look_up(p, id), &|| {
                let told: Vec<String> = calls.iter().map(Call::told).collect();
                format!("{}; look-up {p:?} {id:02x?}", told.join("; "))
            });
        }
    }
}
