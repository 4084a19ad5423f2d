//! The hall and league organisers in one store: each finds its own lines, and 24.
use raspteal::{
    Button, Code, Error, Inserted, MappingData, Match, Party, Store, Uuid, INDEX_MAX, ORGANISER_RECORD_LEN,
    RECORD_LEN,
};
use std::collections::HashMap;

const BUTTONS: [Code; 2] = [Code(0x10130), Code(0x10131)];
const SEVEN: Party = Party::Organiser(7);

fn line(id: u128, name: &str) -> Vec<u8> {
    format!("{},{name}", Uuid::from_u128(id)).into_bytes()
}

fn bound() -> MappingData {
    let mut data = MappingData::new();
    data.insert_btn(BUTTONS[1], Button::South);
    data
}

/// One UUID, held by the hall and every owner from 1 to 255; a line that is replaced is its party's alone.
#[test]
fn every_party_under_one_uuid() {
    let id = Uuid::from_u128(1);
    let parties: Vec<Party> = std::iter::once(Party::Hall).chain((1..=255).map(Party::Organiser)).collect();
    let mut store = Store::new(RECORD_LEN + 255 * ORGANISER_RECORD_LEN, 65535);
    for (k, &party) in parties.iter().enumerate() {
        assert_eq!(store.seen_by(party).get(id), Ok(None));
        store.by(party).insert(line(1, &k.to_string())).unwrap();
    }
    assert_eq!(store.insert(line(2, "T")).unwrap_err().error, Error::NoRoom);
    store.by(SEVEN).insert(line(1, "again")).unwrap();
    for (k, &party) in parties.iter().enumerate() {
        let name = if party == SEVEN { "again".to_string() } else { k.to_string() };
        assert_eq!(store.seen_by(party).get(id), Ok(Some(line(1, &name))));
        assert_eq!(
            store.by(party).get_near(Uuid::from_u128(1 | 0xabcd << 96)),
            Ok(Some(Match::Near(line(1, &name))))
        );
    }
    assert_eq!(store.get(id), Ok(Some(line(1, "0"))));
    store.clear().unwrap();
    assert!(parties.iter().all(|&party| store.seen_by(party).found(id) == Ok(false)));
}

/// A removal takes out the line of its party and UUID alone, from both sizes of buffers; what is left is as those that
/// never had the line.
#[test]
fn removals() {
    for (index, text) in [(200, 300), (70_000, 100_000)] {
        let mut store = Store::new(index, text);
        store.set_share(7, 50).unwrap();
        let mut without = Store::new(index, text);
        without.set_share(7, 50).unwrap();
        for (party, id) in [(Party::Hall, 1), (SEVEN, 1), (Party::Hall, 2), (SEVEN, 2)] {
            store.by(party).insert(line(id, "T")).unwrap();
            if (party, id) != (SEVEN, 1) {
                without.by(party).insert(line(id, "T")).unwrap();
            }
        }
        let held = store.clone();
        assert_eq!(store.by(Party::Organiser(8)).remove(Uuid::from_u128(1)), Ok(false));
        assert_eq!(store.by(Party::Organiser(0)).remove(Uuid::from_u128(1)), Err(Error::NoOwner));
        assert_eq!(store.remove(Uuid::from_u128(3)), Ok(false));
        assert_eq!(store, held);
        assert_eq!(store.by(SEVEN).remove(Uuid::from_u128(1)), Ok(true));
        assert_eq!(store, without);
        assert_eq!(store.by(SEVEN).remove(Uuid::from_u128(1)), Ok(false));
        assert_eq!(store.get(Uuid::from_u128(1)), Ok(Some(line(1, "T"))));
    }
}

/// A hall's record has 21 bytes and an organiser's 22; the caller's own line of that UUID counts for nothing.
#[test]
fn room() {
    for (hall, league, fits) in [(true, false, 42), (true, true, 43), (false, true, 44)] {
        let [first, second] = [hall, !league].map(|h| if h { Party::Hall } else { SEVEN });
        for len in [fits - 1, fits] {
            let mut store = Store::new(len, 100);
            store.by(first).insert(line(1, "T")).unwrap();
            let told = store.by(second).insert(line(2, "T"));
            assert_eq!(told.map_err(|stopped| stopped.error).is_ok(), len == fits);
        }
    }
    // another party's line of the same UUID counts
    let mut store = Store::new(43, 67);
    store.insert(line(1, "T")).unwrap();
    assert_eq!(store.by(SEVEN).insert(line(1, "T")).unwrap_err().error, Error::NoText);
    assert_eq!(store.by(SEVEN).save(&bound(), &BUTTONS, &[], "", Uuid::from_u128(1)), Err(Error::NoText));
    assert!(store.insert(line(1, &"T".repeat(34))).is_ok());
}

/// Owner 0 is refused with 24 before damage, text, name and length, with nothing changed; the hall is no owner 0.
#[test]
fn nobody_24() {
    let id = Uuid::from_u128(1);
    for mut store in [Store::new(42, 100), Store::over(vec![9; 42], vec![9; 100]), Store::new(INDEX_MAX + 1, 9)] {
        let before = store.clone();
        let mut nobody = store.by(Party::Organiser(0));
        let refused = nobody.insert(b"\xff").unwrap_err();
        assert_eq!((refused.error, refused.walked), (Error::NoOwner, Inserted { count: 0, not_simple: 0 }));
        let refused = nobody.save(&bound(), &[], &[], "a,b", id).unwrap_err();
        assert_eq!((refused.number(), refused.place(), refused.code()), (24, None, None));
        assert_eq!(nobody.found(id), Err(Error::NoOwner));
        assert_eq!(nobody.get(id), Err(Error::NoOwner));
        assert_eq!(nobody.get_near(id), Err(Error::NoOwner));
        assert_eq!(nobody.mapping(id, &[], &[]), Err(Error::NoOwner));
        let mut out = [7; 9];
        assert_eq!((nobody.get_into(id, &mut out), nobody.get_near_into(id, &mut out)), (Some(0), Some(0)));
        assert_eq!((store, out), (before, [7; 9]));
    }
    assert_eq!(Error::NoOwner.to_string(), "refused 24: an organiser's owner is 1 to 255, not 0");
}

/// Three parties file under three UUIDs in a store that is often full; after each call the look-ups of all find what a
/// plain table has.
#[test]
fn three_parties() {
    let parties = [Party::Hall, Party::Organiser(1), Party::Organiser(255)];
    let mut store = Store::new(150, 260);
    let mut held: HashMap<(Party, u128), Vec<u8>> = HashMap::new();
    let mut state: usize = 1;
    let mut below = |n: usize| {
        state = state.wrapping_mul(6364136223846793005).wrapping_add(1442695040888963407);
        (state >> 33) % n
    };
    let mut refused = 0;
    for _ in 0..3000 {
        let (party, id) = (parties[below(3)], below(3) as u128);
        match below(40) {
            0 => {
                store.clear().unwrap();
                held.clear();
            }
            n if n % 2 == 0 => {
                let text = line(id, &"n".repeat(below(30)));
                match store.by(party).insert(&text) {
                    Ok(_) => drop(held.insert((party, id), text)),
                    Err(stopped) => {
                        assert!(matches!(stopped.error, Error::NoRoom | Error::NoText));
                        refused += 1;
                    }
                }
            }
            _ => {
                let name = "s".repeat(below(30));
                let built = bound().build(&BUTTONS, &[], &name, Uuid::from_u128(id)).unwrap();
                match store.by(party).save(&bound(), &BUTTONS, &[], &name, Uuid::from_u128(id)) {
                    Ok(map) => {
                        assert_eq!(map, built.map);
                        held.insert((party, id), built.line.into());
                    }
                    Err(e) => {
                        assert!(matches!(e, Error::NoRoom | Error::NoText));
                        refused += 1;
                    }
                }
            }
        }
        for party in parties {
            for id in 0..3 {
                let found = store.seen_by(party).get(Uuid::from_u128(id)).unwrap();
                assert_eq!(found.as_ref(), held.get(&(party, id)));
            }
        }
    }
    assert!(refused > 100);
}
