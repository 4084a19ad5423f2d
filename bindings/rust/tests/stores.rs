//! The store: a save is found again and reads back the same, owned and lent buffers, damage.
use raspteal::{Axis, Button, Code, Error, Inserted, Mapping, MappingData, Match, Store, Uuid, RECORD_LEN};

const BUTTONS: [Code; 3] = [Code(0x10130), Code(0x10131), Code(0x10133)];
const AXES: [Code; 2] = [Code(0x30000), Code(0x30001)];

fn bound() -> MappingData {
    let mut data = MappingData::new();
    data.insert_btn(BUTTONS[1], Button::South);
    data.insert_btn(BUTTONS[0], Button::East);
    data.insert_axis(AXES[1], Axis::LeftStickX);
    data
}

/// Demand 3's path: saves, inserts and refused calls, then each line that was filed last reads back as it was saved.
#[test]
fn saved_is_found_and_reads_back() {
    let mut store = Store::new(3 * RECORD_LEN, 300);
    let ids = [Uuid::from_u128(1), Uuid::from_u128(u128::MAX), Uuid::NIL];
    let mut last: Vec<Option<Mapping>> = vec![None; 3];
    for (round, name) in ["Pad", "Pad of seat 7", "パッド", "", "quote \" : \r"].iter().enumerate() {
        let mut data = bound();
        data.insert_btn(BUTTONS[2], Button::ALL[3 + round]);
        for (id, map) in ids.iter().zip(&mut last) {
            *map = Some(store.save(&data, &BUTTONS, &AXES, name, *id).unwrap());
        }
        assert_eq!(store.save(&data, &BUTTONS, &AXES, "a,b", ids[0]), Err(Error::InvalidName));
        assert_eq!(store.save(&data, &BUTTONS, &AXES, "no room", Uuid::from_u128(9)), Err(Error::NoRoom));
        for (id, map) in ids.iter().zip(&last) {
            assert_eq!(store.mapping(*id, &BUTTONS, &AXES).unwrap(), *map);
            let line = String::from_utf8(store.get(*id).unwrap().unwrap()).unwrap();
            let map = map.as_ref().unwrap();
            assert_eq!(map.name_in(&line), *name);
            assert!(!map.is_default() && map.hats_mapped() == 0 && map.len() == 4);
            assert_eq!(line, data.build(&BUTTONS, &AXES, name, *id).unwrap().line);
        }
    }
    store.insert("00000000000000000000000000000001,listed,a:b0").unwrap();
    assert_eq!(store.get(ids[0]).unwrap().unwrap(), b"00000000000000000000000000000001,listed,a:b0");
    assert_eq!(store.mapping(ids[1], &BUTTONS, &AXES).unwrap(), last[1]);
    store.clear().unwrap();
    assert!(ids.iter().all(|id| store.get(*id) == Ok(None)));
    assert_eq!(store, Store::new(3 * RECORD_LEN, 300));
}

#[test]
fn lent_and_owned() {
    let id = Uuid::from_u128(7);
    let mut index = [0; 42];
    let mut text = vec![0; 200].into_boxed_slice();
    {
        let mut store = Store::over(&mut index[..], &mut text[..]);
        store.save(&bound(), &BUTTONS, &AXES, "lent", id).unwrap();
        assert_eq!(store.index()[0], 1);
    }
    let seen = Store::over(&index[..], &text[..]);
    assert!(seen.found(id).unwrap());
    let line = seen.get(id).unwrap().unwrap();

    let mut owned = Store::over(index.to_vec(), text.to_vec());
    assert_eq!(owned.get(id).unwrap().unwrap(), line);
    owned.clear().unwrap();
    let (index_after, _) = owned.into_buffers();
    assert!(index_after.iter().all(|&b| b == 0) && index[0] == 1);

    let mut arrays = Store::over([0; 50], [0; 50]);
    assert_eq!(arrays.insert("00000000000000000000000000000007,T"), Ok(Inserted { count: 1, not_simple: 0 }));
    let mut out = [b'.'; 40];
    assert_eq!(arrays.get_into(id, &mut out), Some(34));
    assert_eq!(&out[30..], b"07,T......");
    assert_eq!(arrays.get_into(id, &mut out[..33]), None);
    assert_eq!(arrays.get_into(Uuid::NIL, &mut out), Some(0));
}

#[test]
fn lines_wanted() {
    let mut store = Store::new(210, 1000);
    let list = "# comment\n\
                00000000000000000000000000000001,no platform,\r\n\
                00000000000000000000000000000002,ours,platform:Linux,\n\
                00000000000000000000000000000003,theirs,platform:Windows,\n\
                xinput,pad,\n\n";
    assert_eq!(store.insert(list), Ok(Inserted { count: 6, not_simple: 0 }));
    let held: Vec<bool> = (0..4).map(|n| store.found(Uuid::from_u128(n)).unwrap()).collect();
    assert_eq!(held, [false, true, true, false]);
    assert_eq!(store.get(Uuid::from_u128(1)).unwrap().unwrap(), b"00000000000000000000000000000001,no platform,");
}

/// Each single byte of a store damaged in turn: a call says 19, or answers for the lines that the bytes encode. Never
/// more.
#[test]
fn damaged() {
    let mut store = Store::new(3 * RECORD_LEN, 120);
    store.insert("00000000000000000000000000000001,T,a:b0\n00000000000000000000000000000002,T,a:b1").unwrap();
    let (index, text) = store.into_buffers();
    let mut unsound = 0;
    for at in 0..index.len() + text.len() {
        let (mut index, mut text) = (index.clone(), text.clone());
        match at.checked_sub(index.len()) {
            None => index[at] ^= 0x91,
            Some(at) => text[at] ^= 0x91,
        }
        let mut store = Store::over(index, text);
        let before = store.clone();
        match store.found(Uuid::from_u128(1)) {
            Err(e) => {
                unsound += 1;
                assert_eq!(e, Error::Unsound);
                assert_eq!(store.get(Uuid::from_u128(1)), Err(Error::Unsound));
                assert_eq!(store.insert("").unwrap_err().error, Error::Unsound);
                assert_eq!(store.save(&bound(), &BUTTONS, &AXES, "T", Uuid::NIL), Err(Error::Unsound));
                assert_eq!(store, before);
                store.clear().unwrap();
                assert!(!store.found(Uuid::from_u128(1)).unwrap());
            }
            Ok(held) => assert_eq!(store.get(Uuid::from_u128(1)).unwrap().is_some(), held),
        }
    }
    // Kinds, offsets, lengths and both tails; not the UUIDs and the letters of lines.
    assert_eq!(unsound, 2 * 5 + 21 + (120 - 78));
}

/// A checksum is set aside in the UUID that is looked up, and in no other.
#[test]
fn near_lines() {
    let plain = Uuid::from_u128(0x030000005e0400008e02000014010000);
    let with = |c: u16| Uuid::from_u128(plain.as_u128() | u128::from(c) << 96);
    let line = format!("{plain},Pad,a:b0").into_bytes();
    let mut store = Store::new(2 * RECORD_LEN, 200);
    assert_eq!(store.get_near(plain), Ok(None));
    store.insert(&line).unwrap();
    for c in [1, 0x100, 0xabcd, 0xffff] {
        assert_eq!(with(c).without_checksum(), plain);
        assert_eq!(store.get(with(c)), Ok(None));
        assert_eq!(store.get_near(with(c)), Ok(Some(Match::Near(line.clone()))));
    }
    assert_eq!(store.get_near(plain), Ok(Some(Match::Exact(line.clone()))));
    assert_eq!(store.found_near(plain), Ok(Some(Match::Exact(()))));
    assert_eq!(store.found_near(with(1)), Ok(Some(Match::Near(()))));
    assert_eq!(store.found_near(Uuid::NIL), Ok(None));
    let own = format!("{},Own,a:b0", with(0xabcd)).into_bytes();
    store.insert(&own).unwrap();
    assert_eq!(store.get_near(with(0xabcd)), Ok(Some(Match::Exact(own.clone()))));
    assert_eq!(store.get_near(with(0xabce)), Ok(Some(Match::Near(line))));
    assert_eq!(store.get_near_into(with(0xabcd), &mut [0; 10]), None);
    store.clear().unwrap();
    store.insert(&own).unwrap();
    assert_eq!(store.get_near(plain), Ok(None));
    assert_eq!(store.get_near(with(1)), Ok(None));
    let (mut index, text) = store.into_buffers();
    index[0] = 9;
    assert_eq!(Store::over(index, text).get_near(plain), Err(Error::Unsound));
}

/// Lines filed in another form than 32 digits are told, those that are replaced too; unwanted ones are not.
#[test]
fn forms_told() {
    let h = "00000000-0000-0000-0000-000000000007";
    let mut store = Store::new(RECORD_LEN, 200);
    let list = format!("{h},A\n{{{h}}},B\nurn:uuid:{h},C\n{},D\nxinput,E\n{h},F,platform:Windows", Uuid::from_u128(7));
    assert_eq!(store.insert(&list), Ok(Inserted { count: 6, not_simple: 3 }));
    let refused = store.insert(format!("{h},A\n{}8,B", &h[..35])).unwrap_err();
    assert_eq!((refused.error, refused.walked), (Error::NoRoom, Inserted { count: 1, not_simple: 1 }));
    let refused = store.insert(format!("{h},A\n").into_bytes().into_iter().chain([0xff]).collect::<Vec<u8>>());
    assert_eq!(refused.unwrap_err().walked, Inserted { count: 0, not_simple: 0 });
    assert!(store.found(Uuid::from_u128(7)).unwrap());
}
