//! Guaranteed shares of the text: what a filing and a setting go by, 25 and 26, and what a share is worth.
use raspteal::{
    Button, Code, Error, MappingData, Party, Share, Store, Uuid, INDEX_MAX, ORGANISER_RECORD_LEN, RECORD_LEN,
    SHARE_RECORD_LEN, TEXT_MAX,
};
use std::collections::HashMap;

const BUTTONS: [Code; 2] = [Code(0x10130), Code(0x10131)];
const SEVEN: Party = Party::Organiser(7);

fn line(id: u128, len: usize) -> Vec<u8> {
    let mut line = format!("{},", Uuid::from_u128(id)).into_bytes();
    line.resize(len, b'n');
    line
}

fn bound() -> MappingData {
    let mut data = MappingData::new();
    data.insert_btn(BUTTONS[1], Button::South);
    data
}

fn party(owner: u8) -> Party {
    match owner {
        0 => Party::Hall,
        _ => Party::Organiser(owner),
    }
}

/// A league has filled the text; the hall's saves and inserts within its share still go.
#[test]
fn the_cup_s_evening() {
    let mut store = Store::new(500, 500);
    store.set_share(0, 100).unwrap();
    for id in 0..10 {
        store.by(SEVEN).insert(line(id, 40)).unwrap();
    }
    assert_eq!(store.share(7), Ok(Share { share: 0, used: 400 }));
    assert_eq!(store.by(SEVEN).insert(line(10, 33)).unwrap_err().error, Error::NoText);
    assert_eq!(store.by(SEVEN).insert(line(1, 41)).unwrap_err().error, Error::NoText);
    assert_eq!(store.by(Party::Organiser(8)).insert(line(1, 33)).unwrap_err().error, Error::NoText);
    let map = store.save(&bound(), &BUTTONS, &[], "Cup", Uuid::from_u128(1)).unwrap();
    assert_eq!(store.mapping(Uuid::from_u128(1), &BUTTONS, &[]), Ok(Some(map)));
    store.insert(line(2, 58)).unwrap();
    assert_eq!(store.share(0), Ok(Share { share: 100, used: 100 }));
    let before = store.clone();
    assert_eq!(store.insert(line(2, 59)).unwrap_err().error, Error::NoText);
    assert_eq!(store.save(&bound(), &BUTTONS, &[], "Cups", Uuid::from_u128(1)), Err(Error::NoText));
    assert_eq!(store, before);
    store.set_share(0, 0).unwrap();
    store.insert(line(2, 33)).unwrap();
    store.by(SEVEN).insert(line(1, 65)).unwrap();
    assert_eq!(store.insert(line(2, 34)).unwrap_err().error, Error::NoText);
}

/// 19, then 26, then 21; a refused setting changes nothing. With 0 to 3 free bytes of the index a record has no room; a
/// share that is changed or taken away needs none.
#[test]
fn settings() {
    for free in 0..=SHARE_RECORD_LEN {
        let mut store = Store::new(RECORD_LEN + free, 60);
        store.insert(line(1, 40)).unwrap();
        let before = store.clone();
        assert_eq!(store.set_share(7, 21), Err(Error::ShareTooLarge));
        assert_eq!(store.set_share(7, usize::MAX), Err(Error::ShareTooLarge));
        assert_eq!(store.set_share(0, 61), Err(Error::ShareTooLarge));
        if free < SHARE_RECORD_LEN {
            assert_eq!((store.set_share(7, 20), store.set_share(0, 40)), (Err(Error::NoRoom), Err(Error::NoRoom)));
            assert_eq!((store.set_share(7, 0), &store), (Ok(()), &before));
            continue;
        }
        assert_eq!((store.set_share(7, 20), store.set_share(7, 5)), (Ok(()), Ok(())));
        assert_eq!(store.set_share(8, 1), Err(Error::NoRoom));
        assert_eq!(store.index()[..5], [4, 7, 0, 5, 1]);
        assert_eq!((store.set_share(7, 0), &store), (Ok(()), &before));
    }
    for mut store in
        [Store::over(vec![4, 3, 0, 0, 0], vec![0; 9]), Store::new(INDEX_MAX + 1, 9), Store::new(9, TEXT_MAX + 1)]
    {
        let before = store.clone();
        assert_eq!(store.set_share(3, usize::MAX), Err(Error::Unsound));
        assert_eq!((store.share(3), &store), (Err(Error::Unsound), &before));
    }
    assert_eq!(Error::NoText.to_string(), "refused 25: no room in the text, the parties' shares counted");
    assert_eq!(Error::ShareTooLarge.to_string(), "refused 26: the text is too small for that share");
}

/// Every party has a share; the records stand by owner, and a clear drops them.
#[test]
fn every_party_has_a_share() {
    let mut store = Store::new(256 * SHARE_RECORD_LEN + RECORD_LEN, 65535);
    for owner in (0..=255).rev() {
        store.set_share(owner, 255).unwrap();
    }
    assert_eq!(store.set_share(9, 511), Err(Error::ShareTooLarge));
    store.set_share(9, 510).unwrap();
    for (owner, record) in (0..=255).zip(store.index().chunks(SHARE_RECORD_LEN)) {
        assert_eq!(record[..2], [4, owner]);
    }
    assert_eq!(store.by(Party::Organiser(9)).insert(line(1, 60)).unwrap_err().error, Error::NoRoom);
    store.insert(line(1, 255)).unwrap();
    assert_eq!(store.insert(line(1, 256)).unwrap_err().error, Error::NoText);
    assert_eq!(store.get(Uuid::from_u128(1)), Ok(Some(line(1, 255))));
    store.clear().unwrap();
    assert!((0..=255).all(|owner| store.share(owner) == Ok(Share { share: 0, used: 0 })));
}

/// What a plain table says of a filing or a setting: the index, then the text, or the text, then the index.
struct Table {
    shares: HashMap<u8, usize>,
    held: HashMap<(u8, u128), usize>,
    index: usize,
    text: usize,
}

impl Table {
    fn used(&self, owner: u8) -> usize {
        self.held.iter().filter(|((o, _), _)| *o == owner).map(|(_, len)| len).sum()
    }

    fn share(&self, owner: u8) -> usize {
        self.shares.get(&owner).copied().unwrap_or(0)
    }

    fn claims(&self) -> usize {
        (0..=255).map(|owner| self.used(owner).max(self.share(owner))).sum()
    }

    fn records(&self) -> usize {
        let lines = self.held.keys().map(|(owner, _)| if *owner == 0 { RECORD_LEN } else { ORGANISER_RECORD_LEN });
        lines.sum::<usize>() + SHARE_RECORD_LEN * self.shares.values().filter(|share| **share > 0).count()
    }

    fn file(&mut self, key: (u8, u128), len: usize) -> Result<(), Error> {
        let had = self.held.insert(key, len);
        let refused = if self.records() > self.index {
            Error::NoRoom
        } else if self.claims() > self.text {
            Error::NoText
        } else {
            return Ok(());
        };
        match had {
            Some(len) => self.held.insert(key, len),
            None => self.held.remove(&key),
        };
        Err(refused)
    }

    fn set(&mut self, owner: u8, share: usize) -> Result<(), Error> {
        let had = self.shares.insert(owner, share).unwrap_or(0);
        let refused = if self.claims() > self.text {
            Error::ShareTooLarge
        } else if self.records() > self.index {
            Error::NoRoom
        } else {
            return Ok(());
        };
        self.shares.insert(owner, had);
        Err(refused)
    }
}

/// Histories of three parties beside the table: answers, uses and shares are alike after each call, and a filing that
/// leaves its party within its share is never refused for text.
#[test]
fn beside_a_table() {
    let owners = [0, 1, 255];
    let mut state: usize = 1;
    let mut below = |n: usize| {
        state = state.wrapping_mul(6364136223846793005).wrapping_add(1442695040888963407);
        (state >> 33) % n
    };
    let mut met = HashMap::new();
    for (index, text) in [(150, 260), (70, 200), (300, 150)] {
        let mut store = Store::new(index, text);
        let mut table = Table { shares: HashMap::new(), held: HashMap::new(), index, text };
        for _ in 0..2000 {
            let (owner, id) = (owners[below(3)], below(3) as u128);
            let told = match below(40) {
                0 => {
                    store.clear().unwrap();
                    (table.shares, table.held) = Default::default();
                    Ok(())
                }
                n if n % 3 == 0 => {
                    let share = [0, 1, below(text + 2), below(text / 2)][below(4)];
                    let told = store.set_share(owner, share);
                    assert_eq!(told, table.set(owner, share));
                    told
                }
                _ => {
                    let len = 33 + below(40);
                    let within = table.used(owner) - table.held.get(&(owner, id)).unwrap_or(&0) + len;
                    let told =
                        store.by(party(owner)).insert(line(id, len)).map(drop).map_err(|stopped| stopped.error);
                    assert_eq!(told, table.file((owner, id), len));
                    assert!(within > table.share(owner) || told != Err(Error::NoText));
                    told
                }
            };
            *met.entry(told.map_err(|e| e.number()).err()).or_insert(0) += 1;
            assert!(table.claims() <= text);
            for owner in owners {
                let share = Share { share: table.share(owner), used: table.used(owner) };
                assert_eq!(store.share(owner), Ok(share));
            }
        }
    }
    assert!([None, Some(21), Some(25), Some(26)].iter().all(|number| met[number] > 50), "{met:?}");
}

/// A record out of order, doubled, of share 0, cut off or behind a line is 19; shares that exceed the text are sound.
#[test]
fn damaged_shares() {
    let unsound: [&[u8]; 8] = [
        &[4, 3, 0, 1, 4, 2, 0, 1],
        &[4, 3, 0, 1, 4, 3, 0, 1],
        &[4, 3, 0, 0, 0, 0, 0, 0],
        &[4, 3, 0, 1, 4],
        &[4, 3, 0, 1, 4, 4],
        &[4, 3, 0, 1, 4, 4, 0],
        &[0, 4, 3, 0, 1],
        &[5, 3, 0, 1],
    ];
    for index in unsound {
        let store = Store::over(index.to_vec(), vec![0; 9]);
        assert_eq!(store.share(3), Err(Error::Unsound), "{index:?}");
        assert_eq!(store.found(Uuid::NIL), Err(Error::Unsound), "{index:?}");
    }
    let mut store = Store::over(vec![4, 3, 0, 9, 4, 255, 1, 0], vec![0; 5]);
    assert_eq!((store.share(3).unwrap().share, store.share(255).unwrap().share), (9, 256));
    assert_eq!(
        (store.set_share(3, 1), store.set_share(3, 0)),
        (Err(Error::ShareTooLarge), Err(Error::ShareTooLarge))
    );
    assert_eq!(
        (store.set_share(255, 0), store.set_share(3, 5)),
        (Err(Error::ShareTooLarge), Err(Error::ShareTooLarge))
    );
    let mut store = Store::new(60, 60);
    store.insert(line(1, 33)).unwrap();
    let (mut index, text) = store.into_buffers();
    index[21..25].copy_from_slice(&[4, 3, 0, 1]);
    assert_eq!(Store::over(index, text).share(3), Err(Error::Unsound));
}
