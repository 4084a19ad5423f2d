//! Stores beyond 65535 bytes: limits, lines on either side of offset 65536, long shares, threads with small stacks.
use raspteal::{
    Button, Code, Error, MappingData, Match, Party, Share, Store, Uuid, INDEX_MAX, LINE_MAX, LONG_LEN,
    ORGANISER_RECORD_LEN, RECORD_LEN, SHARE_RECORD_LEN, SMALL_MAX, TEXT_MAX,
};

const SEVEN: Party = Party::Organiser(7);

fn line(id: u128, len: usize) -> Vec<u8> {
    let mut line = format!("{},", Uuid::from_u128(id)).into_bytes();
    line.resize(len, b'n');
    line
}

fn bound() -> MappingData {
    let mut data = MappingData::new();
    data.insert_btn(Code(5), Button::South);
    data
}

fn party(owner: u8) -> Party {
    match owner {
        0 => Party::Hall,
        _ => Party::Organiser(owner),
    }
}

/// What a plain list says of a store: the records and the text that its lines have, end to end.
#[derive(Clone, Default, PartialEq, Debug)]
struct List(Vec<(u8, u128, usize)>);

impl List {
    fn file(&self, owner: u8, id: u128, len: usize) -> List {
        let others = self.0.iter().filter(|(o, i, _)| (*o, *i) != (owner, id)).copied();
        List(others.chain([(owner, id, len)]).collect())
    }

    fn text(&self) -> usize {
        self.0.iter().map(|(.., len)| len).sum()
    }

    fn records(&self) -> Vec<u8> {
        let (mut index, mut offset) = (Vec::new(), 0);
        for &(owner, id, len) in &self.0 {
            let far = offset > SMALL_MAX;
            match owner {
                0 => index.push(if far { 2 } else { 1 }),
                _ => index.extend([if far { 5 } else { 3 }, owner]),
            }
            index.extend(id.to_be_bytes());
            index.extend(&(offset as u32).to_be_bytes()[if far { 0 } else { 2 }..]);
            index.extend((len as u16).to_be_bytes());
            offset += len;
        }
        index
    }

    /// Whether the store has just these bytes, and zeros behind them.
    fn is_in(&self, store: &Store) -> bool {
        let text: Vec<u8> = self.0.iter().flat_map(|&(_, id, len)| line(id, len)).collect();
        let filled =
            |buffer: &[u8], with: &[u8]| buffer.starts_with(with) && buffer[with.len()..].iter().all(|&b| b == 0);
        filled(store.index(), &self.records()) && filled(store.text(), &text)
    }
}

/// Histories around offset 65536, of the hall and an organiser: after each filing both buffers are the list's, and the
/// answer is that of the records and the text as they would then stand.
#[test]
fn beside_a_list() {
    let mut state: usize = 1;
    let mut below = |n: usize| {
        state = state.wrapping_mul(6364136223846793005).wrapping_add(1442695040888963407);
        (state >> 33) % n
    };
    let mut met = [0; 26];
    let mut far = [0; 6];
    for index in [160, 167, 172, 190, 260] {
        let (mut store, mut list) = (Store::new(index, 90000), List::default());
        for _ in 0..600 {
            let (owner, id) = ([0, 0, 7][below(3)], below(6) as u128);
            let len = [LINE_MAX, LINE_MAX, LINE_MAX - below(3), 33 + below(40), 33 + below(9000)][below(5)];
            let told = store.by(party(owner)).insert(line(id, len)).map(drop).map_err(|stopped| stopped.error);
            let after = list.file(owner, id, len);
            let right = match () {
                () if after.records().len() > index => Err(Error::NoRoom),
                () if after.text() > 90000 => Err(Error::NoText),
                () => Ok(()),
            };
            assert_eq!(told, right);
            if told.is_ok() {
                list = after;
            }
            assert!(list.is_in(&store));
            met[told.map_or_else(|e| usize::from(e.number()), |()| 0)] += 1;
            let mut offset = 0;
            for (owner, _, len) in &list.0 {
                far[if offset > SMALL_MAX { 2 } else { 1 } + if *owner > 0 { 3 } else { 0 }] += 1;
                offset += len;
            }
            if below(100) == 0 {
                store.clear().unwrap();
                list = List::default();
            }
        }
    }
    assert!(met[0] > 500 && met[21] > 200 && met[25] > 50, "{met:?}");
    assert!([far[1], far[2], far[4], far[5]].iter().all(|&n| n > 100), "{far:?}");
}

/// A line at offset 65535 and one at 65536, in an index with just the room; with a byte less it is refused.
#[test]
fn borders() {
    for (offset, more) in [(65535, 0), (65536, LONG_LEN)] {
        for (owner, record) in [(0, RECORD_LEN), (7, ORGANISER_RECORD_LEN)] {
            for less in [0, 1] {
                let mut store = Store::new(5 * RECORD_LEN + record + more - less, 65536 + 40);
                let lens = [LINE_MAX, LINE_MAX, LINE_MAX, 33, offset - 3 * LINE_MAX - 33];
                let mut list = List((1..).zip(lens).map(|(id, len)| (0, id, len)).collect());
                for &(_, id, len) in &list.0 {
                    store.insert(line(id, len)).unwrap();
                }
                let told = store.by(party(owner)).insert(line(6, 40));
                assert_eq!(told.is_ok(), less == 0);
                if less == 0 {
                    list = list.file(owner, 6, 40);
                }
                assert!(list.is_in(&store));
                assert_eq!(store.seen_by(party(owner)).get(Uuid::from_u128(6)), Ok((less == 0).then(|| line(6, 40))));
            }
        }
    }
}

/// One byte over either limit is 19, and 23 for a clear; at the limits all calls go.
#[test]
fn limits() {
    let one = Uuid::from_u128(1);
    for (index, text) in [(INDEX_MAX + 1, 10), (10, TEXT_MAX + 1), (INDEX_MAX + 1, TEXT_MAX + 1)] {
        let mut store = Store::new(index, text);
        assert_eq!(store.found(one), Err(Error::Unsound));
        assert_eq!(store.get_near(one), Err(Error::Unsound));
        assert_eq!(store.insert("").unwrap_err().error, Error::Unsound);
        assert_eq!(store.save(&bound(), &[Code(5)], &[], "T", one), Err(Error::Unsound));
        assert_eq!(store.share(0), Err(Error::Unsound));
        assert_eq!(store.set_share(0, 1), Err(Error::Unsound));
        assert_eq!(store.clear(), Err(Error::BufferTooLarge));
    }
    let mut store = Store::large();
    assert_eq!((store.index().len(), store.text().len()), (INDEX_MAX, TEXT_MAX));
    let saved = store.save(&bound(), &[Code(5)], &[], "T", one).unwrap();
    assert_eq!(store.mapping(one, &[Code(5)], &[]), Ok(Some(saved)));
    assert!(matches!(store.get_near(one), Ok(Some(Match::Exact(_)))));
    let list: Vec<u8> = (2..=1024).flat_map(|id| [line(id, LINE_MAX), b"\n".to_vec()].concat()).collect();
    assert_eq!(store.insert(&list).unwrap().count, 1023);
    assert_eq!(store.insert(line(5000, 16345)).unwrap_err().error, Error::NoText);
    store.insert(line(5000, 16344)).unwrap();
    assert_eq!(store.share(0), Ok(Share { share: 0, used: TEXT_MAX }));
    assert_eq!(store.get(Uuid::from_u128(1024)), Ok(Some(line(1024, LINE_MAX))));
    assert_eq!(store.get(Uuid::from_u128(5000)), Ok(Some(line(5000, 16344))));
    store.clear().unwrap();
    assert_eq!(store, Store::large());
}

/// As many lines of 32 bytes as the index has records for.
#[test]
fn most_lines() {
    let near = 65536 / 32;
    let most = near + (INDEX_MAX - near * RECORD_LEN) / (RECORD_LEN + LONG_LEN);
    let list: String = (1..=most as u128 + 1).map(|id| format!("{}\n", Uuid::from_u128(id))).collect();
    let mut store = Store::large();
    let stopped = store.insert(&list).unwrap_err();
    assert_eq!((stopped.error, stopped.walked.count), (Error::NoRoom, most));
    assert_eq!(store.insert(&list[..list.len() - 33]).unwrap().count, most);
    assert_eq!(store.found(Uuid::from_u128(most as u128)), Ok(true));
    assert_eq!(store.found(Uuid::from_u128(most as u128 + 1)), Ok(false));
}

/// A share of 65535 has a short record, one of 65536 a long one, each with its room; kind 6 with 65535 is 19.
#[test]
fn long_shares() {
    let long = SHARE_RECORD_LEN + LONG_LEN;
    for index in SHARE_RECORD_LEN - 1..=long {
        let mut store = Store::new(index, 100_000);
        let fits = |size| if index < size { Err(Error::NoRoom) } else { Ok(()) };
        assert_eq!(store.set_share(7, 65536), fits(long));
        assert_eq!(store.set_share(7, 65535), fits(SHARE_RECORD_LEN));
        assert_eq!(store.set_share(7, 65536), fits(long));
        let share = if index < SHARE_RECORD_LEN { 0 } else { 65535 + usize::from(index == long) };
        assert_eq!(store.share(7), Ok(Share { share, used: 0 }));
        assert_eq!(store.set_share(7, 100_001), Err(Error::ShareTooLarge));
    }
    let mut store = Store::new(64, 200_000);
    store.set_share(200, 65535).unwrap();
    store.set_share(7, 65536).unwrap();
    store.set_share(0, 68929).unwrap();
    assert_eq!(store.set_share(1, 1), Err(Error::ShareTooLarge));
    assert_eq!(store.index()[..16], [6, 0, 0, 1, 13, 65, 6, 7, 0, 1, 0, 0, 4, 200, 255, 255]);
    store.insert(line(1, LINE_MAX)).unwrap();
    assert_eq!(store.by(Party::Organiser(9)).insert(line(1, 33)).unwrap_err().error, Error::NoText);
    store.by(SEVEN).insert(line(1, LINE_MAX)).unwrap();
    assert_eq!(store.share(7), Ok(Share { share: 65536, used: LINE_MAX }));
    store.set_share(7, 0).unwrap();
    assert_eq!(store.index()[..7], [6, 0, 0, 1, 13, 65, 4]);
    assert_eq!(store.get(Uuid::from_u128(1)), Ok(Some(line(1, LINE_MAX))));
    for (share, told) in
        [([0, 0, 255, 255], Err(Error::Unsound)), ([0, 1, 0, 0], Ok(65536)), ([255; 4], Ok(4294967295))]
    {
        let index = [&[6, 3], &share[..], &[0; 9]].concat();
        assert_eq!(Store::over(index, vec![0; 9]).share(3).map(|told| told.share), told);
    }
}

/// Each single byte of far records and of a long share damaged in turn: what is no key is 19.
#[test]
fn damaged() {
    let lens = [LINE_MAX, LINE_MAX, LINE_MAX, LINE_MAX, 40, 41];
    let mut store = Store::new(4 * RECORD_LEN + 2 * (RECORD_LEN + LONG_LEN) + 1 + 6, lens.iter().sum());
    for (id, len) in (1..5).zip(lens) {
        store.insert(line(id * 257, len)).unwrap();
    }
    store.insert(line(5 * 257, 40)).unwrap();
    store.by(SEVEN).insert(line(6 * 257, 41)).unwrap();
    let (mut index, text) = store.into_buffers();
    index.rotate_right(6);
    index[..6].copy_from_slice(&[6, 9, 0, 2, 0, 0]);
    let far = 6 + 4 * RECORD_LEN;
    assert_eq!((index[far], index[far + 23], index[far + 24]), (2, 5, 7));
    let keyed = |at: usize| matches!(at, 1) || (1..17).contains(&(at - far)) || (24..41).contains(&(at - far));
    for at in (0..6).chain(far..index.len()) {
        for flip in [1, 2, 0x80, 0xff] {
            let mut index = index.clone();
            index[at] ^= flip;
            let sound = match at {
                1 => true,
                2..=5 => index[2] > 0 || index[3] > 0,
                0 => false,
                at => keyed(at),
            };
            assert_eq!(Store::over(&index[..], &text[..]).found(Uuid::NIL).is_ok(), sound, "{at} {flip}");
        }
    }
}

/// A call on a large store runs wherever it is made, also on a thread with a small stack, and many at a time.
#[test]
fn on_small_stacks() {
    let mut store = Store::large();
    store.insert(line(1, 40)).unwrap();
    std::thread::scope(|scope| {
        for _ in 0..8 {
            std::thread::Builder::new()
                .stack_size(64 << 10)
                .spawn_scoped(scope, || {
                    for _ in 0..20 {
                        assert_eq!(store.get(Uuid::from_u128(1)), Ok(Some(line(1, 40))));
                    }
                })
                .unwrap();
        }
    });
}

/// A small store in longer buffers holds the same, and goes on where it was full.
#[test]
fn grown() {
    let mut store = Store::small();
    for id in 1..5 {
        store.insert(line(id, if id < 4 { LINE_MAX } else { LINE_MAX - 1 })).unwrap();
    }
    store.set_share(9, 0).unwrap();
    assert_eq!(store.insert(line(9, 33)).unwrap_err().error, Error::NoText);
    let small = store.clone();
    let mut store = store.grown();
    assert!(store.index().starts_with(small.index()) && store.text().starts_with(small.text()));
    assert_eq!((store.index().len(), store.text().len()), (INDEX_MAX, TEXT_MAX));
    for id in 1..5 {
        assert_eq!(store.get(Uuid::from_u128(id)), small.get(Uuid::from_u128(id)));
    }
    store.insert(line(9, 33)).unwrap();
    assert_eq!(store.index()[4 * RECORD_LEN], 1);
    store.insert(line(10, 33)).unwrap();
    assert_eq!(store.index()[5 * RECORD_LEN], 2);
    assert_eq!(store.clone().grown(), store);
}
