//! The lines that a store holds, and those of a text, one after the other.
use raspteal::{text, Error, HeldLine, Party, Store, Uuid, INDEX_MAX};

const SEVEN: Party = Party::Organiser(7);

fn held<'a>(party: Party, id: u128, line: &'a str) -> HeldLine<'a> {
    HeldLine { party, id: Uuid::from_u128(id), line: line.as_bytes() }
}

fn line(id: u128, name: &str) -> String {
    format!("{},{name}", Uuid::from_u128(id))
}

/// Shares are passed over; a line that is filed again comes last; each party's stands by its name.
#[test]
fn lines_of_all_parties() {
    let mut store = Store::new(200, 200);
    assert_eq!(store.lines().unwrap().next(), None);
    store.set_share(9, 10).unwrap();
    store.set_share(0, 1).unwrap();
    let (first, second, league) = (line(1, "one"), line(2, "two"), line(1, "league's"));
    store.insert(&first).unwrap();
    store.by(SEVEN).insert(&league).unwrap();
    store.insert(&second).unwrap();
    store.insert(&first).unwrap();
    let all = [held(SEVEN, 1, &league), held(Party::Hall, 2, &second), held(Party::Hall, 1, &first)];
    let mut lines = store.lines().unwrap();
    assert!(lines.by_ref().eq(all));
    assert_eq!((lines.next(), lines.next()), (None, None));
    for line in store.lines().unwrap() {
        assert_eq!(store.seen_by(line.party).get(line.id), Ok(Some(line.line.to_vec())));
    }
    assert!(store.clone().grown().lines().unwrap().eq(all));
    let lent = Store::over(store.index(), store.text());
    assert!(lent.lines().unwrap().eq(all));
}

/// Records of all six kinds, in a store whose text has more than 65535 bytes.
#[test]
fn lines_far_behind() {
    let mut store = Store::new(400, 200_000);
    store.set_share(3, 70_000).unwrap();
    store.set_share(4, 70).unwrap();
    let long = line(1, &"n".repeat(16000));
    let mut all = vec![];
    for id in 1..=6 {
        let (party, line) = (if id % 2 == 0 { Party::Hall } else { SEVEN }, long.replacen('1', &id.to_string(), 1));
        store.by(party).insert(&line).unwrap();
        all.push((party, id, line));
    }
    let kinds: Vec<u8> = [0, 6, 10, 32, 53, 75, 96, 118].map(|at| store.index()[at]).into();
    assert_eq!(kinds, [6, 4, 3, 1, 3, 1, 3, 2]);
    assert!(store.lines().unwrap().eq(all.iter().map(|(party, id, line)| held(*party, *id, line))));
}

/// 19 where the store is not sound, and where a buffer is too long.
#[test]
fn no_lines_of_a_damaged_store() {
    let mut store = Store::new(50, 50);
    store.insert(line(1, "one")).unwrap();
    let (mut index, text) = store.into_buffers();
    index[49] = 1;
    assert_eq!(Store::over(index, text).lines().err(), Some(Error::Unsound));
    assert_eq!(Store::new(INDEX_MAX + 1, 9).lines().err(), Some(Error::Unsound));
}

#[test]
fn cut_lines() {
    let cut = |lines: &'static str| text::lines(lines.as_bytes()).collect::<Vec<_>>();
    assert_eq!(cut(""), [b""; 0]);
    assert_eq!(cut("\n"), [b""]);
    assert_eq!(cut("\r\n\r"), [&b""[..], b"\r"]);
    assert_eq!(cut("a\r\r\nb\n\nc"), [&b"a\r"[..], b"b", b"", b"c"]);
}
