//! Every refusal of document 01, by the example of its table: number, place, code, and that nothing was changed.
use raspteal::{Axis, Button, Code, Error, Mapping, MappingData, Parser, Store, Uuid, INDEX_MAX, TEXT_MAX};

const U: &str = "00000000000000000000000000000000";

fn read(line: &str) -> Error {
    Mapping::parse_sdl_mapping(line, &[Code(0x10130)], &[Code(0x30000)]).unwrap_err()
}

fn expect(e: Error, number: u8, place: Option<usize>, code: Option<Code>) {
    assert_eq!((e.number(), e.place(), e.code()), (number, place, code), "{e}");
    let about = match (place, code) {
        (Some(place), _) => format!(" (place {place})"),
        (None, Some(code)) => format!(" (code {code})"),
        (None, None) => String::new(),
    };
    assert_eq!(e.to_string(), format!("refused {number}: {}{about}", e.meaning()));
    assert_eq!(format!("{e:>100}").len(), 100);
}

fn south(code: u32) -> MappingData {
    let mut data = MappingData::new();
    data.insert_btn(Code(code), Button::South);
    data
}

fn codes(n: u32) -> Vec<Code> {
    (0..n).map(Code).collect()
}

/// A build's refusal; a save of the same has to give it too, with its store unchanged.
fn build(data: &MappingData, buttons: &[Code], axes: &[Code], name: impl AsRef<[u8]>) -> Error {
    let name = name.as_ref();
    let mut out = [7; 3000];
    let refused = data.build_into(buttons, axes, name, Uuid::NIL, &mut out).unwrap_err();
    assert!(out.iter().all(|&b| b == 7));
    assert_eq!(data.build(buttons, axes, name, Uuid::NIL), Err(refused));
    let mut store = Store::new(42, 5000);
    store.insert(format!("{U},held")).unwrap();
    let before = store.clone();
    assert_eq!(store.save(data, buttons, axes, name, Uuid::NIL), Err(refused));
    assert_eq!(store, before);
    refused
}

#[test]
fn readings_1_to_7() {
    expect(read("q,T"), 1, Some(0), None);
    expect(read(U), 2, Some(0), None);
    expect(read(&format!("{U},T,,")), 3, Some(35), None);
    expect(read(&format!("{U},T,a:b65536")), 4, Some(35), None);
    expect(read(&format!("{U},T,a:h0.q")), 4, Some(38), None);
    expect(read(&format!("{U},T,q:a0")), 5, Some(35), None);
    expect(read(&format!("{U},T,q:b0")), 6, Some(35), None);
    expect(read(&format!("{U},T,a:h0.3")), 7, Some(0), None);
}

#[test]
fn walker_8_and_9() {
    let line = format!("{U},T,a:");
    let refused: Vec<Error> = Parser::new(&line).filter_map(Result::err).collect();
    assert_eq!(refused.len(), 1);
    expect(refused[0], 8, Some(35), None);
    assert!(Mapping::parse_sdl_mapping(&line, &[], &[]).unwrap().is_empty());

    let mut parser = Parser::new(U);
    expect(parser.next_token().unwrap_err(), 2, Some(0), None);
    expect(parser.next_token().unwrap_err(), 9, Some(0), None);
}

#[test]
fn not_utf8_10() {
    expect(Mapping::parse_sdl_mapping(b"\xff", &[], &[]).unwrap_err(), 10, Some(0), None);
    expect(Parser::new(b"T\xff").next_token().unwrap_err(), 10, Some(1), None);
    expect(build(&south(5), &[Code(5)], &[], b"\xc3\xa9\xff"), 10, Some(2), None);
    let refused = Store::new(21, 100).insert(b"\xff").unwrap_err();
    expect(refused.error, 10, Some(0), None);
    assert_eq!(refused.walked.count, 0);
}

#[test]
fn codes_11() {
    let buttons = codes(257);
    let pairs: Vec<String> = (0..257).map(|n| format!("a:b{n},")).collect();
    let line = format!("{U},T,{}", pairs.concat());
    let place = line.len() - pairs[256].len();
    expect(Mapping::parse_sdl_mapping(&line, &buttons, &[]).unwrap_err(), 11, Some(place), None);
    assert_eq!(Mapping::parse_sdl_mapping(&line[..place], &buttons, &[]).unwrap().len(), 256);

    let mut map = Mapping::new();
    for n in 0..256 {
        map.put(Code(n), Button::South).unwrap();
    }
    let full = map.clone();
    expect(map.put(Code(256), Button::South).unwrap_err(), 11, None, None);
    assert_eq!(map, full);
    map.put(Code(255), Button::East).unwrap();
    assert_eq!(map.len(), 256);
}

#[test]
fn lists_12() {
    let long = codes(1025);
    expect(Mapping::parse_sdl_mapping("", &long, &[]).unwrap_err(), 12, None, None);
    expect(Mapping::parse_sdl_mapping("", &[], &long).unwrap_err(), 12, None, None);
    expect(Mapping::default_of(&long, &[]).unwrap_err(), 12, None, None);
    expect(build(&south(5), &long, &[], "T"), 12, None, None);
    assert!(Mapping::default_of(&long[1..], &long[1..]).is_ok());
}

#[test]
fn builds_13_to_18() {
    let (buttons, axes) = ([Code(5)], [Code(6)]);
    expect(build(&south(5), &buttons, &axes, ","), 13, None, None);

    let mut unknown = south(5);
    unknown.insert_btn(Code(5), Button::Unknown);
    expect(build(&unknown, &buttons, &axes, "T"), 14, None, None);
    let mut unknown = south(5);
    unknown.insert_axis(Code(6), Axis::Unknown);
    expect(build(&unknown, &buttons, &axes, "T"), 14, None, None);

    expect(build(&south(5), &[], &axes, "T"), 15, None, Some(Code(5)));

    for axis in [Axis::DPadX, Axis::DPadY] {
        let mut pad = MappingData::new();
        pad.insert_axis(Code(6), axis);
        expect(build(&pad, &buttons, &axes, "T"), 16, None, None);
    }

    expect(build(&south(5), &buttons, &axes, "n".repeat(8193)), 17, None, None);
    assert!(south(5).build(&buttons, &axes, "n".repeat(8192), Uuid::NIL).is_ok());

    let mut out = [7; 39];
    expect(south(5).build_into(&buttons, &axes, "T", Uuid::NIL, &mut []).unwrap_err(), 18, None, None);
    expect(south(5).build_into(&buttons, &axes, "T", Uuid::NIL, &mut out).unwrap_err(), 18, None, None);
    assert_eq!(out, [7; 39]);
}

#[test]
fn stores_19() {
    let mut store = Store::new(42, 100);
    store.insert(format!("{U},T")).unwrap();
    let (mut index, text) = store.into_buffers();
    index[0] = 9;
    let mut store = Store::over(index, text);
    let before = store.clone();
    expect(store.found(Uuid::NIL).unwrap_err(), 19, None, None);
    expect(store.get(Uuid::NIL).unwrap_err(), 19, None, None);
    expect(store.mapping(Uuid::NIL, &[], &[]).unwrap_err(), 19, None, None);
    expect(store.insert("").unwrap_err().error, 19, None, None);
    expect(store.save(&south(5), &[Code(5)], &[], "T", Uuid::NIL).unwrap_err(), 19, None, None);
    let mut out = [7; 50];
    assert_eq!(store.get_into(Uuid::NIL, &mut out), Some(0));
    assert_eq!(out, [7; 50]);
    assert_eq!(store, before);
    expect(Store::new(INDEX_MAX + 1, 10).found(Uuid::NIL).unwrap_err(), 19, None, None);
    expect(Store::new(10, TEXT_MAX + 1).insert("").unwrap_err().error, 19, None, None);
}

#[test]
fn inserts_20_21_and_25() {
    let mut store = Store::new(63, 65535);
    let long = format!("{U},{}", "n".repeat(16385 - 33));
    let refused =
        store.insert(format!("# list\n00000000000000000000000000000001,T\n{long}\nnever reached")).unwrap_err();
    expect(refused.error, 20, None, None);
    assert_eq!(refused.walked.count, 2);
    assert!(store.found(Uuid::from_u128(1)).unwrap() && !store.found(Uuid::NIL).unwrap());
    assert_eq!(refused.to_string(), "refused 20: a wanted line of more than 16384 bytes, after 2 lines");
    assert_eq!(std::error::Error::source(&refused).unwrap().to_string(), refused.error.to_string());
    assert_eq!(store.insert(&long[..16384]).map(|i| i.count), Ok(1));

    let mut store = Store::new(20, 100);
    expect(store.insert(format!("{U},T")).unwrap_err().error, 21, None, None);
    expect(store.save(&south(5), &[Code(5)], &[], "T", Uuid::NIL).unwrap_err(), 21, None, None);
    let mut store = Store::new(21, 39);
    expect(store.save(&south(5), &[Code(5)], &[], "T", Uuid::NIL).unwrap_err(), 25, None, None);
    expect(store.insert(format!("{U},nnnnnnn")).unwrap_err().error, 25, None, None);
    assert!(store.index().iter().chain(store.text()).all(|&b| b == 0));
}

#[test]
fn names_22() {
    let mut store = Store::new(42, 100);
    for name in ["platform:Linux", "a\nb", "\n"] {
        assert!(south(5).build(&[Code(5)], &[], name, Uuid::NIL).is_ok());
        expect(store.save(&south(5), &[Code(5)], &[], name, Uuid::NIL).unwrap_err(), 22, None, None);
    }
    assert!(store.index().iter().chain(store.text()).all(|&b| b == 0));
}

#[test]
fn clears_23() {
    let mut store = Store::over(vec![1; INDEX_MAX + 1], vec![1; 10]);
    expect(store.clear().unwrap_err(), 23, None, None);
    assert!(store.index().iter().chain(store.text()).all(|&b| b == 1));
    expect(Store::over(vec![1; 10], vec![1; TEXT_MAX + 1]).clear().unwrap_err(), 23, None, None);
    assert!(Store::over(vec![1; INDEX_MAX], vec![1; TEXT_MAX]).clear().is_ok());
}

#[test]
fn as_errors() {
    fn boxed() -> Result<(), Box<dyn std::error::Error + Send + Sync>> {
        Mapping::parse_sdl_mapping(U, &[], &[])?;
        Ok(())
    }
    assert_eq!(boxed().unwrap_err().to_string(), "refused 2: no comma follows the UUID (place 0)");
    assert!("".parse::<Uuid>().unwrap_err().to_string().starts_with("no UUID"));
}
