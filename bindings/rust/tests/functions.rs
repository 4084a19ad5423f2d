//! Every function at its edges: elements, maps, slots, texts, and document 01's sample lines.
use raspteal::ffi::{self, safe};
use raspteal::{text, Axis, AxisOrBtn, AxisRange, Button, Code, Entry, Error, Mapping, MappingData, Uuid, KEYS, KEY_FIRST};

const U: &str = "00000000000000000000000000000000";

fn elements() -> Vec<AxisOrBtn> {
    let axes = Axis::ALL.iter().map(|&a| AxisOrBtn::from(a));
    axes.chain(Button::ALL.iter().map(|&b| AxisOrBtn::from(b))).collect()
}

#[test]
fn buttons() {
    for (n, &b) in (0..).zip(&Button::ALL) {
        assert_eq!((b.number(), Button::from_number(n)), (n, Some(b)));
        let code = match n {
            0 => None,
            1..=15 => Some(Code(0x10130 + u32::from(n) - 1)),
            _ => Some(Code(0x10220 + u32::from(n) - 16)),
        };
        assert_eq!(b.to_nec(), code);
        assert_eq!(b.is_stick(), matches!(b, Button::LeftThumb | Button::RightThumb));
        assert_eq!(b.is_dpad(), n >= 16);
    }
    assert_eq!(Button::from_number(20), None);
    for over in [20, 65535] {
        assert!(!safe::button_to_nec(over).found && !safe::button_is_stick(over) && !safe::button_is_dpad(over));
    }
}

#[test]
fn axes() {
    let second = [None, Some(2), Some(1), None, Some(5), Some(4), None, Some(8), Some(7)];
    for (n, &a) in (0..).zip(&Axis::ALL) {
        assert_eq!((a.number(), Axis::from_number(n)), (n, Some(a)));
        assert_eq!(a.is_stick(), [1, 2, 4, 5].contains(&n));
        assert_eq!(a.second_axis().map(Axis::number), second[usize::from(n)]);
    }
    assert_eq!(Axis::from_number(9), None);
    assert!(!safe::axis_is_stick(9) && !safe::axis_second_axis(9).found);
}

#[test]
fn all_elements() {
    for &e in &elements() {
        assert_eq!(e.is_button(), matches!(e, AxisOrBtn::Btn(_)));
        assert_eq!(AxisOrBtn::from(ffi::Element::from(e)), e);
        for &f in &elements() {
            assert_eq!(safe::element_eq(e.into(), f.into()), e == f);
        }
        match e.ident() {
            Some(name) => assert_eq!(AxisOrBtn::from_key(name), Some(e)),
            None => {
                assert!(ffi::Element::from(e).number == 0 || matches!(e, AxisOrBtn::Axis(Axis::DPadX | Axis::DPadY)))
            }
        }
    }
    assert_eq!(AxisOrBtn::from_key("left"), None);
    assert_eq!(AxisOrBtn::from_key(b"\xff"), None);
    let over = ffi::Element { is_axis: true, number: 9 };
    assert_eq!(AxisOrBtn::from(over), AxisOrBtn::Axis(Axis::Unknown));
    assert!(!safe::element_eq(over, AxisOrBtn::Axis(Axis::Unknown).into()));
}

#[test]
fn texts() {
    assert!(text::same_bytes(b"", b"") && !text::same_bytes(b"ab", b"ac"));
    assert_eq!(text::valid_up_to(b"A\xc3"), 1);
    assert!(text::is_utf8(b"") && !text::is_utf8(b"\xed\xa0\x80"));
    let spelt = [("0", Some(0)), ("+65535", Some(65535)), ("65536", None), ("", None), ("+", None), ("-1", None)];
    for (s, n) in spelt {
        assert_eq!(text::parse_u16(s), n);
    }
    let mut out = [b'.'; 20];
    assert_eq!((text::index_len(0), text::index_len(usize::MAX)), (1, 20));
    assert_eq!(text::write_index(&mut out, 0, usize::MAX), Some(20));
    assert_eq!(out[..], usize::MAX.to_string().into_bytes());
    assert_eq!(text::write_index(&mut out, 20, 0), None);
    assert_eq!(text::write_bytes(&mut out, 20, b""), Some(20));
    assert_eq!(text::write_bytes(&mut out, 21, b""), None);
}

#[test]
fn uuids() {
    let id = Uuid::from_u128(0xf81d4fae7dec11d0a76500a0c91e6bf6);
    let simple = "f81d4fae7dec11d0a76500a0c91e6bf6";
    let hyphens = "f81d4fae-7dec-11d0-a765-00a0c91e6bf6";
    for spelt in [
        simple.into(),
        simple.to_uppercase(),
        hyphens.into(),
        format!("{{{hyphens}}}"),
        format!("urn:uuid:{hyphens}"),
    ] {
        assert_eq!(spelt.parse(), Ok(id));
    }
    for spelt in ["", "xinput", &simple[1..], &format!("{{{simple}}}"), &format!("URN:UUID:{hyphens}")] {
        assert!(spelt.parse::<Uuid>().is_err(), "{spelt}");
    }
    assert_eq!(id.to_string(), simple);
    assert_eq!((id.as_u128(), Uuid::NIL.to_string()), (u128::from_str_radix(simple, 16).unwrap(), U.into()));
}

#[test]
fn maps() {
    let mut map = Mapping::default();
    assert!(map.is_empty() && map.map(Code(0)).is_none() && map.map_rev(Button::Unknown).is_none());
    map.put(Code(9), Button::South).unwrap();
    map.put(Code(3), Axis::LeftZ).unwrap();
    map.put(Code(5), Button::South).unwrap();
    map.put(Code(3), Button::South).unwrap();
    let south = AxisOrBtn::Btn(Button::South);
    assert_eq!(map.iter().collect::<Vec<_>>(), [(Code(3), south), (Code(5), south), (Code(9), south)]);
    assert_eq!((map.map(Code(5)), map.map(Code(4)), map.map_rev(south)), (Some(south), None, Some(Code(3))));
    assert_eq!(format!("{}", map.map_rev(south).unwrap()), "3");
    let entry = safe::entry_new(5, south.into());
    assert_eq!((entry.code, entry.element), (5, south.into()));
    assert_eq!((entry.input, entry.output, entry.inverted), (2, 2, false));
    let half = Entry {
        code: Code(7),
        element: Axis::LeftZ.into(),
        input: AxisRange::LowerHalf,
        output: AxisRange::UpperHalf,
        inverted: true,
    };
    map.put_entry(half).unwrap();
    assert_eq!((map.entry(Code(7)), map.entry(Code(8))), (Some(half), None));
    assert_eq!(map.entries().map(|e| e.code.0).collect::<Vec<_>>(), [3, 5, 7, 9]);
    assert_eq!((half.number(), Entry::of_number(half.number())), (7 << 32 | (1 + 2 * (2 + 4 + 16)) << 16 | 3, half));

    let buttons: Vec<Code> = Button::ALL.iter().filter_map(|b| b.to_nec()).collect();
    let map = Mapping::default_of(&buttons, &[]).unwrap();
    assert!(map.is_default() && map.iter().all(|(code, _)| buttons.contains(&code)));
    assert_eq!((map.len(), map.name_range()), (19, 0..0));
    for (buttons, axes) in [(&[][..], &[][..]), (&[], &[Code(0x10131)])] {
        let map = Mapping::default_of(buttons, axes).unwrap();
        assert!(map.is_default() && map.is_empty());
    }
    let east = Mapping::default_of(&[Code(0x10131)], &[]).unwrap();
    assert_eq!(east.iter().collect::<Vec<_>>(), [(Code(0x10131), Button::East.into())]);
    assert!(format!("{map:?}").starts_with("Mapping { entries: [(Code(65840), Btn(South))"));
}

#[test]
fn keys() {
    let table = Button::key_table();
    for (i, &n) in table.iter().enumerate() {
        let code = Code(KEY_FIRST.0 + i as u32);
        assert_eq!(Button::of_key(code).number(), u16::from(n));
        assert!(n == 0 || Button::of_key(code).to_nec() == Some(code));
    }
    for button in &Button::ALL[1..] {
        assert_eq!(table.iter().filter(|&&n| u16::from(n) == button.number()).count(), 1);
        assert_eq!(Button::of_key(button.to_nec().unwrap()), *button);
    }
    for code in [0, 0x100ff, 0x10300, 0x30000, u32::MAX] {
        assert_eq!(Button::of_key(Code(code)), Button::Unknown);
    }
    let all: Vec<Code> = (0..KEYS as u32).map(|i| Code(KEY_FIRST.0 + i)).collect();
    assert_eq!(Mapping::default_of(&all, &[]).unwrap().len(), 19);
}

#[test]
fn slots() {
    let mut data = MappingData::default();
    for (&b, code) in Button::ALL.iter().zip(1..) {
        assert_eq!((data.button(b), data.insert_btn(Code(code), b)), (None, None));
        assert_eq!((data.button(b), data.insert_btn(Code(0), b)), (Some(Code(code)), Some(Code(code))));
        assert_eq!((data.remove_button(b), data.remove_button(b)), (Some(Code(0)), None));
    }
    for (&a, code) in Axis::ALL.iter().zip(1..) {
        assert_eq!((data.axis(a), data.insert_axis(Code(code), a)), (None, None));
        assert_eq!((data.axis(a), data.insert_axis(Code(0), a)), (Some(Code(code)), Some(Code(code))));
        assert_eq!((data.remove_axis(a), data.remove_axis(a)), (Some(Code(0)), None));
    }
    assert_eq!(data, MappingData::new());

    let mut slots = safe::data_new();
    slots.buttons[1] = ffi::Slot { filled: true, code: 5 };
    assert_eq!(safe::data_button(slots, 1), ffi::Code { found: true, code: 5 });
    slots.buttons[1] = ffi::Slot { filled: false, code: 5 };
    assert_eq!(safe::data_button(slots, 1), ffi::Code { found: false, code: 0 });
    let over = safe::data_insert_btn(safe::data_new(), 5, 20);
    assert!(!over.former.found && over.slots == safe::data_new());
    assert_eq!(safe::data_insert_axis(safe::data_new(), 5, 9).slots, safe::data_new());
    assert!(!safe::data_button(over.slots, 20).found && !safe::data_axis(over.slots, 9).found);
}

/// Document 01's sample lines (a) to (l).
#[test]
fn samples() {
    let (buttons, axes) = ([Code(0x10130), Code(0x10131)], [Code(0x30000)]);
    let south = vec![(Code(0x10131), Button::South.into())];
    let up = vec![(Code(0x10220), Button::DPadUp.into()), (Code(0x30011), Axis::DPadY.into())];
    let accepted = [
        ("", 0, vec![]),
        ("xinput,T,a:b1,", 0, south.clone()),
        (&format!("{U},T,a:,"), 0, vec![]),
        (&format!("{U},T,a:b65535,"), 0, vec![]),
        (&format!("{U},T,dpup:h0.1,"), 1, up),
        (&format!("{U},T,a:h1.3,"), 0, vec![]),
        (&format!("{U},T,a:b+1,"), 0, south.clone()),
    ];
    for (line, hats, entries) in accepted {
        let map = Mapping::parse_sdl_mapping(line, &buttons, &axes).unwrap();
        assert_eq!(
            (map.iter().collect::<Vec<_>>(), map.hats_mapped(), map.is_default()),
            (entries, hats, false),
            "{line}"
        );
        assert_eq!(map.name_in(line), if line.is_empty() { "" } else { "T" });
    }
    let refused = [
        (U.to_string(), Error::UnexpectedEnd { place: 0 }),
        (format!("{U},T,,"), Error::InvalidKeyValPair { place: 35 }),
        (format!("{U},T,a:b65536,"), Error::InvalidValue { place: 35 }),
        (format!("{U},T,a:h0.q"), Error::InvalidValue { place: 38 }),
    ];
    for (line, e) in refused {
        assert_eq!(Mapping::parse_sdl_mapping(line, &buttons, &axes), Err(e));
    }
    let mut data = MappingData::new();
    data.insert_btn(Code(0x10131), Button::South);
    let built = data.build(&buttons, &axes, "T", Uuid::NIL).unwrap();
    assert_eq!(built.line, format!("{U},T,a:b1,"));
    assert_eq!((built.map.iter().collect::<Vec<_>>(), built.map.name_in(&built.line)), (south, "T"));
}
