//! A pad while a game runs, by the words of document 02, P13: each of them with its smallest input.
use raspteal::ffi::{self, safe};
use raspteal::{Axis, AxisOrBtn, AxisRange, Button, Code, Entry, Error, Mapping, Pad, Raw, HELD_MAX};
use Raw::{AxisValueChanged, ButtonPressed, ButtonReleased};

/// Buttons 1 to 19, then axes 1 to 8.
fn elements() -> Vec<AxisOrBtn> {
    let buttons = Button::ALL[1..].iter().map(|b| AxisOrBtn::Btn(*b));
    buttons.chain(Axis::ALL[1..].iter().map(|a| AxisOrBtn::Axis(*a))).collect()
}

/// A pad with an outside reader of its events, who starts with every element at 0.
struct Game {
    pad: Pad,
    reader: Vec<i16>,
}

type Told = Vec<(AxisOrBtn, i16)>;

impl Game {
    fn new(map: &Mapping) -> Game {
        let mut game = Game { pad: Pad::new(), reader: vec![0; 27] };
        assert_eq!(game.map(map), []);
        game
    }

    /// The events, once the reader has heard them: one for each element at most, in order, and what he holds is right.
    fn hear(&mut self, events: raspteal::Events) -> Told {
        let (all, told): (Vec<AxisOrBtn>, Told) = (elements(), events.map(|e| (e.element, e.value)).collect());
        let places: Vec<usize> = told.iter().map(|e| all.iter().position(|x| *x == e.0).unwrap()).collect();
        assert!(places.windows(2).all(|w| w[0] < w[1]));
        for (place, (_, value)) in places.iter().zip(&told) {
            assert_ne!(self.reader[*place], *value, "an event for an element that did not change");
            self.reader[*place] = *value;
        }
        assert_eq!(self.reader, all.iter().map(|e| self.pad.value(*e)).collect::<Vec<_>>());
        told
    }

    fn raw(&mut self, code: u32, raw: Raw) -> Told {
        let events = self.pad.raw_event(Code(code), raw).unwrap();
        assert!(events.len() <= 1);
        self.hear(events)
    }

    fn map(&mut self, map: &Mapping) -> Told {
        let events = self.pad.change_map(map);
        self.hear(events)
    }
}

fn map_of(entries: &[(u32, AxisOrBtn)]) -> Mapping {
    let mut map = Mapping::new();
    for (code, element) in entries {
        map.put(Code(*code), *element).unwrap();
    }
    map
}

fn ranged(code: u32, element: impl Into<AxisOrBtn>, input: AxisRange, output: AxisRange) -> Mapping {
    let mut map = Mapping::new();
    map.put_entry(Entry { code: Code(code), element: element.into(), input, output, inverted: false }).unwrap();
    map
}

const SOUTH: AxisOrBtn = AxisOrBtn::Btn(Button::South);
const EAST: AxisOrBtn = AxisOrBtn::Btn(Button::East);
const STICK: AxisOrBtn = AxisOrBtn::Axis(Axis::LeftStickX);
const OTHER: AxisOrBtn = AxisOrBtn::Axis(Axis::LeftStickY);

#[test]
fn the_stuck_trigger() {
    let trigger = AxisOrBtn::Btn(Button::RightTrigger2);
    let (a, b) = (map_of(&[(7, trigger)]), map_of(&[(8, trigger), (7, SOUTH)]));
    let mut game = Game::new(&a);
    assert_eq!(game.raw(7, ButtonPressed), [(trigger, 32767)]);
    assert_eq!(game.map(&b), [(SOUTH, 32767), (trigger, 0)]);
    assert_eq!(game.raw(7, ButtonReleased), [(SOUTH, 0)]);
    assert_eq!(game.map(&a), []);
    assert_eq!(game.reader, [0; 27]);
}

#[test]
fn held_from_the_first_event_on() {
    let mut game = Game::new(&map_of(&[(0, SOUTH)]));
    game.raw(0, ButtonPressed);
    game.raw(0, ButtonReleased);
    for code in 1..HELD_MAX as u32 {
        game.raw(code, if code % 2 == 0 { ButtonReleased } else { AxisValueChanged(0) });
    }
    let before = game.pad.clone();
    let codes: Vec<u32> = before.held().map(|h| h.0 .0).collect();
    assert_eq!(codes, (0..256).collect::<Vec<u32>>());
    let refused = game.pad.raw_event(Code(256), ButtonPressed).unwrap_err();
    assert_eq!((refused, refused.number(), refused.place(), refused.code()), (Error::PadFull, 27, None, None));
    assert_eq!(refused.to_string(), "refused 27: more than 256 codes held by a pad");
    assert_eq!(game.pad, before);
    assert_eq!(game.raw(0, ButtonPressed), [(SOUTH, 32767)]);
    assert_eq!(game.raw(255, AxisValueChanged(9)), []);
}

#[test]
fn a_refusal_tells_nothing() {
    let mut pad = safe::pad_new();
    for code in 0..256 {
        pad = safe::pad_raw_event(pad, code, 1, 0).pad;
    }
    let told = safe::pad_raw_event(pad, 256, 1, 0);
    assert_eq!((told.refusal.number, told.refusal.has_place, told.refusal.has_code), (27, false, false));
    assert_eq!((told.pad, told.count), (pad, 0));
    assert!(told.events.iter().all(|e| *e == unused()));
}

fn unused() -> ffi::Event {
    ffi::Event { element: ffi::Element { is_axis: false, number: 0 }, value: 0 }
}

#[test]
fn the_last_raw_value_of_a_code() {
    let mut game = Game::new(&map_of(&[(5, STICK)]));
    assert_eq!(game.raw(5, ButtonPressed), [(STICK, 32767)]);
    assert_eq!(game.raw(5, AxisValueChanged(7)), [(STICK, 7)]);
    assert_eq!(game.pad.held().collect::<Vec<_>>(), [(Code(5), AxisValueChanged(7))]);
    assert_eq!(game.raw(5, AxisValueChanged(7)), []);
    assert_eq!(game.raw(5, AxisValueChanged(-32768)), [(STICK, -32768)]);
    assert_eq!(game.pad.held().collect::<Vec<_>>(), [(Code(5), AxisValueChanged(-32768))]);
}

#[test]
fn no_value_has_its_event() {
    let mut game = Game::new(&ranged(5, SOUTH, AxisRange::UpperHalf, AxisRange::Full));
    assert_eq!(game.raw(5, AxisValueChanged(100)), [(SOUTH, 100)]);
    assert_eq!(game.raw(5, AxisValueChanged(-5)), [(SOUTH, 0)]);
    assert_eq!(game.raw(5, AxisValueChanged(-6)), []);
    assert_eq!(game.pad.held().next(), Some((Code(5), AxisValueChanged(-6))));
}

#[test]
fn the_farthest_from_zero() {
    let mut game = Game::new(&map_of(&[(5, STICK), (9, STICK)]));
    assert_eq!(game.raw(5, AxisValueChanged(32767)), [(STICK, 32767)]);
    assert_eq!(game.raw(9, AxisValueChanged(-32768)), [(STICK, -32768)]);
    // equal distances: that of the smaller code, whatever the order of events or of the map
    assert_eq!(game.raw(9, AxisValueChanged(7)), [(STICK, 32767)]);
    assert_eq!(game.raw(5, AxisValueChanged(-7)), [(STICK, -7)]);
    let mut game = Game::new(&map_of(&[(9, STICK), (5, STICK)]));
    assert_eq!(game.raw(9, AxisValueChanged(7)), [(STICK, 7)]);
    assert_eq!(game.raw(5, AxisValueChanged(-7)), [(STICK, -7)]);
}

#[test]
fn elements_that_are_left_out() {
    let mut game = Game::new(&map_of(&[(5, Button::Unknown.into()), (6, Axis::Unknown.into())]));
    assert_eq!(game.raw(5, ButtonPressed), []);
    assert_eq!(game.raw(6, AxisValueChanged(-9)), []);
    assert_eq!((game.pad.value(Button::Unknown), game.pad.value(Axis::Unknown)), (0, 0));
    assert_eq!(game.map(&map_of(&[(5, Button::DPadRight.into()), (6, Axis::DPadY.into())])).len(), 2);
    for (is_axis, number) in [(false, 20), (true, 9), (false, 65535)] {
        assert_eq!(safe::pad_value(safe::pad_new(), ffi::Element { is_axis, number }), 0);
    }
}

#[test]
fn a_code_outside_the_map() {
    let mut game = Game::new(&Mapping::new());
    assert_eq!(game.raw(5, ButtonPressed), []);
    assert_eq!(game.map(&map_of(&[(5, EAST)])), [(EAST, 32767)]);
    assert_eq!(game.map(&map_of(&[(5, EAST)])), []);
    assert_eq!(game.map(&Mapping::new()), [(EAST, 0)]);
}

#[test]
fn buttons_then_axes() {
    let all = elements();
    let map = map_of(&all.iter().rev().enumerate().map(|(k, e)| (k as u32, *e)).collect::<Vec<_>>());
    let mut game = Game::new(&Mapping::new());
    for code in 0..27 {
        assert_eq!(game.raw(code, ButtonPressed), []);
    }
    assert_eq!(game.map(&map), all.iter().map(|e| (*e, 32767)).collect::<Told>());
    assert_eq!(game.map(&Mapping::new()), all.iter().map(|e| (*e, 0)).collect::<Told>());
}

#[test]
fn a_rest_that_is_not_zero() {
    let mut game = Game::new(&map_of(&[(5, SOUTH)]));
    assert_eq!(game.raw(5, AxisValueChanged(0)), [(SOUTH, 16383)]);
    assert_eq!(game.map(&map_of(&[(6, SOUTH)])), [(SOUTH, 0)]);
}

#[test]
fn one_element_from_another() {
    let mut game = Game::new(&map_of(&[(5, STICK)]));
    game.raw(5, AxisValueChanged(-3));
    assert_eq!(game.map(&map_of(&[(5, OTHER)])), [(STICK, 0), (OTHER, -3)]);
}

#[test]
fn a_map_as_it_is() {
    // not ascending, a code doubled: the first entry counts; a count of 300 is read as 256
    let mut map = safe::mapping_new();
    map.count = 300;
    for (k, (code, number)) in [(9, 1), (5, 2), (9, 3)].into_iter().enumerate() {
        map.entries[k] = safe::entry_new(code, ffi::Element { is_axis: false, number });
    }
    let told = safe::pad_change_map(safe::pad_new(), map);
    assert_eq!((told.refusal.number, told.count, told.pad.entry_count), (0, 0, 256));
    let told = safe::pad_raw_event(told.pad, 9, 1, 0);
    let south = ffi::Element { is_axis: false, number: 1 };
    assert_eq!((told.count, told.events[0]), (1, ffi::Event { element: south, value: 32767 }));
    assert!(told.events[1..].iter().all(|e| *e == unused()));
}

#[test]
fn a_made_up_state() {
    // a code doubled among the held ones: each counts for values, and a raw event replaces the first
    let stick = safe::entry_number(safe::entry_new(5, ffi::Element { is_axis: true, number: 1 }));
    let mut pad = safe::pad_new();
    (pad.count, pad.entry_count, pad.entries[0]) = (2, 1, stick);
    (pad.held[0], pad.held[1]) = ((5 << 32) + 32770 + 3, (5 << 32) + 32770 - 8);
    let e = ffi::Element { is_axis: true, number: 1 };
    assert_eq!(safe::pad_value(pad, e), -8);
    let told = safe::pad_raw_event(pad, 5, 2, 100);
    assert_eq!((told.pad.count, told.pad.held[0], told.pad.held[1]), (2, (5 << 32) + 32870, pad.held[1]));
    assert_eq!((told.count, told.events[0].value), (1, 100));
    // a count over 256 is read as 256
    pad.count = 1000;
    assert_eq!(safe::pad_value(pad, e), -8);
    assert_eq!(safe::pad_raw_event(pad, 0, 1, 0).pad.count, 256);
    assert_eq!(safe::pad_raw_event(pad, 6, 1, 0).refusal.number, 27);
}
