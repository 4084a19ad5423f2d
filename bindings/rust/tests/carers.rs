//! Two pads for one player, by the words of document 02, P14.
use raspteal::ffi::{self, safe};
use raspteal::{Axis, AxisOrBtn, Button, Code, Error, Events, Mapping, Pads, Raw, Which};
use Raw::{AxisValueChanged, ButtonPressed, ButtonReleased};
use Which::{First, Second};

const SOUTH: AxisOrBtn = AxisOrBtn::Btn(Button::South);
const STICK: AxisOrBtn = AxisOrBtn::Axis(Axis::LeftStickX);

fn map_of(entries: &[(u32, AxisOrBtn)]) -> Mapping {
    let mut map = Mapping::new();
    for (code, element) in entries {
        map.put(Code(*code), *element).unwrap();
    }
    map
}

/// The player's pad and the carer's, under maps of their own.
fn pads() -> Pads {
    let mut pads = Pads::new();
    assert_eq!(pads.change_map(First, &map_of(&[(1, SOUTH), (2, STICK)])).len(), 0);
    assert_eq!(pads.change_map(Second, &map_of(&[(1, STICK), (7, SOUTH)])).len(), 0);
    pads
}

fn told(events: Events) -> Vec<(AxisOrBtn, i16)> {
    events.map(|e| (e.element, e.value)).collect()
}

fn raw(pads: &mut Pads, which: Which, code: u32, raw: Raw) -> Vec<(AxisOrBtn, i16)> {
    told(pads.raw_event(which, Code(code), raw).unwrap())
}

#[test]
fn a_carer_plays_along() {
    let mut pads = pads();
    // the carer holds the button while the player presses and lets go
    assert_eq!(raw(&mut pads, Second, 7, ButtonPressed), [(SOUTH, 32767)]);
    assert_eq!(raw(&mut pads, First, 1, ButtonPressed), []);
    assert_eq!(raw(&mut pads, First, 1, ButtonReleased), []);
    assert_eq!(pads.value(Button::South), 32767);
    assert_eq!(raw(&mut pads, Second, 7, ButtonReleased), [(SOUTH, 0)]);
    // the player leans the stick, the carer leans it farther, and then less
    assert_eq!(raw(&mut pads, First, 2, AxisValueChanged(100)), [(STICK, 100)]);
    assert_eq!(raw(&mut pads, Second, 1, AxisValueChanged(-200)), [(STICK, -200)]);
    assert_eq!(raw(&mut pads, Second, 1, AxisValueChanged(-99)), [(STICK, 100)]);
    assert_eq!(raw(&mut pads, Second, 1, AxisValueChanged(0)), []);
}

#[test]
fn the_first_pad_between_equals() {
    let mut both = pads();
    assert_eq!(raw(&mut both, First, 2, AxisValueChanged(-5)), [(STICK, -5)]);
    assert_eq!(raw(&mut both, Second, 1, AxisValueChanged(5)), []);
    assert_eq!(both.value(Axis::LeftStickX), -5);
    let mut both = pads();
    assert_eq!(raw(&mut both, Second, 1, AxisValueChanged(5)), [(STICK, 5)]);
    assert_eq!(raw(&mut both, First, 2, AxisValueChanged(-5)), [(STICK, -5)]);
    // -32768 is farther than 32767
    assert_eq!(raw(&mut both, First, 2, AxisValueChanged(32767)), [(STICK, 32767)]);
    assert_eq!(raw(&mut both, Second, 1, AxisValueChanged(-32768)), [(STICK, -32768)]);
}

#[test]
fn a_map_of_one_pad() {
    let mut pads = pads();
    raw(&mut pads, First, 1, ButtonPressed);
    raw(&mut pads, Second, 7, ButtonPressed);
    // the other pad holds South still; then nobody does
    assert_eq!(told(pads.change_map(First, &Mapping::new())), []);
    assert_eq!(told(pads.change_map(Second, &map_of(&[(7, STICK)]))), [(SOUTH, 0), (STICK, 32767)]);
    assert_eq!((pads.value(Button::South), pads.value(Button::Unknown)), (0, 0));
}

#[test]
fn codes_of_each_pad_alone() {
    let mut pads = pads();
    for code in 0..256 {
        raw(&mut pads, First, code, ButtonReleased);
        raw(&mut pads, Second, code, ButtonReleased);
    }
    let before = pads.clone();
    for which in [First, Second] {
        let refused = pads.raw_event(which, Code(256), ButtonPressed).unwrap_err();
        assert_eq!((refused, refused.number()), (Error::PadFull, 27));
        assert_eq!(pads, before);
        assert_eq!(pads.pad(which).held().count(), 256);
    }
    let mut one = Pads::new();
    for code in 0..256 {
        raw(&mut one, Second, code, ButtonReleased);
    }
    assert!(one.raw_event(First, Code(256), ButtonPressed).is_ok());
    let told = safe::pads_raw_event(safe::pads_new(), true, 5, 1, 0);
    assert_eq!((told.pads.first.count, told.pads.second.count, told.count), (0, 1, 0));
    assert_eq!(safe::pads_value(told.pads, ffi::Element { is_axis: true, number: 9 }), 0);
}

/// All 20 orders of three events of each pad end with the same values, and the reader holds them.
#[test]
fn all_interleavings_end_alike() {
    let lists = [
        [(1, ButtonPressed), (2, AxisValueChanged(-7)), (1, ButtonReleased)],
        [(1, AxisValueChanged(7)), (7, ButtonPressed), (1, AxisValueChanged(6))],
    ];
    let mut orders = 0;
    for order in (0..64u32).filter(|bits| bits.count_ones() == 3) {
        let (mut pads, mut next, mut reader) = (pads(), [0, 0], [0, 0]);
        for k in 0..6 {
            let which = (order >> k & 1) as usize;
            let (code, event) = lists[which][next[which]];
            next[which] += 1;
            for (element, value) in raw(&mut pads, [First, Second][which], code, event) {
                reader[(element == STICK) as usize] = value;
            }
        }
        assert_eq!((pads.value(Button::South), pads.value(Axis::LeftStickX)), (32767, -7), "order {order:b}");
        assert_eq!(reader, [32767, -7]);
        orders += 1;
    }
    assert_eq!(orders, 20);
}
