//! Raw values and pads, by the rows that document 02 gives.
use raspteal::{Axis, AxisOrBtn, AxisRange, Button, Code, Entry, Event, Mapping, Raw};

const HALVES: [AxisRange; 3] = [AxisRange::Full, AxisRange::UpperHalf, AxisRange::LowerHalf];
const EDGES: [i16; 5] = [-32768, -1, 0, 1, 32767];
const NO: Option<i16> = None;

fn is(v: i16) -> Option<i16> {
    Some(v)
}

fn entry(element: impl Into<AxisOrBtn>, input: AxisRange, output: AxisRange, inverted: bool) -> Entry {
    Entry { code: Code(5), element: element.into(), input, output, inverted }
}

/// Input, inverted, and at the edges: a button or an axis's upper output, an axis's lower output, its full output.
type Row = (AxisRange, bool, [Option<i16>; 5], [Option<i16>; 5], [Option<i16>; 5]);

fn table() -> [Row; 6] {
    use AxisRange::{Full, LowerHalf, UpperHalf};
    [
        (
            Full,
            false,
            [is(0), is(16383), is(16383), is(16384), is(32767)],
            [is(0), is(-16383), is(-16384), is(-16384), is(-32768)],
            EDGES.map(is),
        ),
        (
            Full,
            true,
            [is(32767), is(16383), is(16383), is(16382), is(0)],
            [is(-32768), is(-16384), is(-16383), is(-16383), is(0)],
            EDGES.map(|v| is(-1 - v)),
        ),
        (
            UpperHalf,
            false,
            [NO, NO, is(0), is(1), is(32767)],
            [NO, NO, is(0), is(-1), is(-32768)],
            [NO, NO, is(-32768), is(-32766), is(32767)],
        ),
        (
            UpperHalf,
            true,
            [NO, NO, is(32767), is(32766), is(0)],
            [NO, NO, is(-32768), is(-32766), is(0)],
            [NO, NO, is(32767), is(32764), is(-32768)],
        ),
        (
            LowerHalf,
            false,
            [is(32767), is(0), is(0), NO, NO],
            [is(-32768), is(-1), is(0), NO, NO],
            [is(32767), is(-32767), is(-32768), NO, NO],
        ),
        (
            LowerHalf,
            true,
            [is(0), is(32766), is(32767), NO, NO],
            [is(0), is(-32767), is(-32768), NO, NO],
            [is(-32768), is(32765), is(32767), NO, NO],
        ),
    ]
}

#[test]
fn ninety_values_at_the_edges() {
    for (input, inverted, upper, lower, full) in table() {
        let at = |e: Entry| EDGES.map(|v| e.value(Raw::AxisValueChanged(v)));
        for half in HALVES {
            assert_eq!(at(entry(Button::South, input, half, inverted)), upper, "button, {input:?}, {inverted}");
        }
        for (half, want) in [(AxisRange::UpperHalf, upper), (AxisRange::LowerHalf, lower), (AxisRange::Full, full)] {
            assert_eq!(at(entry(Axis::LeftStickX, input, half, inverted)), want, "{input:?}, {half:?}, {inverted}");
        }
    }
}

#[test]
fn raw_buttons_look_at_no_input_and_no_inversion() {
    let kinds = HALVES.into_iter().flat_map(|i| HALVES.into_iter().flat_map(move |h| [false, true].map(|t| (i, h, t))));
    for (input, half, inverted) in kinds {
        let (button, axis) = (entry(Button::South, input, half, inverted), entry(Axis::LeftZ, input, half, inverted));
        assert_eq!(button.value(Raw::ButtonPressed), Some(32767));
        assert_eq!(axis.value(Raw::ButtonPressed), Some(if half == AxisRange::LowerHalf { -32768 } else { 32767 }));
        assert_eq!((button.value(Raw::ButtonReleased), axis.value(Raw::ButtonReleased)), (Some(0), Some(0)));
    }
}

#[test]
fn events_of_a_map() {
    let mut map = Mapping::new();
    map.put_entry(entry(Axis::LeftStickX, AxisRange::UpperHalf, AxisRange::Full, false)).unwrap();
    map.put(Code(3), Button::Unknown).unwrap();
    let stick = |value| Some(Event { element: Axis::LeftStickX.into(), value });
    assert_eq!(map.event(Code(5), Raw::AxisValueChanged(1)), stick(-32766));
    assert_eq!(map.event(Code(5), Raw::ButtonPressed), stick(32767));
    assert_eq!(map.event(Code(5), Raw::AxisValueChanged(-1)), None);
    assert_eq!(map.event(Code(4), Raw::ButtonPressed), None);
    let unknown = Event { element: Button::Unknown.into(), value: 32767 };
    assert_eq!(map.event(Code(3), Raw::ButtonPressed), Some(unknown));
    assert_eq!(Mapping::new().event(Code(0), Raw::ButtonPressed), None);
}
