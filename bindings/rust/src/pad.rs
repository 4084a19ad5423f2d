//! From raw values to element values, and a pad while a game runs.
use crate::error::Error;
use crate::ffi::{self, safe};
use crate::{AxisOrBtn, Code, Entry, Mapping};
use std::fmt;

/// What a pad reports of a code: the event says whether it is a button's or an axis's, not the code.
#[derive(Clone, Copy, Debug, PartialEq, Eq, Hash)]
pub enum Raw {
    /// A button that is released.
    ButtonReleased,
    /// A button that is pressed.
    ButtonPressed,
    /// An axis value.
    AxisValueChanged(i16),
}

impl Raw {
    pub(crate) fn flat(self) -> (u8, i16) {
        match self {
            Raw::ButtonReleased => (0, 0),
            Raw::ButtonPressed => (1, 0),
            Raw::AxisValueChanged(v) => (2, v),
        }
    }

    /// As a pad holds it: 0 released, 1 pressed, from 2 on an axis value counted from -32768.
    fn of_number(x: u32) -> Raw {
        match x {
            0 => Raw::ButtonReleased,
            1 => Raw::ButtonPressed,
            x => Raw::AxisValueChanged(((x - 2) as u16 ^ 0x8000) as i16),
        }
    }
}

/// An element's value, -32768 to 32767; a button's is 0 to 32767.
#[derive(Clone, Copy, Debug, PartialEq, Eq, Hash)]
pub struct Event {
    /// The element.
    pub element: AxisOrBtn,
    /// Its value.
    pub value: i16,
}

impl Entry {
    /// What a raw value gives to the element, if anything: an axis value on the wrong side of a half input gives
    /// nothing.
    ///
    /// ```
    /// use raspteal::{AxisRange, Button, Code, Entry, Raw};
    ///
    /// let (code, element) = (Code(0x30002), Button::RightTrigger2.into());
    /// let pedal = Entry { code, element, input: AxisRange::UpperHalf, output: AxisRange::Full, inverted: false };
    /// assert_eq!(pedal.value(Raw::AxisValueChanged(32767)), Some(32767));
    /// assert_eq!(pedal.value(Raw::AxisValueChanged(-1)), None);
    /// ```
    pub fn value(self, raw: Raw) -> Option<i16> {
        let (raw, v) = raw.flat();
        let r = safe::entry_value(self.into(), raw, v);
        r.found.then_some(r.value)
    }
}

impl Mapping {
    /// What a raw value of a code gives: its element and the value. A code outside the map gives nothing.
    pub fn event(&self, code: Code, raw: Raw) -> Option<Event> {
        let (raw, v) = raw.flat();
        let r = safe::mapping_event(self.flat(), code.0, raw, v);
        r.found.then(|| Event { element: r.element.into(), value: r.value })
    }
}

/// A pad while a game runs: the codes that it has reported with their last raw values, and its map.
///
/// The value of an element is, of the values that the held codes give it by the map, the one farthest from zero, between
/// equal distances that of the smallest code, and 0 if there is none. A raw event and a change of map give an event for
/// each element whose value changed: a program that starts with every element at 0 and takes each event's value holds
/// the values of all elements. Elements other than buttons 1 to 19 and axes 1 to 8 are left out.
///
/// ```
/// use raspteal::{Button, Code, Mapping, Pad, Raw};
///
/// let mut game = Mapping::new();
/// game.put(Code(0x10137), Button::RightTrigger).unwrap();
/// let mut pad = Pad::new();
/// assert_eq!(pad.change_map(&game).count(), 0);
/// let pressed: Vec<_> = pad.raw_event(Code(0x10137), Raw::ButtonPressed).unwrap().collect();
/// assert_eq!((pressed[0].element, pressed[0].value), (Button::RightTrigger.into(), 32767));
/// // another map, while the button is held: the trigger is let go
/// let changed: Vec<_> = pad.change_map(&Mapping::new()).collect();
/// assert_eq!((changed[0].element, changed[0].value), (Button::RightTrigger.into(), 0));
/// ```
#[derive(Clone, PartialEq, Eq)]
pub struct Pad(ffi::Pad);

impl Pad {
    /// No codes and the empty map.
    pub fn new() -> Pad {
        Pad(safe::pad_new())
    }

    /// A raw value of a code, and the event of its element, if that has another value now. Refusal: 27, a 257th code,
    /// the pad as it was.
    pub fn raw_event(&mut self, code: Code, raw: Raw) -> Result<Events, Error> {
        let (raw, v) = raw.flat();
        let told = safe::pad_raw_event(self.0, code.0, raw, v);
        Error::check(told.refusal)?;
        Ok(self.told(told))
    }

    /// Another map, and an event for each element that has another value now.
    pub fn change_map(&mut self, map: &Mapping) -> Events {
        let told = safe::pad_change_map(self.0, map.flat());
        self.told(told)
    }

    fn told(&mut self, told: ffi::Told) -> Events {
        self.0 = told.pad;
        Events { list: told.events, next: 0, count: told.count }
    }

    /// The value of an element; 0 for one that is left out.
    pub fn value(&self, element: impl Into<AxisOrBtn>) -> i16 {
        safe::pad_value(self.0, element.into().into())
    }

    /// The codes that the pad has reported, in the order of their first events, with their last raw values.
    pub fn held(&self) -> impl Iterator<Item = (Code, Raw)> + '_ {
        self.0.held.iter().take(self.0.count).map(|x| (Code((x >> 32) as u32), Raw::of_number(*x as u32)))
    }

    /// The entries of the map.
    pub fn entries(&self) -> impl Iterator<Item = Entry> + '_ {
        self.0.entries.iter().take(self.0.entry_count).map(|x| Entry::of_number(*x))
    }
}

impl Default for Pad {
    fn default() -> Pad {
        Pad::new()
    }
}

impl fmt::Debug for Pad {
    fn fmt(&self, f: &mut fmt::Formatter) -> fmt::Result {
        let (held, entries): (Vec<_>, Vec<_>) = (self.held().collect(), self.entries().collect());
        f.debug_struct("Pad").field("held", &held).field("entries", &entries).finish()
    }
}

/// The pad that a call is for.
#[derive(Clone, Copy, Debug, PartialEq, Eq, Hash)]
pub enum Which {
    /// The first pad, whose value counts between equal distances.
    First,
    /// The pad that plays along.
    Second,
}

/// Two pads for one player: a carer plays along with a second one.
///
/// The value of an element is, of the two pads' values, the one farther from zero, and the first pad's between equal
/// distances. The events are those of these values.
///
/// ```
/// use raspteal::{Axis, Code, Mapping, Pads, Raw, Which};
///
/// let mut map = Mapping::new();
/// map.put(Code(0x30000), Axis::LeftStickX).unwrap();
/// let mut pads = Pads::new();
/// pads.change_map(Which::First, &map);
/// pads.change_map(Which::Second, &map);
/// pads.raw_event(Which::First, Code(0x30000), Raw::AxisValueChanged(-5)).unwrap();
/// // as far from zero as the first pad's: that one stays
/// assert_eq!(pads.raw_event(Which::Second, Code(0x30000), Raw::AxisValueChanged(5)).unwrap().count(), 0);
/// assert_eq!(pads.value(Axis::LeftStickX), -5);
/// ```
#[derive(Clone, Debug, PartialEq, Eq)]
pub struct Pads {
    first: Pad,
    second: Pad,
}

impl Pads {
    /// No codes and the empty map, on both pads.
    pub fn new() -> Pads {
        Pads::of(safe::pads_new())
    }

    fn of(pads: ffi::Pads) -> Pads {
        Pads { first: Pad(pads.first), second: Pad(pads.second) }
    }

    fn flat(&self) -> ffi::Pads {
        ffi::Pads { first: self.first.0, second: self.second.0 }
    }

    /// A raw value of a code of one pad, and the event of its element, if that has another value now. Refusal: 27, a
    /// 257th code of that pad, the pads as they were.
    pub fn raw_event(&mut self, which: Which, code: Code, raw: Raw) -> Result<Events, Error> {
        let (raw, v) = raw.flat();
        let told = safe::pads_raw_event(self.flat(), which == Which::Second, code.0, raw, v);
        Error::check(told.refusal)?;
        Ok(self.told(told))
    }

    /// Another map for one pad, and an event for each element that has another value now.
    pub fn change_map(&mut self, which: Which, map: &Mapping) -> Events {
        let told = safe::pads_change_map(self.flat(), which == Which::Second, map.flat());
        self.told(told)
    }

    fn told(&mut self, told: ffi::PadsTold) -> Events {
        *self = Pads::of(told.pads);
        Events { list: told.events, next: 0, count: told.count }
    }

    /// The value of an element; 0 for one that is left out.
    pub fn value(&self, element: impl Into<AxisOrBtn>) -> i16 {
        safe::pads_value(self.flat(), element.into().into())
    }

    /// One of the two.
    pub fn pad(&self, which: Which) -> &Pad {
        match which {
            Which::First => &self.first,
            Which::Second => &self.second,
        }
    }
}

impl Default for Pads {
    fn default() -> Pads {
        Pads::new()
    }
}

/// The events of a call: one for each element whose value changed, buttons then axes, ascending.
#[derive(Clone, Debug)]
pub struct Events {
    list: [ffi::Event; ffi::ELEMENTS],
    next: usize,
    count: usize,
}

impl Iterator for Events {
    type Item = Event;

    fn next(&mut self) -> Option<Event> {
        let e = self.list[..self.count].get(self.next)?;
        self.next += 1;
        Some(Event { element: e.element.into(), value: e.value })
    }

    fn size_hint(&self) -> (usize, Option<usize>) {
        (self.count - self.next, Some(self.count - self.next))
    }
}

impl ExactSizeIterator for Events {}
