//! Document 02 on plain data: a second program for what no Rust has.
use crate::doc01;
use crate::plain::{Entry, Uuid, AXIS};
use std::cmp::Ordering;

/// A half of an axis as the C side numbers it: 0 lower, 1 upper, another number all of it.
const LOWER: u8 = 0;
const UPPER: u8 = 1;

/// What a pad reports of a code.
#[derive(Clone, Copy, Debug, PartialEq, Eq)]
pub enum Raw {
    Released,
    Pressed,
    Axis(i16),
}

/// P3: the value that a raw value gives to the element of an entry.
pub fn value((_, element, (input, output, inverted)): Entry, raw: Raw) -> Option<i16> {
    let axis = element >= AXIS;
    let v = match raw {
        Raw::Released => return Some(0),
        Raw::Pressed => return Some(if axis && output == LOWER { -32768 } else { 32767 }),
        Raw::Axis(v) => v as i64,
    };
    let (n, d) = match input {
        UPPER if v < 0 => return None,
        LOWER if v > 0 => return None,
        UPPER => (v, 32767),
        LOWER => (-v, 32768),
        _ => (v + 32768, 65535),
    };
    let n = if inverted { d - n } else { n };
    let x = match output {
        _ if !axis => n * 32767 / d,
        UPPER => n * 32767 / d,
        LOWER => -(n * 32768 / d),
        _ => n * 65535 / d - 32768,
    };
    Some(i16::try_from(x).expect("a value within 16 bits"))
}

/// P3: the element and the value of a raw value of a code, by the first entry of that code.
pub fn event(entries: &[Entry], code: u32, raw: Raw) -> Option<(u16, i16)> {
    let e = entries.iter().find(|e| e.0 == code)?;
    Some((e.1, value(*e, raw)?))
}

/// P5: a UUID with bytes 2 and 3 zero.
pub fn without_checksum(mut uuid: Uuid) -> Uuid {
    uuid[2] = 0;
    uuid[3] = 0;
    uuid
}

/// P5: how a line is held under a UUID, 0 not, 1 exact, 2 near, and the line, by a look-up that knows no checksum.
pub fn near(uuid: Uuid, get: impl Fn(Uuid) -> Option<Vec<u8>>) -> (u8, Vec<u8>) {
    match (get(uuid), get(without_checksum(uuid))) {
        (Some(line), _) => (1, line),
        (None, Some(line)) => (2, line),
        (None, None) => (0, Vec::new()),
    }
}

/// Elements that a pad has events for: buttons 1 to 19, then axes 1 to 8.
pub fn elements() -> impl Iterator<Item = u16> {
    (1..=19).chain(AXIS + 1..=AXIS + 8)
}

/// The most codes that a pad holds.
pub const HELD_MAX: usize = 256;

/// P13: a pad while a game runs, as the numbers that the library keeps. Nothing is kept that follows from them.
#[derive(Clone, Debug, PartialEq, Eq)]
pub struct Pad {
    pub count: usize,
    pub held: Vec<u64>,
    pub entry_count: usize,
    pub entries: Vec<u64>,
}

/// A raw value as a number: 0 released, 1 pressed, from 2 on an axis value counted from -32768.
fn raw_number(raw: Raw) -> u64 {
    match raw {
        Raw::Released => 0,
        Raw::Pressed => 1,
        Raw::Axis(v) => (v as i64 + 32770) as u64,
    }
}

fn raw_of(x: u64) -> Raw {
    match x % (1 << 32) {
        0 => Raw::Released,
        1 => Raw::Pressed,
        y => Raw::Axis((((y - 2) % 65536) as i64 - 32768) as i16),
    }
}

/// An entry as a number: code, shape and element; in a shape full is 0, upper 1, lower 2.
fn entry_number((code, element, (input, output, inverted)): Entry) -> u64 {
    let half = |h| match h {
        LOWER => 2,
        UPPER => 1,
        _ => 0,
    };
    let shape = (element >= AXIS) as u64 + 2 * (half(input) + 4 * half(output) + 16 * inverted as u64);
    ((code as u64) << 32) + (shape << 16) + (element % AXIS) as u64
}

fn entry_of(x: u64) -> Entry {
    let half = |k| match k % 4 {
        0 => 2,
        1 => UPPER,
        _ => LOWER,
    };
    let (shape, number) = (x >> 16 & 0xffff, x & 0xffff);
    // an element that has no number here is left out all the same
    let number = if number < 200 { number as u16 } else { 200 };
    let element = if shape % 2 == 1 { AXIS + number } else { number };
    ((x >> 32) as u32, element, (half(shape / 2), half(shape / 8), shape / 32 % 2 == 1))
}

/// Of two values with their codes: the farther from zero, between equal distances that of the smaller code.
fn farther(a: (u32, i16), b: (u32, i16)) -> (u32, i16) {
    let far = |v: i16| (v as i32).abs();
    match far(a.1).cmp(&far(b.1)) {
        Ordering::Greater => a,
        Ordering::Less => b,
        Ordering::Equal if a.0 < b.0 => a,
        Ordering::Equal => b,
    }
}

impl Pad {
    pub fn new() -> Pad {
        Pad { count: 0, held: vec![0; HELD_MAX], entry_count: 0, entries: vec![0; HELD_MAX] }
    }

    /// A count over 256 is read as 256.
    fn codes(&self) -> &[u64] {
        &self.held[..self.count.min(HELD_MAX)]
    }

    /// The value of an element. Of a code that stands twice among the held ones, which no call makes, each counts, and
    /// the later one between equals.
    pub fn value(&self, element: u16) -> i16 {
        let entries: Vec<Entry> = self.entries.iter().take(self.entry_count).map(|x| entry_of(*x)).collect();
        let of = |h: &u64| {
            let code = (h >> 32) as u32;
            let e = entries.iter().find(|e| e.0 == code).filter(|e| e.1 == element)?;
            value(*e, raw_of(*h)).map(|v| (code, v))
        };
        self.codes().iter().rev().filter_map(of).reduce(|best, h| farther(h, best)).map_or(0, |b| b.1)
    }

    pub fn values(&self) -> Vec<i16> {
        elements().map(|e| self.value(e)).collect()
    }

    /// 27 where it is a 257th code; else the events.
    pub fn raw_event(&mut self, code: u32, raw: Raw) -> Option<Vec<(u16, i16)>> {
        let (before, number) = (self.values(), self.codes().len());
        let place = self.codes().iter().position(|h| (h >> 32) as u32 == code).unwrap_or(number);
        if place == HELD_MAX {
            return None;
        }
        self.held[place] = ((code as u64) << 32) + raw_number(raw);
        self.count = number.max(place + 1);
        Some(changes(&before, &self.values()))
    }

    pub fn change_map(&mut self, entries: &[Entry]) -> Vec<(u16, i16)> {
        let before = self.values();
        self.entry_count = entries.len();
        self.entries = entries.iter().map(|e| entry_number(*e)).chain([0; HELD_MAX]).take(HELD_MAX).collect();
        changes(&before, &self.values())
    }
}

/// One event per element whose value changed.
pub fn changes(before: &[i16], after: &[i16]) -> Vec<(u16, i16)> {
    elements().zip(before.iter().zip(after)).filter(|(_, (a, b))| a != b).map(|(e, (_, b))| (e, *b)).collect()
}

/// P14: two pads for one player.
#[derive(Clone, Debug, PartialEq, Eq)]
pub struct Pads(pub [Pad; 2]);

impl Pads {
    pub fn new() -> Pads {
        Pads([Pad::new(), Pad::new()])
    }

    /// Of the two values the one farther from zero, and the first pad's between equals.
    pub fn value(&self, element: u16) -> i16 {
        let [a, b] = [self.0[0].value(element), self.0[1].value(element)];
        if (b as i32).abs() > (a as i32).abs() { b } else { a }
    }

    pub fn values(&self) -> Vec<i16> {
        elements().map(|e| self.value(e)).collect()
    }

    pub fn raw_event(&mut self, second: bool, code: u32, raw: Raw) -> Option<Vec<(u16, i16)>> {
        let before = self.values();
        self.0[second as usize].raw_event(code, raw)?;
        Some(changes(&before, &self.values()))
    }

    pub fn change_map(&mut self, second: bool, entries: &[Entry]) -> Vec<(u16, i16)> {
        let before = self.values();
        self.0[second as usize].change_map(entries);
        changes(&before, &self.values())
    }
}

/// P11: the form that a UUID is spelled in, by its length: 1 to 4, and 0 for none.
pub fn form(s: &[u8]) -> u8 {
    let lengths = [32, 36, 38, 45];
    doc01::uuid(s).map_or(0, |_| 1 + lengths.iter().position(|n| *n == s.len()).unwrap() as u8)
}

/// P11: the same of the first token of a line that is UTF-8; `xinput` is 5. A comma has to follow.
pub fn first_form(line: &[u8]) -> u8 {
    let field = line.split(|b| *b == b',').next().unwrap();
    match (field, field.len() < line.len()) {
        (_, false) => 0,
        (b"xinput", true) => 5,
        (s, true) => form(s),
    }
}
