//! What the three sides are compared by: the Rust (gilrs), document 01 in plain Rust, and the port.
use std::collections::BTreeMap;

/// An axis has 256 added to its number.
pub const AXIS: u16 = oracle::AXIS;

/// A refusal by document 01's number, with the place and the code that it carries.
#[derive(Debug, Clone, Copy, PartialEq, Eq)]
pub struct Refusal {
    pub number: u8,
    pub place: Option<usize>,
    pub code: Option<u32>,
}

pub fn refusal(number: u8) -> Refusal {
    Refusal { number, place: None, code: None }
}

pub fn refusal_at(number: u8, place: usize) -> Refusal {
    Refusal { number, place: Some(place), code: None }
}

/// Input and output range (0 the lower half, 1 the upper half, 2 all of it), and whether inverted.
pub type Ranges = (u8, u8, bool);

pub const FULL: Ranges = (2, 2, false);

/// An entry: code, element, ranges.
pub type Entry = (u32, u16, Ranges);

/// A map: its entries, the name's place in the line.
#[derive(Debug, Clone, PartialEq, Eq, Default)]
pub struct Map {
    pub entries: Vec<Entry>,
    pub name_start: usize,
    pub name_len: usize,
    pub default: bool,
    pub hats: u8,
}

pub type Uuid = [u8; 16];

/// Who calls a store (document 02, P9): an organiser by its owner byte, or the hall.
pub type Party = Option<u8>;

pub const HALL: Party = None;

/// The owner of a party's lines, 0 being the hall's; 24 where an organiser says 0.
pub fn owner(p: Party) -> Result<u8, Refusal> {
    match p {
        Some(0) => Err(refusal(24)),
        _ => Ok(p.unwrap_or(0)),
    }
}

/// What the walker answers.
#[derive(Debug, Clone, Copy, PartialEq, Eq)]
pub enum Tok {
    End,
    Refused(Refusal),
    Uuid(Uuid),
    Platform { start: usize, len: usize },
    Name { start: usize, len: usize },
    Axis { from: u16, to: u16, input: u8, output: u8, inverted: bool },
    Button { from: u16, to: u16, output: u8 },
    Hat { hat: u16, direction: u16, to: u16, output: u8 },
}

/// The filled slots as (element, code), ascending.
pub type Slots = Vec<(u16, u32)>;

impl From<oracle::Refusal> for Refusal {
    fn from(r: oracle::Refusal) -> Self {
        Refusal {
            number: r.number,
            place: (r.place != oracle::NO_PLACE).then_some(r.place),
            code: (r.number == 15).then_some(r.code),
        }
    }
}

impl From<oracle::Tok> for Tok {
    fn from(t: oracle::Tok) -> Self {
        use oracle::Tok as T;
        match t {
            T::End => Tok::End,
            T::Refused { number, place } => Tok::Refused(refusal_at(number, place)),
            T::Uuid(u) => Tok::Uuid(u),
            T::Platform { start, len } => Tok::Platform { start, len },
            T::Name { start, len } => Tok::Name { start, len },
            T::Axis { from, to, input, output, inverted } => Tok::Axis { from, to, input, output, inverted },
            T::Button { from, to, output } => Tok::Button { from, to, output },
            T::Hat { hat, direction, to, output } => Tok::Hat { hat, direction, to, output },
        }
    }
}

/// Document 02, P2: the ranges of each code that a line puts, by the tokens of the Rust's walker. gilrs's map has none.
pub fn ranges_by_tokens(tokens: &[oracle::Tok], buttons: &[u32], axes: &[u32]) -> BTreeMap<u32, Ranges> {
    use oracle::Tok as T;
    let mut by = BTreeMap::new();
    let mut put = |code: u32, r: Ranges| {
        by.insert(code, r);
    };
    for t in tokens {
        match *t {
            T::Axis { from, input, output, inverted, .. } => {
                axes.get(from as usize).into_iter().for_each(|c| put(*c, (input, output, inverted)))
            }
            T::Button { from, output, .. } => {
                buttons.get(from as usize).into_iter().for_each(|c| put(*c, (2, output, false)))
            }
            T::Hat { hat: 0, direction, to, output } => {
                let (axis, button) = match direction {
                    1 => (0x30011, 0x10220),
                    4 => (0x30011, 0x10221),
                    2 => (0x30010, 0x10223),
                    8 => (0x30010, 0x10222),
                    _ => continue,
                };
                if (16..=19).contains(&to) {
                    put(axis, FULL);
                }
                put(if to >= AXIS { axis } else { button }, (2, output, false));
            }
            _ => {}
        }
    }
    by
}

/// What the Rust read of a line: codes and elements by its map, ranges by its tokens. Where the two have not the same
/// codes, an entry has ranges that no other side gives.
pub fn read(m: oracle::Map, line: &str, buttons: &[u32], axes: &[u32]) -> Map {
    let by = ranges_by_tokens(&oracle::walk(line, line.matches(',').count() + 2), buttons, axes);
    let codes: Vec<u32> = m.entries.iter().map(|e| e.0).collect();
    let same = by.keys().eq(codes.iter());
    let mut map = placed(m, line.as_bytes());
    for e in &mut map.entries {
        e.2 = if same { by[&e.0] } else { (u8::MAX, u8::MAX, false) };
    }
    map
}

/// gilrs's map has the name itself; its place is where it stands after the first comma of the line. A name that does
/// not stand there gets a place that no other side gives. The entries are full, as those of a build and of a default are.
pub fn placed(m: oracle::Map, line: &[u8]) -> Map {
    let start = line.iter().position(|b| *b == b',').map_or(0, |i| i + 1);
    let stands = line[start..].starts_with(m.name.as_bytes());
    Map {
        entries: m.entries.into_iter().map(|(code, e)| (code, e, FULL)).collect(),
        name_start: if stands { start } else { usize::MAX },
        name_len: m.name.len(),
        default: m.default,
        hats: m.hats,
    }
}
