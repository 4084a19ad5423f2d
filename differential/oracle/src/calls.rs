//! The reference calls of document 01 on plain data. An element is its number, 256 + its number for an axis.
use crate::ev::{Axis, AxisOrBtn, Button, Code};
pub use crate::mapping::Mapping;
use crate::mapping::{MappingData, MappingDb, MappingError, ParseSdlMappingError};
use crate::parser::{AxisRange, Parser, Token};
use gilrs_core::{codes_in, EvCode, Gamepad};
use uuid::Uuid;

pub const AXIS: u16 = 256;

/// A refusal by document 01's number; `place` is usize::MAX where it has none.
#[derive(Debug, Clone, PartialEq, Eq)]
pub struct Refusal {
    pub number: u8,
    pub place: usize,
    pub code: u32,
}

pub const NO_PLACE: usize = usize::MAX;

#[derive(Debug, Clone, PartialEq, Eq, Default)]
pub struct Map {
    pub entries: Vec<(u32, u16)>,
    pub name: String,
    pub default: bool,
    pub hats: u8,
}

#[derive(Debug, Clone, PartialEq, Eq)]
pub enum Tok {
    End,
    Refused { number: u8, place: usize },
    Uuid([u8; 16]),
    Platform { start: usize, len: usize },
    Name { start: usize, len: usize },
    Axis { from: u16, to: u16, input: u8, output: u8, inverted: bool },
    Button { from: u16, to: u16, output: u8 },
    Hat { hat: u16, direction: u16, to: u16, output: u8 },
}

pub fn button(n: u16) -> Button {
    use Button::*;
    const ALL: [Button; 20] = [
        Unknown, South, East, C, North, West, Z, LeftTrigger, RightTrigger, LeftTrigger2, RightTrigger2, Select,
        Start, Mode, LeftThumb, RightThumb, DPadUp, DPadDown, DPadLeft, DPadRight,
    ];
    ALL[n as usize]
}

pub fn axis(n: u16) -> Axis {
    use Axis::*;
    const ALL: [Axis; 9] =
        [Unknown, LeftStickX, LeftStickY, LeftZ, RightStickX, RightStickY, RightZ, DPadX, DPadY];
    ALL[n as usize]
}

pub fn number(e: AxisOrBtn) -> u16 {
    match e {
        AxisOrBtn::Btn(b) => b as u16,
        AxisOrBtn::Axis(a) => AXIS + a as u16,
    }
}

pub fn element(n: u16) -> AxisOrBtn {
    if n >= AXIS { AxisOrBtn::Axis(axis(n - AXIS)) } else { AxisOrBtn::Btn(button(n)) }
}

fn evs(codes: &[u32]) -> Vec<EvCode> {
    codes.iter().map(|c| EvCode(*c)).collect()
}

/// Document 01's number for a kind of parser error, by the name that its Debug form prints: the type in
/// `mapping::parser` can't be named here.
fn kind_number(kind: &dyn std::fmt::Debug) -> u8 {
    match format!("{:?}", kind).as_str() {
        "InvalidGuid" => 1,
        "UnexpectedEnd" => 2,
        "InvalidKeyValPair" => 3,
        "InvalidValue" => 4,
        "UnknownAxis" => 5,
        "UnknownButton" => 6,
        "EmptyValue" => 8,
        "InvalidParserState" => 9,
        k => panic!("a parser error of kind {k}"),
    }
}

fn half(r: AxisRange) -> u8 {
    match r {
        AxisRange::LowerHalf => 0,
        AxisRange::UpperHalf => 1,
        AxisRange::Full => 2,
    }
}

/// The answers of `calls` calls of `next_token`, one after the other.
pub fn walk(line: &str, calls: usize) -> Vec<Tok> {
    let mut p = Parser::new(line);
    let base = line.as_ptr() as usize;
    let text = |s: &str| (s.as_ptr() as usize - base, s.len());
    let mut out = Vec::new();
    for _ in 0..calls {
        out.push(match p.next_token() {
            None => Tok::End,
            Some(Err(e)) => Tok::Refused { number: kind_number(e.kind()), place: e.position },
            Some(Ok(t)) => match t {
                Token::Uuid(u) => Tok::Uuid(u.into_bytes()),
                Token::Platform(s) => Tok::Platform { start: text(s).0, len: text(s).1 },
                Token::Name(s) => Tok::Name { start: text(s).0, len: text(s).1 },
                Token::AxisMapping { from, to, input, output, inverted } => {
                    Tok::Axis { from, to: number(to), input: half(input), output: half(output), inverted }
                }
                Token::ButtonMapping { from, to, output } => {
                    Tok::Button { from, to: number(to), output: half(output) }
                }
                Token::HatMapping { hat, direction, to, output } => {
                    Tok::Hat { hat, direction, to: number(to), output: half(output) }
                }
            },
        });
    }
    out
}

/// A map's entries, name and flags; `mapping::Mapping` and `mended::Mapping` are two types.
macro_rules! plain {
    ($m:expr) => {{
        let m = $m;
        let mut codes = codes_in(m);
        codes.sort();
        Map {
            entries: codes.iter().map(|c| (*c, number(m.map(&EvCode(*c)).unwrap()))).collect(),
            name: m.name().to_owned(),
            default: m.is_default(),
            hats: m.hats_mapped(),
        }
    }};
}

pub fn plain(m: &Mapping) -> Map {
    plain!(m)
}

/// `Mapping::parse_sdl_mapping`.
pub fn read_raw(line: &str, buttons: &[u32], axes: &[u32]) -> Result<Mapping, Refusal> {
    Mapping::parse_sdl_mapping(line, &evs(buttons), &evs(axes)).map_err(|e| match e {
        ParseSdlMappingError::UnknownHatDirection => Refusal { number: 7, place: 0, code: 0 },
        ParseSdlMappingError::ParseError(e) => {
            Refusal { number: kind_number(e.kind()), place: e.position, code: 0 }
        }
    })
}

pub fn read(line: &str, buttons: &[u32], axes: &[u32]) -> Result<Map, Refusal> {
    read_raw(line, buttons, axes).map(|m| plain(&m))
}

/// `Mapping::default`, mended by request P1: East is tested as the others are.
pub fn default(buttons: &[u32], axes: &[u32]) -> Map {
    plain!(&crate::mended::Mapping::default(&Gamepad { buttons: evs(buttons), axes: evs(axes) }))
}

/// `Mapping::default` as published.
pub fn published_default(buttons: &[u32], axes: &[u32]) -> Map {
    plain(&Mapping::default(&Gamepad { buttons: evs(buttons), axes: evs(axes) }))
}

/// Slots: 20 for buttons, 9 for axes, each a code or none.
#[derive(Clone, Default)]
pub struct Slots(pub MappingData);

impl Slots {
    pub fn new() -> Self {
        Slots(MappingData::new())
    }
    pub fn get(&self, e: u16) -> Option<u32> {
        if e >= AXIS { self.0.axis(axis(e - AXIS)) } else { self.0.button(button(e)) }.map(|c| c.into_u32())
    }
    pub fn insert(&mut self, e: u16, code: u32) -> Option<u32> {
        let c = Code(EvCode(code));
        if e >= AXIS { self.0.insert_axis(c, axis(e - AXIS)) } else { self.0.insert_btn(c, button(e)) }
            .map(|c| c.into_u32())
    }
    pub fn remove(&mut self, e: u16) -> Option<u32> {
        if e >= AXIS { self.0.remove_axis(axis(e - AXIS)) } else { self.0.remove_button(button(e)) }
            .map(|c| c.into_u32())
    }
}

/// `Mapping::from_data`: the map and the line.
pub fn build(
    slots: &Slots,
    buttons: &[u32],
    axes: &[u32],
    name: &str,
    uuid: [u8; 16],
) -> Result<(Map, String), Refusal> {
    match Mapping::from_data(&slots.0, &evs(buttons), &evs(axes), name, Uuid::from_bytes(uuid)) {
        Ok((m, line)) => Ok((plain(&m), line)),
        Err(MappingError::InvalidName) => Err(Refusal { number: 13, place: NO_PLACE, code: 0 }),
        Err(MappingError::UnknownElement) => Err(Refusal { number: 14, place: NO_PLACE, code: 0 }),
        Err(MappingError::InvalidCode(c)) => Err(Refusal { number: 15, place: NO_PLACE, code: c.into_u32() }),
        Err(e) => panic!("{e}"),
    }
}

/// `map` on a map that was read.
pub fn map(m: &Mapping, code: u32) -> Option<u16> {
    m.map(&EvCode(code)).map(number)
}

/// `map_rev` on a map that was read.
pub fn map_rev(m: &Mapping, e: u16) -> Option<u32> {
    m.map_rev(&element(e)).map(|c| c.0)
}

/// `MappingDb`.
pub struct Db(MappingDb);

impl Db {
    pub fn new() -> Self {
        Db(MappingDb::new())
    }
    pub fn insert(&mut self, text: &str) {
        self.0.insert(text)
    }
    pub fn get(&self, uuid: [u8; 16]) -> Option<&str> {
        self.0.get(Uuid::from_bytes(uuid))
    }
    pub fn len(&self) -> usize {
        self.0.len()
    }
}

pub fn parse_uuid(s: &str) -> Option<[u8; 16]> {
    Uuid::parse_str(s).ok().map(|u| u.into_bytes())
}

/// The 32 digits of a UUID, as the crate uuid writes them.
pub fn simple(u: [u8; 16]) -> String {
    Uuid::from_bytes(u).as_simple().to_string()
}

/// The element calls of ev/mod.rs.
pub fn to_nec(n: u16) -> Option<u32> {
    button(n).to_nec().map(|c| c.into_u32())
}
pub fn button_is_dpad(n: u16) -> bool {
    button(n).is_dpad()
}
pub fn button_is_stick(n: u16) -> bool {
    button(n).is_stick()
}
pub fn axis_is_stick(n: u16) -> bool {
    axis(n).is_stick()
}
pub fn second_axis(n: u16) -> Option<u16> {
    axis(n).second_axis().map(|a| a as u16)
}
pub fn is_button(e: u16) -> bool {
    element(e).is_button()
}

/// Has each warning of gilrs formatted, and thrown away: its arguments are not evaluated otherwise.
pub fn format_warnings() {
    struct Sink;
    impl log::Log for Sink {
        fn enabled(&self, _: &log::Metadata) -> bool {
            true
        }
        fn log(&self, r: &log::Record) {
            std::hint::black_box(format!("{}", r.args()));
        }
        fn flush(&self) {}
    }
    static SINK: Sink = Sink;
    log::set_logger(&SINK).unwrap();
    log::set_max_level(log::LevelFilter::Warn);
}
