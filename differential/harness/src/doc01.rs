//! Document 01 once more, in plain Rust on bytes: judges what gilrs has no answer for (refusals 10, 11, 12 and 16 to 23).
use std::collections::BTreeMap;
use crate::plain::{refusal, refusal_at, Entry, Map, Refusal, Slots, Tok, Uuid, AXIS, FULL};

pub const CODES_MAX: usize = 256;
pub const LIST_MAX: usize = 1024;
pub const NAME_MAX: usize = 8192;

pub const NAMES: [(&str, u16); 35] = [
    ("a", 1), ("b", 2), ("back", 11), ("c", 3), ("dpdown", 17), ("dpleft", 18), ("dpright", 19), ("dpup", 16),
    ("guide", 13), ("leftshoulder", 7), ("leftstick", 14), ("lefttrigger", 9), ("leftx", AXIS + 1),
    ("lefty", AXIS + 2), ("leftz", AXIS + 3), ("misc1", 0), ("misc2", 0), ("misc3", 0), ("misc4", 0), ("misc5", 0),
    ("paddle1", 0), ("paddle2", 0), ("paddle3", 0), ("paddle4", 0), ("rightshoulder", 8), ("rightstick", 15),
    ("righttrigger", 10), ("rightx", AXIS + 4), ("righty", AXIS + 5), ("rightz", AXIS + 6), ("start", 12),
    ("touchpad", 0), ("x", 5), ("y", 4), ("z", 6),
];

/// The one name of an element; none, or more than one, is no ident.
pub fn ident(e: u16) -> &'static str {
    let mut it = NAMES.iter().filter(|r| r.1 == e);
    match (it.next(), it.next()) {
        (Some(r), None) => r.0,
        _ => "",
    }
}

/// The element of a key.
pub fn key(k: &[u8]) -> Option<u16> {
    NAMES.iter().find(|r| r.0.as_bytes() == k).map(|r| r.1)
}

/// The native code of a button.
pub fn to_nec(n: u16) -> Option<u32> {
    match n {
        1..=15 => Some(0x10130 + n as u32 - 1),
        16..=19 => Some(0x10220 + n as u32 - 16),
        _ => None,
    }
}

fn hex(b: u8) -> Option<u8> {
    (b as char).to_digit(16).map(|d| d as u8)
}

pub fn uuid(s: &[u8]) -> Option<Uuid> {
    let hyphens = match s.len() {
        32 => s.to_vec(),
        36 => s.to_vec(),
        38 if s[0] == b'{' && s[37] == b'}' => s[1..37].to_vec(),
        45 if &s[..9] == b"urn:uuid:" => s[9..].to_vec(),
        _ => return None,
    };
    let mut digits = Vec::new();
    for (i, b) in hyphens.iter().enumerate() {
        if hyphens.len() == 36 && [8, 13, 18, 23].contains(&i) {
            if *b != b'-' {
                return None;
            }
        } else {
            digits.push(hex(*b)?);
        }
    }
    let mut out = [0; 16];
    for i in 0..16 {
        out[i] = digits[2 * i] * 16 + digits[2 * i + 1];
    }
    Some(out)
}

pub fn index(s: &[u8]) -> Option<u16> {
    let d = if s.first() == Some(&b'+') { &s[1..] } else { s };
    if d.is_empty() || !d.iter().all(|b| b.is_ascii_digit()) {
        return None;
    }
    let mut v: u64 = 0;
    for b in d {
        v = (v * 10 + (*b - b'0') as u64).min(1 << 32);
    }
    if v <= 65535 { Some(v as u16) } else { None }
}

#[derive(Clone, Copy, PartialEq)]
enum State {
    First,
    Name,
    Pairs,
    Bad,
}

pub struct Walker<'a> {
    line: &'a [u8],
    pos: usize,
    state: State,
    valid: usize,
}

impl<'a> Walker<'a> {
    pub fn new(line: &'a [u8]) -> Self {
        let valid = match std::str::from_utf8(line) {
            Ok(_) => line.len(),
            Err(e) => e.valid_up_to(),
        };
        Walker { line, pos: 0, state: State::First, valid }
    }

    pub fn step(&mut self) -> Tok {
        let line = self.line;
        if self.pos >= line.len() {
            return Tok::End;
        }
        if self.valid < line.len() {
            return Tok::Refused(refusal_at(10, self.valid));
        }
        if self.state == State::Bad {
            return Tok::Refused(refusal_at(9, 0));
        }
        let p = self.pos;
        let end = line[p..].iter().position(|b| *b == b',').map_or(line.len(), |i| p + i);
        let field = &line[p..end];
        match self.state {
            State::First => {
                let u = if field == b"xinput" { Some([0; 16]) } else { uuid(field) };
                let Some(u) = u else {
                    self.state = State::Bad;
                    return Tok::Refused(refusal_at(1, 0));
                };
                if end == line.len() {
                    self.state = State::Bad;
                    return Tok::Refused(refusal_at(2, 0));
                }
                self.state = State::Name;
                self.pos = end + 1;
                Tok::Uuid(u)
            }
            State::Name => {
                self.state = State::Pairs;
                self.pos = end + 1;
                Tok::Name { start: p, len: end - p }
            }
            _ => {
                self.pos = end + 1;
                pair(field, p)
            }
        }
    }
}

fn pair(field: &[u8], p: usize) -> Tok {
    let no = |number, place| Tok::Refused(refusal_at(number, place));
    if field.iter().filter(|b| **b == b':').count() != 1 {
        return no(3, p);
    }
    let colon = field.iter().position(|b| *b == b':').unwrap();
    let (mut key, value) = (&field[..colon], &field[colon + 1..]);
    if value.is_empty() {
        return no(8, p);
    }
    if key == b"platform" {
        return Tok::Platform { start: p + colon + 1, len: value.len() };
    }
    let mut output = 2;
    if key.first() == Some(&b'+') {
        output = 1;
        key = &key[1..];
    } else if key.first() == Some(&b'-') {
        output = 0;
        key = &key[1..];
    }
    let to = self::key(key);
    let (input, rest) = match value {
        [b'+', b'a', r @ ..] => (1, r),
        [b'-', b'a', r @ ..] => (0, r),
        [b'a', r @ ..] => (2, r),
        [b'b', r @ ..] => {
            let Some(from) = index(r) else { return no(4, p) };
            return to.map_or(no(6, p), |to| Tok::Button { from, to, output });
        }
        [b'h', ..] => {
            let Some(dot) = value.iter().position(|b| *b == b'.') else { return no(4, p) };
            let Some(hat) = index(&value[1..dot]) else { return no(4, p + 1) };
            let Some(direction) = index(&value[dot + 1..]) else { return no(4, p + dot + 1) };
            return to.map_or(no(6, p), |to| Tok::Hat { hat, direction, to, output });
        }
        _ => return no(4, p),
    };
    let (inverted, n) = match rest {
        [n @ .., b'~'] => (true, n),
        n => (false, n),
    };
    let Some(from) = index(n) else { return no(4, p) };
    to.map_or(no(5, p), |to| Tok::Axis { from, to, input, output, inverted })
}

fn put(m: &mut Map, e: Entry) {
    match m.entries.binary_search_by_key(&e.0, |x| x.0) {
        Ok(i) => m.entries[i] = e,
        Err(i) => m.entries.insert(i, e),
    }
}

/// 11 where the put would make a 257th code.
fn put_or_full(m: &mut Map, e: Entry, p: usize) -> Result<(), Refusal> {
    put(m, e);
    if m.entries.len() > CODES_MAX { Err(refusal_at(11, p)) } else { Ok(()) }
}

fn lists_fit(buttons: &[u32], axes: &[u32]) -> bool {
    buttons.len() <= LIST_MAX && axes.len() <= LIST_MAX
}

pub fn read(line: &[u8], buttons: &[u32], axes: &[u32]) -> Result<Map, Refusal> {
    let mut m = Map::default();
    let mut w = Walker::new(line);
    if w.valid < line.len() {
        return Err(refusal_at(10, w.valid));
    }
    if !lists_fit(buttons, axes) {
        return Err(refusal(12));
    }
    loop {
        let p = w.pos;
        match w.step() {
            Tok::End => return Ok(m),
            Tok::Refused(Refusal { number: 8, .. }) => {}
            Tok::Refused(r) => return Err(r),
            Tok::Uuid(_) => m.name_start = w.pos,
            Tok::Platform { .. } => {}
            Tok::Name { start, len } => (m.name_start, m.name_len) = (start, len),
            t => {
                let (puts, flags) = puts(t, buttons, axes)?;
                for e in puts {
                    put_or_full(&mut m, e, p)?;
                }
                m.hats |= flags;
            }
        }
    }
}

/// What a token puts, in order, and the hat flags. Document 02, P2: an entry has the ranges of its pair.
fn puts(t: Tok, buttons: &[u32], axes: &[u32]) -> Result<(Vec<Entry>, u8), Refusal> {
    let listed = |list: &[u32], n: u16, e: u16, r| list.get(n as usize).map(|c| (*c, e, r)).into_iter().collect();
    match t {
        Tok::Axis { from, to, input, output, inverted } => Ok((listed(axes, from, to, (input, output, inverted)), 0)),
        Tok::Button { from, to, output } => Ok((listed(buttons, from, to, (2, output, false)), 0)),
        Tok::Hat { hat: 0, direction, to, output } => hat_zero(direction, to, output),
        _ => Ok((Vec::new(), 0)),
    }
}

fn hat_zero(direction: u16, to: u16, output: u8) -> Result<(Vec<Entry>, u8), Refusal> {
    let (ax, bt) = match direction {
        0 => return Ok((Vec::new(), 0)),
        1 => (0x30011, 0x10220),
        4 => (0x30011, 0x10221),
        2 => (0x30010, 0x10223),
        8 => (0x30010, 0x10222),
        _ => return Err(refusal_at(7, 0)),
    };
    let mut puts = Vec::new();
    match to {
        18 | 19 => puts.push((ax, AXIS + 7, FULL)),
        16 | 17 => puts.push((ax, AXIS + 8, FULL)),
        _ => {}
    }
    puts.push((if to >= AXIS { ax } else { bt }, to, (2, output, false)));
    Ok((puts, direction as u8))
}

/// Document 02, P8: whether a line that is accepted puts no code with two unlike entries.
pub fn alike(line: &[u8], buttons: &[u32], axes: &[u32]) -> bool {
    let mut seen = BTreeMap::new();
    let mut w = Walker::new(line);
    loop {
        match w.step() {
            Tok::End => return true,
            t => {
                for e in puts(t, buttons, axes).map_or(Vec::new(), |p| p.0) {
                    if *seen.entry(e.0).or_insert(e) != e {
                        return false;
                    }
                }
            }
        }
    }
}

/// Build's checks in order, without 18.
fn build_checks(slots: &Slots, buttons: &[u32], axes: &[u32], name: &[u8]) -> Result<(), Refusal> {
    if let Err(e) = std::str::from_utf8(name) {
        return Err(refusal_at(10, e.valid_up_to()));
    }
    if name.len() > NAME_MAX {
        return Err(refusal(17));
    }
    if !lists_fit(buttons, axes) {
        return Err(refusal(12));
    }
    if name.contains(&b',') {
        return Err(refusal(13));
    }
    for (unknown, list) in [(0, buttons), (AXIS, axes)] {
        let mine: Vec<_> = slots.iter().filter(|s| s.0 & AXIS == unknown).collect();
        if mine.iter().any(|s| s.0 == unknown) {
            return Err(refusal(14));
        }
        if let Some(s) = mine.iter().find(|s| !list.contains(&s.1)) {
            return Err(Refusal { number: 15, place: None, code: Some(s.1) });
        }
    }
    if slots.iter().any(|s| s.0 >= AXIS + 7) {
        return Err(refusal(16));
    }
    Ok(())
}

/// The map and the line, for an output that is long enough.
pub fn build(
    slots: &Slots, buttons: &[u32], axes: &[u32], name: &[u8], uuid: Uuid,
) -> Result<(Map, Vec<u8>), Refusal> {
    build_checks(slots, buttons, axes, name)?;
    let mut line: Vec<u8> = uuid.iter().flat_map(|b| format!("{b:02x}").into_bytes()).collect();
    line.push(b',');
    line.extend_from_slice(name);
    line.push(b',');
    let mut m = Map { name_start: 33, name_len: name.len(), ..Map::default() };
    for (e, code) in slots {
        let (list, letter) = if *e >= AXIS { (axes, 'a') } else { (buttons, 'b') };
        let i = list.iter().position(|c| c == code).unwrap();
        line.extend_from_slice(format!("{}:{letter}{i},", ident(*e)).as_bytes());
        put(&mut m, (*code, *e, FULL));
    }
    Ok((m, line))
}

/// With request P1: "The default map shall drop East too where the button list lacks 10131."
pub fn default(buttons: &[u32], axes: &[u32]) -> Result<Map, Refusal> {
    if !lists_fit(buttons, axes) {
        return Err(refusal(12));
    }
    let mut m = Map { default: true, ..Map::default() };
    for k in 1..=19 {
        let c = to_nec(k).unwrap();
        if buttons.contains(&c) {
            put(&mut m, (c, k, FULL));
        }
    }
    let rest = [(0x30010, AXIS + 7), (0x30011, AXIS + 8), (0x30013, 7), (0x30012, 8), (0x30015, 9), (0x30014, 10)];
    for (c, e) in (1..=6).map(|k| (0x30000 + k as u32 - 1, AXIS + k)).chain(rest) {
        if axes.contains(&c) {
            put(&mut m, (c, e, FULL));
        }
    }
    Ok(m)
}

/// What request P1 took out of it: the published default has East in every map.
pub fn with_east(mut m: Map) -> Map {
    put(&mut m, (0x10131, 2, FULL));
    m
}
