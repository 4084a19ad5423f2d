//! Inputs: random ones around the grammar, and every short one.
pub struct Rng(pub u64);

impl Rng {
    pub fn next(&mut self) -> u64 {
        self.0 ^= self.0 << 13;
        self.0 ^= self.0 >> 7;
        self.0 ^= self.0 << 17;
        self.0.wrapping_mul(0x2545F4914F6CDD1D) >> 11
    }
    pub fn below(&mut self, n: usize) -> usize {
        (self.next() % n as u64) as usize
    }
    pub fn one_in(&mut self, n: usize) -> bool {
        self.below(n) == 0
    }
    pub fn new(seed: u64) -> Self {
        Rng(seed.wrapping_mul(0x9E3779B97F4A7C15) | 1)
    }
    pub fn pick<T: Copy>(&mut self, s: &[T]) -> T {
        s[self.below(s.len())]
    }
}

const CHARS: [&str; 40] = [
    "0", "1", "2", "3", "4", "5", "6", "7", "8", "9", "a", "b", "h", "+", "-", "~", ".", ":", ",", ",", ":", "é", "ß",
    "€", "𝄞", "\u{feff}", "\0", " ", "\t", "x", "y", "z", "q", "A", "B", "H", "{", "}", "\u{301}", "\u{ff10}",
];
const KEYS: [&str; 44] = [
    "a", "b", "back", "c", "dpdown", "dpleft", "dpright", "dpup", "guide", "leftshoulder", "leftstick", "lefttrigger",
    "leftx", "lefty", "leftz", "misc1", "misc2", "misc3", "misc4", "misc5", "paddle1", "paddle2", "paddle3", "paddle4",
    "rightshoulder", "rightstick", "righttrigger", "rightx", "righty", "rightz", "start", "touchpad", "x", "y", "z",
    "platform", "crc", "q", "", "+", "-", "misc6", "A", "hint",
];
const NUMS: [&str; 26] = [
    "0", "1", "2", "3", "4", "8", "9", "00", "01", "+1", "++1", "-1", "+", "-", "", "65535", "65536", "99999", "000065535",
    "+065535", "70000", "18446744073709551616", "1 ", " 1", "1a", "\u{ff11}",
];

pub fn uuid(r: &mut Rng) -> String {
    let mut hex = String::new();
    let few = r.one_in(2);
    for _ in 0..32 {
        hex.push(if few { '0' } else { r.pick(&['0', '1', '9', 'a', 'f', 'A', 'F', '7', 'c', 'E']) });
    }
    if few {
        hex.replace_range(31..32, r.pick(&["0", "1", "2", "3", "4", "a", "A", "f"]));
    }
    let h = format!("{}-{}-{}-{}-{}", &hex[..8], &hex[8..12], &hex[12..16], &hex[16..20], &hex[20..]);
    let mut s = match r.below(12) {
        0 => h,
        1 => format!("{{{h}}}"),
        2 => format!("urn:uuid:{h}"),
        3 => format!("URN:UUID:{h}"),
        4 => format!("{{{hex}}}"),
        5 => "xinput".into(),
        _ => hex,
    };
    if r.one_in(8) {
        damage(r, &mut s);
    }
    s
}

/// One character removed, doubled or replaced.
pub fn damage(r: &mut Rng, s: &mut String) {
    let mut c: Vec<char> = s.chars().collect();
    if c.is_empty() {
        s.push_str(r.pick(&CHARS));
        return;
    }
    let i = r.below(c.len());
    match r.below(4) {
        0 => {
            c.remove(i);
        }
        1 => c.insert(i, c[i]),
        2 => c[i] = r.pick(&CHARS).chars().next().unwrap(),
        _ => c.insert(i, r.pick(&CHARS).chars().next().unwrap()),
    }
    *s = c.into_iter().collect();
}

fn soup(r: &mut Rng, n: usize) -> String {
    let mut s = String::new();
    for _ in 0..r.below(n + 1) {
        s.push_str(r.pick(&CHARS));
    }
    s
}

fn value(r: &mut Rng) -> String {
    let n = r.pick(&NUMS).to_string();
    let small = r.below(12).to_string();
    let n = if r.one_in(3) { n } else { small };
    let m = if r.one_in(3) { r.pick(&NUMS).to_string() } else { r.pick(&["0", "1", "2", "4", "8", "3"]).to_string() };
    let tilde = if r.one_in(4) { "~" } else { "" };
    match r.below(14) {
        0..=2 => format!("a{n}{tilde}"),
        3 => format!("+a{n}{tilde}"),
        4 => format!("-a{n}{tilde}"),
        5..=8 => format!("b{n}{}", if r.one_in(20) { "~" } else { "" }),
        9 | 10 => format!("h{}.{m}", if r.one_in(3) { n } else { "0".into() }),
        11 => format!("h{n}{m}"),
        12 => r.pick(&["Linux", "Windows", "Mac OS X", "linux", "Linux "]).to_string(),
        _ => soup(r, 6),
    }
}

pub fn pair(r: &mut Rng) -> String {
    let mut k = r.pick(&KEYS).to_string();
    if r.one_in(8) {
        k.insert(0, if r.one_in(2) { '+' } else { '-' });
    }
    let mut s = format!("{k}:{}", value(r));
    if r.one_in(12) {
        damage(r, &mut s);
    }
    s
}

pub fn line(r: &mut Rng) -> String {
    match r.below(40) {
        0 => return soup(r, 40),
        1 => return String::new(),
        _ => {}
    }
    if r.one_in(2) {
        return good_line(r);
    }
    let mut s = uuid(r);
    if r.one_in(60) {
        return s;
    }
    s.push(',');
    if r.one_in(60) {
        return s;
    }
    s.push_str(&match r.below(5) {
        0 => soup(r, 8).replace(',', ""),
        1 => "T:x platform:Linux".into(),
        2 => String::new(),
        _ => "T".into(),
    });
    let n = if r.one_in(50) { 300 } else { 8 };
    for _ in 0..r.below(n) {
        s.push(',');
        s.push_str(&pair(r));
    }
    if r.one_in(2) {
        s.push(',');
    }
    if r.one_in(20) {
        damage(r, &mut s);
    }
    s
}

/// A line that reading accepts, unless it is damaged once at the end.
fn good_line(r: &mut Rng) -> String {
    let mut s = format!("{:032x},{},", r.below(6), r.pick(&["T", "Pad é", "", "a:b1", "{}~+", "𝄞"]));
    for _ in 0..r.below(24) {
        let n = if r.one_in(6) { 65535 - r.below(3) } else { r.below(14) };
        let plus = if r.one_in(12) { "+" } else { "" };
        let v = match r.below(5) {
            0 | 1 => format!("b{plus}{n}"),
            2 => format!("h0.{plus}{}", r.pick(&[0, 1, 2, 4, 8])),
            3 => format!("{}a{plus}{n}{}", r.pick(&["", "+", "-"]), r.pick(&["", "~"])),
            _ => format!("h{}.{}", 1 + r.below(4), r.below(20)),
        };
        s.push_str(&format!("{}{}:{v},", r.pick(&["", "", "", "+", "-"]), KEYS[r.below(35)]));
        if r.one_in(24) {
            s.push_str(r.pick(&["platform:Linux,", "platform:Windows,", "a:,", ":,", "q:,", "platform:,"]));
        }
    }
    if r.one_in(3) {
        damage(r, &mut s);
    }
    s
}

pub fn text(r: &mut Rng) -> String {
    let mut s = String::new();
    for _ in 0..r.below(8) {
        s.push_str(&line(r));
        s.push_str(r.pick(&["\n", "\n", "\r\n", "\r\r\n", "\r", "", "\n\n", "\u{2028}", "\u{85}"]));
    }
    s
}

/// The line with its pairs in another order, where it has a name field. Nothing after a final comma is no pair.
pub fn regrouped(r: &mut Rng, line: &[u8]) -> Option<Vec<u8>> {
    let mut fields: Vec<&[u8]> = line.split(|b| *b == b',').collect();
    if fields.last() == Some(&&b""[..]) {
        fields.pop();
    }
    let pairs = fields.get_mut(2..)?;
    for k in (1..pairs.len()).rev() {
        pairs.swap(k, r.below(k + 1));
    }
    let mut other = fields.join(&b","[..]);
    if fields.last() == Some(&&b""[..]) || r.one_in(2) {
        other.push(b',');
    }
    Some(other)
}

/// A list of codes: small, often with doubles.
pub fn codes(r: &mut Rng, most: usize) -> Vec<u32> {
    let n = r.below(most + 1);
    (0..n)
        .map(|_| match r.below(6) {
            0 => 0x10130 + r.below(16) as u32,
            1 => 0x10220 + r.below(5) as u32,
            2 => 0x30000 + r.below(24) as u32,
            3 => r.pick(&[0, 1, u32::MAX, 0xffff]),
            4 => r.below(1 << 20) as u32,
            _ => 0x10130 + r.below(4) as u32,
        })
        .collect()
}

/// Every string of at most `most` of the pieces.
pub fn all(pieces: &[&str], most: usize, f: &mut dyn FnMut(&str)) {
    fn go(pieces: &[&str], most: usize, s: &mut String, f: &mut dyn FnMut(&str)) {
        f(s);
        if most > 0 {
            for p in pieces {
                let n = s.len();
                s.push_str(p);
                go(pieces, most - 1, s, f);
                s.truncate(n);
            }
        }
    }
    go(pieces, most, &mut String::new(), f)
}

/// One byte changed, so that the text is often no longer UTF-8.
pub fn damage_bytes(r: &mut Rng, s: &mut [u8]) {
    if !s.is_empty() {
        let i = r.below(s.len());
        s[i] = r.pick(&[0x80, 0xbf, 0xc0, 0xc2, 0xe0, 0xed, 0xf0, 0xf4, 0xf5, 0xff, b'0']);
    }
}

/// A text for insert, at times not UTF-8, at times with a line about as long as the limit, or as the first hub's.
pub fn bytes(r: &mut Rng) -> Vec<u8> {
    let mut t = text(r).into_bytes();
    if r.one_in(20) {
        let mut l = format!("{:032x},", r.below(6)).into_bytes();
        let between = 4097 + r.below(12288);
        let len = r.pick(&[4094, 16382, between]) + r.below(5);
        l.resize(len, b'n');
        t.push(b'\n');
        t.extend_from_slice(&l);
    }
    if r.one_in(30) {
        damage_bytes(r, &mut t);
    }
    t
}

/// Bytes for the text layer: around UTF-8's boundaries, UUIDs and numbers.
pub fn any_bytes(r: &mut Rng) -> Vec<u8> {
    match r.below(4) {
        0 => {
            let mut s = uuid(r).into_bytes();
            if r.one_in(4) {
                damage_bytes(r, &mut s);
            }
            s
        }
        1 => r.pick(&NUMS).as_bytes().to_vec(),
        2 => {
            let digits = r.below(8);
            let mut s: Vec<u8> = (0..digits).map(|_| b'0' + r.below(10) as u8).collect();
            if r.one_in(4) {
                s.insert(0, b'+');
            }
            s
        }
        _ => {
            let n = r.below(9);
            (0..n).map(|_| r.pick(&[0x41, 0x7f, 0x80, 0x8f, 0x90, 0x9f, 0xa0, 0xbf, 0xc1, 0xc2, 0xdf, 0xe0, 0xe1, 0xec, 0xed,
                0xee, 0xef, 0xf0, 0xf1, 0xf3, 0xf4, 0xf5, 0xff])).collect()
        }
    }
}

/// A name for build and save: good, or with what is refused.
pub fn name(r: &mut Rng) -> Vec<u8> {
    let mut s = match r.below(12) {
        0 => "n".repeat(r.pick(&[2047, 4096, 8191]) + r.below(3)),
        1 => "é".repeat(r.pick(&[1023, 4095]) + r.below(3)),
        2 => r.pick(&["platform:", "xplatform:Linux", "platform", "Pad\nTwo", "Pad\rTwo", "platform:Linux", ":platform"]).into(),
        3 => soup(r, 10),
        _ => r.pick(&["Pad", "", "Pad é", "a:b1", "xinput", "𝄞", "0"]).into(),
    };
    if r.one_in(12) {
        damage(r, &mut s);
    }
    let mut s = s.into_bytes();
    if r.one_in(30) {
        damage_bytes(r, &mut s);
    }
    s
}
