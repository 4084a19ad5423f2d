//! The port against gilrs, unchanged, on document 01's domain, and against document 01 on all inputs.
//! Arguments: seconds of random inputs, seed, corpus files. The last line is the summary; status 0 only without a difference or a panic.
use harness::check::{Tally, GROUPS};
use harness::compare::{self, AllSlots};
use harness::far;
use harness::filed;
use harness::games;
use harness::gen::{self, Rng};
use harness::largest;
use harness::lent::{with_room, Store};
use harness::owners;
use harness::pads;
use harness::plain::{AXIS, HALL};
use harness::stores::Sides;
use std::time::Duration;

fn main() {
    std::process::exit(with_room(compared));
}

/// The comparison; its status.
fn compared() -> i32 {
    let args: Vec<String> = std::env::args().skip(1).collect();
    let secs: u64 = args.first().and_then(|s| s.parse().ok()).unwrap_or(60);
    let seed: u64 = args.get(1).and_then(|s| s.parse().ok()).unwrap_or(1);
    let files = args.get(2..).unwrap_or(&[]);
    compare::quiet_panics();
    oracle::format_warnings();
    let mut t = Tally::new();
    for (name, what) in GROUPS {
        println!("  {name:<9} {what}");
    }
    let corpus: Vec<Vec<u8>> = files.iter().map(|f| std::fs::read(f).unwrap_or_else(|e| panic!("{f}: {e}"))).collect();
    fixed::all(&mut t, &corpus);
    let lines: Vec<&[u8]> = corpus.iter().flat_map(|c| harness::book::lines(c)).collect();
    random(&mut t, &lines, secs, seed);
    t.table();
    let (passed, failed) = t.groups();
    println!("groups: {passed} passed, {failed} failed");
    println!(
        "{} cases ({} corpus lines), seed {seed}, {} differences, {} panics",
        t.cases(), lines.len(), t.differences(), t.panics
    );
    (t.differences() + t.panics > 0) as i32
}

/// The rounds of random inputs that are run however long they take: each group has cases then.
const ROUNDS: usize = 4;

/// Random inputs for that time, beside what is fixed.
fn random(t: &mut Tally, lines: &[&[u8]], secs: u64, seed: u64) {
    let mut r = Rng::new(seed);
    let end = t.start.elapsed() + Duration::from_secs(secs);
    let mut rounds = 0;
    while rounds < ROUNDS || t.start.elapsed() < end {
        rounds += 1;
        for k in 0..50 {
            compare::text(t, &gen::any_bytes(&mut r));
            let mut line = match k % 5 {
                0 if !lines.is_empty() => damaged(&mut r, lines),
                _ => gen::line(&mut r).into_bytes(),
            };
            if k % 10 == 1 {
                gen::damage_bytes(&mut r, &mut line);
            }
            let (b, a) = (gen::codes(&mut r, 14), gen::codes(&mut r, 10));
            compare::line(t, &line, &b, &a);
            compare::regrouped(t, &mut r, &line, &b, &a);
            compare::default(t, &b, &a);
            one_build(t, &mut r, &b, &a);
            if k % 5 == 0 {
                one_store(t, &mut r);
                owners::apart(t, &mut r);
            }
            if k % 10 == 0 {
                compare::any_map(t, &mut r);
                pads::events(t, &mut r);
                games::history(t, &mut r);
                games::two_history(t, &mut r);
                far::history(t, &mut r);
                let (room, at, n) = (r.below(60), r.below(64), r.next() as usize >> r.below(64));
                compare::writers(t, room, at, n, (r.next() as u128 * r.next() as u128).to_be_bytes());
            }
        }
        t.progress("random inputs", false);
    }
}

/// A line of the corpora with one or two characters changed.
fn damaged(r: &mut Rng, lines: &[&[u8]]) -> Vec<u8> {
    let mut s = String::from_utf8_lossy(r.pick(lines)).into_owned();
    for _ in 0..1 + r.below(2) {
        gen::damage(r, &mut s);
    }
    s.into_bytes()
}

/// Slots filled at random from the lists, with a few wrong codes and elements.
fn some_slots(t: &mut Tally, r: &mut Rng, b: &[u32], a: &[u32]) -> AllSlots {
    let mut s = AllSlots::new();
    for _ in 0..r.below(10) {
        let e = if r.one_in(2) { r.below(21) as u16 } else { AXIS + r.below(10) as u16 };
        if (e % AXIS == 0 || e >= AXIS + 7) && !r.one_in(8) {
            continue;
        }
        let list = if e >= AXIS { a } else { b };
        let code = if list.is_empty() || r.one_in(20) { r.below(1 << 18) as u32 } else { r.pick(list) };
        if r.one_in(10) {
            s.remove(t, e);
        } else {
            s.insert(t, e, code);
        }
    }
    s
}

fn one_build(t: &mut Tally, r: &mut Rng, b: &[u32], a: &[u32]) {
    let s = some_slots(t, r, b, a);
    if r.one_in(10) {
        s.read(t);
    }
    let room = if r.one_in(8) { r.below(120) } else { 9000 };
    compare::build(t, &s, b, a, &gen::name(r), [r.next() as u8; 16], room);
}

/// A history of clear, insert, save and remove calls from a fresh store, with look-ups.
fn one_store(t: &mut Tally, r: &mut Rng) {
    let (index, text) = if r.one_in(2) {
        (r.pick(&[2100, 4200]), r.pick(&[4096, 8000, 20000, 40000]))
    } else {
        (r.pick(&[0, 20, 21, 22, 41, 42, 43, 44, 63, 65, 66, 84, 210]), r.pick(&[0, 33, 40, 100, 400, 1000]))
    };
    let mut s = Sides::fresh(index, text);
    let hall_alone = r.one_in(3);
    for _ in 0..1 + r.below(5) {
        let by = if hall_alone { HALL } else { owners::party(r) };
        match r.below(12) {
            0 => s.clear(t),
            10.. => {
                let id = s.some_id(r.below(8));
                s.remove(t, by, id);
            }
            8.. => {
                let (owner, bytes) = owners::share(r, text);
                s.share(t, owner, bytes);
            }
            1..=4 => s.insert(t, by, &gen::bytes(r)),
            _ => {
                let (b, a) = (gen::codes(r, 6), gen::codes(r, 4));
                let slots = some_slots(t, r, &b, &a);
                let mut id = [0; 16];
                id[15] = r.below(6) as u8;
                if r.one_in(3) {
                    id[2..4].copy_from_slice(&r.pick(&[[0, 1], [1, 0], [0xff, 0xff]]));
                }
                s.save(t, by, &slots, &b, &a, &gen::name(r), id);
            }
        }
    }
    s.look_up(t);
    if r.one_in(4) {
        let slots = AllSlots::new();
        let (at, byte, both) = (r.next() as usize, r.pick(&[0, 1, 2, 3, 4, 9, 16, 17, 255]), r.one_in(2));
        let change = |st: &mut Store| {
            let buffer = if both { &mut st.index } else { &mut st.text };
            if !buffer.is_empty() {
                let used = buffer.iter().rposition(|b| *b != 0).map_or(0, |i| i + 3).clamp(1, buffer.len());
                buffer[at % used] = byte;
            }
        };
        s.damage(t, change, b"00000000000000000000000000000001,T", &slots);
        s.look_up(t);
    }
}

/// Inputs that are the same in each run.
mod fixed {
    use super::*;

    const U: &str = "00000000000000000000000000000000";

    pub fn all(t: &mut Tally, corpus: &[Vec<u8>]) {
        for n in 0..=u16::MAX {
            compare::elements(t, n);
        }
        t.progress("element calls on every number", true);
        pads::values(t);
        t.progress("every raw value on every kind of entry", true);
        games::many_codes(t);
        (0..50).for_each(|seed| games::interleavings(t, &mut Rng::new(seed)));
        corpora(t, corpus);
        largest::whole_lists(t, corpus);
        t.progress("both corpora", true);
        boundaries(t);
        filed::stores(t);
        t.progress("boundaries of document 01", true);
        far::stores(t);
        t.progress("lines and shares about 65536", true);
        largest::stores(t);
        t.progress("the largest stores", true);
        short_lines(t);
        t.progress("every short line", true);
    }

    fn corpora(t: &mut Tally, corpus: &[Vec<u8>]) {
        let b: Vec<u32> = (0..32).map(|k| 0x10130 + k).collect();
        let a: Vec<u32> = (0..16).map(|k| 0x30000 + k).collect();
        let mut r = Rng::new(8);
        for text in corpus {
            let lines = harness::book::lines(text);
            for l in &lines {
                compare::line(t, l, &b, &a);
                for _ in 0..20 {
                    compare::regrouped(t, &mut r, l, &b, &a);
                }
                compare::text(t, l.split(|c| *c == b',').next().unwrap());
            }
            // 150 lines at a time: a whole list does not fit a text of 65535 bytes
            for part in lines.chunks(150) {
                let mut s = Sides::fresh(65535, 65535);
                s.insert(t, HALL, &part.join(&b"\r\n"[..]));
                s.look_up(t);
            }
            let mut s = Sides::fresh(65535, 65535);
            s.insert(t, HALL, text);
            s.look_up(t);
        }
    }

    /// Each boundary that document 01 names, from below and from above, and multi-byte characters beside each cut.
    fn boundaries(t: &mut Tally) {
        let (b, a) = ([0x10130, 0x10131], [0x30000]);
        for n in [0, 1, 9, 10, 99, 255, 256, 65534, 65535, 65536, 99999, usize::MAX] {
            for at in [0, 1, 30, 60, usize::MAX] {
                compare::writers(t, 64, at, n, [n as u8; 16]);
            }
            for v in ["a", "b", "+a", "-a"] {
                compare::line(t, format!("{U},T,a:{v}{n},leftx:{v}+0{n},dpup:h{n}.{n}").as_bytes(), &b, &a);
                compare::line(t, format!("{U},T,dpup:h0.{n},dpright:h{n}.1").as_bytes(), &b, &a);
            }
        }
        for m in ["é", "€", "𝄞", "\u{301}", "\u{10ffff}", "\u{7f}", "\u{80}", "\u{7ff}", "\u{800}", "\u{ffff}"] {
            multi_byte(t, m, &b, &a);
        }
        for k in harness::doc01::NAMES.iter().map(|r| r.0).chain(["", "platform", "zz", "misc", "misc10", "leftshoulderx"]) {
            compare::keys(t, k.as_bytes());
            for cut in 0..=k.len() {
                compare::keys(t, &k.as_bytes()[..cut]);
                compare::keys(t, &[&k.as_bytes()[..cut], &[0], &k.as_bytes()[cut..]].concat());
            }
        }
        for e in (0..22).chain(AXIS..AXIS + 11) {
            compare::idents(t, e);
        }
        many_codes(t);
        builds(t);
    }

    /// A multi-byte character at each cut of a line, whole and without its last byte.
    fn multi_byte(t: &mut Tally, m: &str, b: &[u32], a: &[u32]) {
        let line = "00000000000000000000000000000000,T,dpup:h0.1,+leftx:-a0~,a:b1,platform:Linux,";
        for at in 0..=line.len() {
            let mut s = line.as_bytes()[..at].to_vec();
            s.extend_from_slice(m.as_bytes());
            let whole = s.len();
            s.extend_from_slice(&line.as_bytes()[at..]);
            compare::line(t, &s, b, a);
            s.remove(whole - 1);
            compare::line(t, &s, b, a);
            compare::text(t, &s[..whole - 1]);
        }
    }

    /// Around 256 codes in a map and 1024 in a list.
    fn many_codes(t: &mut Tally) {
        for n in [255, 256, 257, 258, 300] {
            let codes: Vec<u32> = (0..n).map(|k| 7 * k + 1).collect();
            let pairs: String = (0..n).map(|k| format!("a:b{k},")).collect();
            for end in ["", "b:b0,", "dpup:h0.1,", "dpup:h0.5,", "a:h1.1,", "a:b9999,", "leftx:h0.2,", "q:b0,"] {
                compare::line(t, format!("{U},T,{pairs}{end}").as_bytes(), &codes, &[]);
                compare::line(t, format!("{U},T,dpup:h0.1,{pairs}{end}").as_bytes(), &codes, &[]);
            }
        }
        for n in [1023, 1024, 1025] {
            let codes: Vec<u32> = (0..n).map(|k| 0x10100 + k).collect();
            for (b, a) in [(&codes[..], &[][..]), (&[], &codes), (&codes, &codes)] {
                for line in ["", "q", "xinput,T,a:b1023,leftx:a1023,"] {
                    compare::line(t, line.as_bytes(), b, a);
                }
                compare::line(t, b"\xff", b, a);
                compare::default(t, b, a);
                let mut s = AllSlots::new();
                s.insert(t, 1, 0x10100 + 1022);
                for name in [&b"T"[..], b",", b"\xff", &[b'n'; 8193]] {
                    compare::build(t, &s, b, a, name, [1; 16], 3000);
                }
            }
        }
    }

    /// Names about the limit, outputs about the line's length, and two refusals at once.
    fn builds(t: &mut Tally) {
        let b: Vec<u32> = (1..=19).map(|k| 0x100 + k).chain([0x101]).collect();
        let a: Vec<u32> = (1..=8).map(|k| 0x200 + k).collect();
        let mut full = AllSlots::new();
        for k in 1..=19 {
            full.insert(t, k, 0x100 + k as u32);
        }
        for k in 1..=6 {
            full.insert(t, AXIS + k, 0x200 + k as u32);
        }
        full.read(t);
        for n in [0, 1, 2047, 2048, 2049, 8191, 8192, 8193] {
            let name = vec![b'n'; n];
            compare::build(t, &full, &b, &a, &name, [0xab; 16], 9000);
            let len = 34 + n + 143 + 25 * 4;
            for room in [0, len - 26, len - 17, len - 16, len - 15, len - 1, len, len + 1] {
                compare::build(t, &full, &b, &a, &name, [0xab; 16], room);
            }
        }
        for e in [0, AXIS, AXIS + 7, AXIS + 8, 20, AXIS + 9, 1, AXIS + 1, AXIS + 6] {
            for code in [0x201, 0x207, 0x999, 0] {
                let mut s = AllSlots::new();
                s.insert(t, 2, 0x101);
                s.insert(t, e, code);
                for name in [&b"T"[..], b",", b"\xc3", b"platform:", b"\n"] {
                    compare::build(t, &s, &b, &a, name, [2; 16], 300);
                    compare::build(t, &s, &b, &a, name, [2; 16], 3);
                }
            }
        }
    }

    /// Every line of few signs, every short pair and value, and every text of few pieces.
    fn short_lines(t: &mut Tally) {
        let (b, a) = ([0x10130, 0x10131], [0x30000]);
        let signs = ["0", "1", "a", "b", "h", "+", "-", "~", ".", ":", ",", "é"];
        gen::all(&signs, 4, &mut |p| compare::line(t, format!("xinput,T,{p}").as_bytes(), &b, &a));
        gen::all(&signs, 4, &mut |p| compare::line(t, format!("xinput,T,dpup:{p}").as_bytes(), &b, &a));
        gen::all(&signs, 3, &mut |p| compare::line(t, format!("xinput,{p}").as_bytes(), &b, &a));
        gen::all(&["xinput", ",", ":", "a", "b0", "h0.1", U, "\u{80}"], 4, &mut |p| compare::line(t, p.as_bytes(), &b, &a));
        let u1 = "00000000000000000000000000000001";
        let pieces = ["\n", "\r", ",", u1, "00000000000000000000000000000002,", "platform:", "Linux", "x"];
        gen::all(&pieces, 4, &mut |p| {
            let mut s = Sides::fresh(21 * 3, 200);
            s.insert(t, HALL, p.as_bytes());
            s.look_up(t);
        });
        let digits = ["0", "1", "9", "+", "-", "6", "5", "\u{ff10}"];
        gen::all(&digits, 5, &mut |p| compare::text(t, p.as_bytes()));
        for c in 0..=0xffffu32 {
            let [_, _, x, y] = c.to_be_bytes();
            compare::text(t, &[b'a', x, y, b'b']);
            compare::text(t, &[x, y, 0x80]);
            compare::text(t, &[x, y, 0xbf, 0x80]);
        }
    }
}
